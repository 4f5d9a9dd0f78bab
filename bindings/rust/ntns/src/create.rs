//! Creates.

use crate::{Attribute, Handle, Process, Status, Type};
use ntns_sys as raw;

/// The kind of an object that is created.
#[derive(Clone, Copy)]
pub(crate) enum Kind<'t> {
    Directory,
    Shadowed(u32),
    Link(&'t [u8]),
    Object(Type, u64),
}

/// An object to create, with its attributes and the root of its name.
#[derive(Clone, Copy)]
pub struct Create<'a, 't> {
    process: Process<'a>,
    kind: Kind<'t>,
    attributes: Attribute,
    root: u32,
}

impl<'a, 't> Create<'a, 't> {
    pub(crate) fn new(process: Process<'a>, kind: Kind<'t>) -> Self {
        Self { process, kind, attributes: Attribute::default(), root: 0 }
    }

    /// With these attributes.
    pub fn attributes(self, attributes: Attribute) -> Self {
        Self { attributes, ..self }
    }

    /// With a name relative to this directory. Panics if that is a handle of another process.
    pub fn root(self, root: &Handle<'a>) -> Self {
        Self { root: self.process.own(root, "root"), ..self }
    }

    /// Creates it under a name; with OPENIF, opens what has the name.
    pub fn create(self, name: impl AsRef<[u8]>) -> Result<Handle<'a>, Status> {
        let name = name.as_ref();
        self.make(name.as_ptr(), name.len())
    }

    /// Creates it without a name.
    pub fn create_unnamed(self) -> Result<Handle<'a>, Status> {
        self.make(std::ptr::null(), 0)
    }

    fn make(self, name: *const u8, length: usize) -> Result<Handle<'a>, Status> {
        let Self { process, kind, attributes: Attribute(attributes), root } = self;
        let (number, name) = (process.number(), name.cast());
        process.handle(|space, handle| unsafe {
            match kind {
                Kind::Directory => raw::ntns_create_directory(space, number, root, name, length, attributes, handle),
                Kind::Shadowed(shadow) => raw::ntns_create_shadowed(space, number, root, name, length, attributes, shadow, handle),
                Kind::Link(target) => {
                    raw::ntns_create_link(space, number, root, name, length, attributes, target.as_ptr().cast(), target.len(), handle)
                }
                Kind::Object(Type(kind), user_data) => {
                    raw::ntns_create_object(space, number, root, name, length, attributes, kind, user_data, handle)
                }
            }
        })
    }
}
