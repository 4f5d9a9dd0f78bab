//! The naming half of the NT object manager, in memory: object directories, symbolic links, objects of the caller's own, and processes with handles.
//!
//! ```
//! use ntns::{Namespace, Type};
//!
//! # fn main() -> Result<(), ntns::Status> {
//! let namespace = Namespace::open()?;
//! let system = namespace.process(1);
//! let _disk = system.object(Type::DEVICE, 7).create(r"\Device\Disk")?;
//! let _drive = system.link(r"\Device\Disk").create(r"\??\C:")?;
//! let file = system.open(Type::FILE, r"\??\C:\a.txt")?;
//! assert_eq!(file.query()?.user_data, 7);
//! assert_eq!(file.file_text()?, r"\a.txt");
//! # Ok(())
//! # }
//! ```
//!
//! `docs/c.md` describes the calls of the library, the statuses of each in their order, and what a refusal changes. Names and texts are bytes from 0x20 to 0x7E;
//! the library refuses others.
//!
//! A [`Namespace`] is `Send` and not `Sync`. Threads share it in a `Mutex`:
//!
//! ```
//! use ntns::Namespace;
//! use std::sync::Mutex;
//!
//! # fn main() -> Result<(), ntns::Status> {
//! let shared = Mutex::new(Namespace::open()?);
//! std::thread::scope(|threads| {
//!     for _ in 0..2 {
//!         threads.spawn(|| shared.lock().unwrap().process(1).directory().create_unnamed().is_ok());
//!     }
//! });
//! # Ok(())
//! # }
//! ```
//!
//! ```compile_fail
//! fn is_sync<T: Sync>() {}
//! is_sync::<ntns::Namespace>();
//! ```

mod constants;
mod create;

use ntns_sys as raw;
use std::cell::UnsafeCell;
use std::ffi::{c_char, CStr};
use std::fmt;

pub use constants::VERSION;
pub use create::Create;

/// An NTSTATUS. As an error it is that of a refused call.
#[derive(Clone, Copy, PartialEq, Eq, Hash)]
pub struct Status(pub u32);

/// The type of an object.
#[derive(Clone, Copy, PartialEq, Eq, Hash)]
pub struct Type(pub u32);

/// Attributes, as of OBJECT_ATTRIBUTES, joined by `|`.
#[derive(Debug, Clone, Copy, Default, PartialEq, Eq, Hash)]
pub struct Attribute(pub u32);

/// The object of a handle. The user data of directories and links is 0. No other object of the namespace ever has this id.
#[derive(Debug, Clone, Copy, PartialEq, Eq)]
pub struct Object {
    pub kind: Type,
    pub user_data: u64,
    pub id: u64,
}

/// An entry of a directory.
#[derive(Debug, Clone, PartialEq, Eq)]
pub struct Entry {
    pub name: String,
    pub kind: Type,
}

/// An entry of a directory, and the context that a listing goes on from after it.
#[derive(Debug, Clone, PartialEq, Eq)]
pub struct Row {
    pub name: String,
    pub kind: Type,
    pub context: u64,
}

/// A handle as a listing or a query reports it: its value, its object, and the object's attributes. `handles` are those to the object, of all processes.
#[derive(Debug, Clone, Copy, PartialEq, Eq)]
pub struct Opened {
    pub value: u32,
    pub object: Object,
    pub inherit: bool,
    pub permanent: bool,
    pub exclusive: bool,
    pub handles: u32,
}

/// A deleted object. The id is that of [`Handle::query`], or 0 where no handle to it was ever given; `parsed` says that an open through a device or a key made it.
#[derive(Debug, Clone, Copy, PartialEq, Eq)]
pub struct Deletion {
    pub kind: Type,
    pub user_data: u64,
    pub id: u64,
    pub parsed: bool,
}

/// A namespace with process 1, closed when it is dropped.
pub struct Namespace {
    space: UnsafeCell<raw::ntns>,
}

/// A process of a namespace.
#[derive(Clone, Copy)]
pub struct Process<'a> {
    namespace: &'a Namespace,
    number: u32,
}

/// How an open in two phases began.
#[derive(Debug)]
pub enum Begun<'a> {
    /// The name led through no device and no key, and this is the handle.
    Opened(Handle<'a>),
    /// The open is pending.
    Pending(Pending<'a>),
}

/// An open that is pending at a device or a key, with the rest of its name. It is cancelled when it is dropped.
pub struct Pending<'a> {
    process: Process<'a>,
    ticket: u64,
    object: Object,
    rest: String,
}

/// A handle, closed when it is dropped.
pub struct Handle<'a> {
    process: Process<'a>,
    value: u32,
}

impl Namespace {
    /// Opens a namespace. The error is `NO_MEMORY`.
    pub fn open() -> Result<Self, Status> {
        let namespace = Self { space: UnsafeCell::new(raw::ntns::default()) };
        namespace.call(|space| unsafe { raw::ntns_open(space) })?;
        Ok(namespace)
    }

    /// Another namespace in the same state, pending opens and untaken deletions included. Neither changes the other afterwards. The error is `NO_MEMORY`.
    pub fn copy(&self) -> Result<Self, Status> {
        let copy = Self { space: UnsafeCell::new(raw::ntns::default()) };
        self.call(|space| unsafe { raw::ntns_copy(space, copy.space.get()) })?;
        Ok(copy)
    }

    /// The process with this number; 1 is there from the start.
    pub fn process(&self, number: u32) -> Process<'_> {
        Process { namespace: self, number }
    }

    /// The live processes, by rising numbers. Each that stays live throughout comes once.
    pub fn processes(&self) -> impl Iterator<Item = Process<'_>> + '_ {
        let mut number = 0;
        std::iter::from_fn(move || {
            self.call(|space| unsafe { raw::ntns_next_process(space, &mut number) }).ok()?;
            Some(self.process(number))
        })
    }

    /// Takes the deleted objects of the caller, each once, in order of deletion.
    pub fn deletions(&self) -> impl Iterator<Item = Deletion> + '_ {
        std::iter::from_fn(move || {
            let mut deletion = raw::ntns_deletion::default();
            self.call(|space| unsafe { raw::ntns_next_deletion(space, &mut deletion) }).ok()?;
            let raw::ntns_deletion { kind, user_data, id, parsed } = deletion;
            Some(Deletion { kind: Type(kind), user_data, id, parsed })
        })
    }

    /// Makes a call: its status, where that is a success.
    fn call(&self, make: impl FnOnce(*mut raw::ntns) -> u32) -> Result<Status, Status> {
        // The namespace isn't Sync, and no call calls back: nobody else uses it meanwhile.
        match Status(make(self.space.get())) {
            status if status.is_success() => Ok(status),
            status => Err(status),
        }
    }

    /// Makes a call that fills a buffer of a length that it gives.
    fn text(&self, mut make: impl FnMut(*mut raw::ntns, *mut c_char, usize, &mut usize) -> u32) -> Result<String, Status> {
        let (mut buffer, mut length) = (vec![0u8; 256], 0);
        loop {
            match self.call(|space| make(space, buffer.as_mut_ptr().cast(), buffer.len(), &mut length)) {
                Err(Status::BUFFER_TOO_SMALL) => buffer.resize(length, 0),
                Err(status) => return Err(status),
                Ok(_) => {
                    buffer.truncate(length);
                    return Ok(String::from_utf8(buffer).expect("texts of a namespace are ASCII"));
                }
            }
        }
    }
}

impl Drop for Namespace {
    fn drop(&mut self) {
        unsafe { raw::ntns_close(self.space.get()) }
    }
}

impl<'a> Process<'a> {
    /// Its number.
    pub fn number(self) -> u32 {
        self.number
    }

    /// NtCreateDirectoryObject: the directory to create.
    pub fn directory(self) -> Create<'a, 'static> {
        Create::new(self, create::Kind::Directory)
    }

    /// NtCreateDirectoryObjectEx: the directory to create, which shows the entries of its shadow, another directory, where it has none of that name. Panics if
    /// the shadow is a handle of another process.
    pub fn shadowed(self, shadow: &Handle<'a>) -> Create<'a, 'static> {
        Create::new(self, create::Kind::Shadowed(self.own(shadow, "shadow")))
    }

    /// NtCreateSymbolicLinkObject: the link to create.
    pub fn link<'t>(self, target: &'t (impl AsRef<[u8]> + ?Sized)) -> Create<'a, 't> {
        Create::new(self, create::Kind::Link(target.as_ref()))
    }

    /// NtCreateEvent, NtCreateMutant and so on: the object to create, with 64 bits of user data.
    pub fn object(self, kind: Type, user_data: u64) -> Create<'a, 'static> {
        Create::new(self, create::Kind::Object(kind, user_data))
    }

    /// NtOpenEvent, NtOpenFile and so on; with [`Type::ANY`] whatever object the name leads to.
    pub fn open(self, kind: Type, name: impl AsRef<[u8]>) -> Result<Handle<'a>, Status> {
        self.open_with(kind, name, Attribute::default(), None)
    }

    /// The same with attributes, and relative to a root if there is one. Panics if that is a handle of another process.
    pub fn open_with(self, kind: Type, name: impl AsRef<[u8]>, attributes: Attribute, root: Option<&Handle<'a>>) -> Result<Handle<'a>, Status> {
        let (name, root) = (name.as_ref(), root.map_or(0, |root| self.own(root, "root")));
        self.handle(|space, handle| unsafe {
            let text = (name.as_ptr().cast(), name.len());
            match kind {
                Type::DIRECTORY => raw::ntns_open_directory(space, self.number, root, text.0, text.1, attributes.0, handle),
                Type::SYMBOLIC_LINK => raw::ntns_open_link(space, self.number, root, text.0, text.1, attributes.0, handle),
                Type(number) => raw::ntns_open_object(space, self.number, root, text.0, text.1, attributes.0, number, handle),
            }
        })
    }

    /// `open_with` in two phases, so that a caller asks its file system or registry before it has a handle.
    pub fn begin_open(self, kind: Type, name: impl AsRef<[u8]>, attributes: Attribute, root: Option<&Handle<'a>>) -> Result<Begun<'a>, Status> {
        let (name, root) = (name.as_ref(), root.map_or(0, |root| self.own(root, "root")));
        let (mut value, mut pending) = (0, raw::ntns_pending::default());
        let rest = self.namespace.text(|space, buffer, capacity, length| unsafe {
            let (text, size) = (name.as_ptr().cast(), name.len());
            raw::ntns_begin_open(space, self.number, root, text, size, attributes.0, kind.0, &mut value, &mut pending, buffer, capacity, length)
        })?;
        let raw::ntns_pending { ticket, id, user_data, kind } = pending;
        match ticket {
            0 => Ok(Begun::Opened(self.adopt(value))),
            _ => Ok(Begun::Pending(Pending { process: self, ticket, object: Object { kind: Type(kind), user_data, id }, rest })),
        }
    }

    /// A child, with the device map of this process and with `inherit` its handles that have INHERIT, under the same values.
    pub fn new_process(self, inherit: bool) -> Result<Process<'a>, Status> {
        let mut number = 0;
        self.namespace.call(|space| unsafe { raw::ntns_new_process(space, self.number, inherit, &mut number) })?;
        Ok(Process { number, ..self })
    }

    /// Ends the process: its handles are closed in the order in which they were opened.
    pub fn exit(self) -> Result<(), Status> {
        self.namespace.call(|space| unsafe { raw::ntns_exit_process(space, self.number) })?;
        Ok(())
    }

    /// NtQuerySystemInformation: the handles, in the order in which they were opened. Each that stays open throughout comes once.
    pub fn handles(self) -> impl Iterator<Item = Opened> + 'a {
        let mut context = 0;
        std::iter::from_fn(move || {
            let mut handle = raw::ntns_handle::default();
            self.namespace.call(|space| unsafe { raw::ntns_next_handle(space, self.number, &mut context, &mut handle) }).ok()?;
            Some(Opened::from(handle))
        })
    }

    /// The handle of this value, as one that a child inherited. It is closed when it is dropped.
    pub fn adopt(self, value: u32) -> Handle<'a> {
        Handle { process: self, value }
    }

    /// The value of a handle, which has to be one of this process.
    pub(crate) fn own(self, handle: &Handle<'_>, what: &str) -> u32 {
        let is_own = std::ptr::eq(handle.process.namespace, self.namespace) && handle.process.number == self.number;
        assert!(is_own, "the {} is a handle of another process", what);
        handle.value
    }

    /// The handle that a call gives.
    fn handle(self, make: impl FnOnce(*mut raw::ntns, *mut u32) -> u32) -> Result<Handle<'a>, Status> {
        let mut value = 0;
        self.namespace.call(|space| make(space, &mut value))?;
        Ok(self.adopt(value))
    }
}

impl<'a> Pending<'a> {
    /// The device or key at which it is pending.
    pub fn object(&self) -> Object {
        self.object
    }

    /// The part of the name that follows that object.
    pub fn rest(&self) -> &str {
        &self.rest
    }

    /// Opens the file or the key, or the key at which it is pending.
    pub fn end(mut self) -> Result<Handle<'a>, Status> {
        let ticket = std::mem::take(&mut self.ticket);
        self.process.handle(|space, handle| unsafe { raw::ntns_end_open(space, ticket, handle) })
    }
}

impl Drop for Pending<'_> {
    fn drop(&mut self) {
        // Where it was ended it has no ticket any more, and nothing is cancelled.
        let _ = self.process.namespace.call(|space| unsafe { raw::ntns_cancel_open(space, self.ticket) });
    }
}

impl<'a> Handle<'a> {
    /// Its value, a multiple of four.
    pub fn value(&self) -> u32 {
        self.value
    }

    /// Keeps it open; its value.
    pub fn into_value(self) -> u32 {
        std::mem::ManuallyDrop::new(self).value
    }

    /// NtClose, with its status.
    pub fn close(self) -> Result<(), Status> {
        std::mem::ManuallyDrop::new(self).make(raw::ntns_close_handle)
    }

    /// NtDuplicateObject: another handle to the object, of the process `to`. Panics if that is a process of another namespace.
    pub fn duplicate(&self, to: Process<'a>, inherit: bool) -> Result<Handle<'a>, Status> {
        assert!(std::ptr::eq(to.namespace, self.process.namespace), "the process is one of another namespace");
        let mut copy = 0;
        self.call(|space, process, value| unsafe { raw::ntns_duplicate(space, process, value, to.number, inherit, &mut copy) })?;
        Ok(to.adopt(copy))
    }

    /// NtSetInformationObject with ObjectHandleFlagInformation: whether children inherit it. It keeps its value; if the flag changes, it comes last in the order of opening.
    pub fn set_inherit(&self, inherit: bool) -> Result<(), Status> {
        self.call(|space, process, value| unsafe { raw::ntns_set_inherit(space, process, value, inherit) })
    }

    /// NtMakeTemporaryObject: the object loses its name with its last handle.
    pub fn make_temporary(&self) -> Result<(), Status> {
        self.make(raw::ntns_make_temporary)
    }

    /// NtMakePermanentObject: the object keeps its name without handles.
    pub fn make_permanent(&self) -> Result<(), Status> {
        self.make(raw::ntns_make_permanent)
    }

    /// NtSetInformationProcess with ProcessDeviceMap: `\??` is then this directory before `\GLOBAL??`, for its process.
    pub fn set_device_map(&self) -> Result<(), Status> {
        self.make(raw::ntns_set_device_map)
    }

    /// NtQuerySymbolicLinkObject.
    pub fn target(&self) -> Result<String, Status> {
        self.text(raw::ntns_query_link)
    }

    /// ObQueryNameString: empty if the object or a directory above it has no name.
    pub fn path(&self) -> Result<String, Status> {
        self.text(raw::ntns_query_name)
    }

    /// The part of its name that an open of a file or a key left to its device or key; empty if it was created.
    pub fn file_text(&self) -> Result<String, Status> {
        self.text(raw::ntns_query_file)
    }

    /// ObReferenceObjectByHandle.
    pub fn query(&self) -> Result<Object, Status> {
        let (mut kind, mut user_data, mut id) = (0, 0, 0);
        self.call(|space, process, value| unsafe { raw::ntns_query_object(space, process, value, &mut kind, &mut user_data, &mut id) })?;
        Ok(Object { kind: Type(kind), user_data, id })
    }

    /// NtQueryObject with ObjectBasicInformation: the handle, its object and the object's attributes.
    pub fn attributes(&self) -> Result<Opened, Status> {
        let mut handle = raw::ntns_handle::default();
        self.call(|space, process, value| unsafe { raw::ntns_query_handle(space, process, value, &mut handle) })?;
        Ok(Opened::from(handle))
    }

    /// NtQueryDirectoryObject: the entries of the directory, in the order in which they were made. Each that stays throughout comes once. A refusal is the last item.
    pub fn entries(&self) -> impl Iterator<Item = Result<Entry, Status>> + '_ {
        let (mut context, mut is_over) = (0, false);
        std::iter::from_fn(move || {
            if is_over {
                return None;
            }
            let mut kind = 0;
            let (process, value) = (self.process.number, self.value);
            let name = self.process.namespace.text(|space, buffer, capacity, length| unsafe {
                raw::ntns_next_entry(space, process, value, &mut context, buffer, capacity, length, &mut kind)
            });
            is_over = name.is_err();
            match name {
                Err(Status::NO_MORE_ENTRIES) => None,
                name => Some(name.map(|name| Entry { name, kind: Type(kind) })),
            }
        })
    }

    /// NtQueryDirectoryObject: the entries of the directory after a context, each with its own; 0 is the beginning. A call of the library gives up to 64, as the
    /// directory is at one moment. Each that stays throughout comes once. A refusal is the last item.
    pub fn rows(&self, context: u64) -> impl Iterator<Item = Result<Row, Status>> + '_ {
        let (mut context, mut rows, mut is_over) = (context, Vec::new().into_iter(), false);
        std::iter::from_fn(move || {
            if rows.len() == 0 && !is_over {
                match self.next_rows(&mut context) {
                    Ok(next) => rows = next.into_iter(),
                    Err(status) => {
                        is_over = true;
                        return (status != Status::NO_MORE_ENTRIES).then_some(Err(status));
                    }
                }
            }
            rows.next().map(Ok)
        })
    }

    /// The rows that a call gives, with room for any name.
    fn next_rows(&self, context: &mut u64) -> Result<Vec<Row>, Status> {
        let (mut rows, mut names) = ([raw::ntns_row::default(); 64], vec![0u8; 65536]);
        let (mut count, buffer, capacity) = (rows.len(), names.as_mut_ptr().cast(), names.len());
        self.call(|space, process, value| unsafe {
            raw::ntns_next_rows(space, process, value, context, rows.as_mut_ptr(), &mut count, buffer, capacity)
        })?;
        Ok(rows[..count]
            .iter()
            .map(|row| {
                let name = &names[row.name as usize..][..row.length as usize];
                Row { name: String::from_utf8(name.into()).expect("names of a namespace are ASCII"), kind: Type(row.kind), context: row.context }
            })
            .collect())
    }

    /// Makes a call with the process and the value.
    fn call(&self, make: impl FnOnce(*mut raw::ntns, u32, u32) -> u32) -> Result<(), Status> {
        self.process.namespace.call(|space| make(space, self.process.number, self.value))?;
        Ok(())
    }

    /// Makes a call that takes nothing else.
    fn make(&self, call: unsafe extern "C" fn(*mut raw::ntns, u32, u32) -> u32) -> Result<(), Status> {
        self.call(|space, process, value| unsafe { call(space, process, value) })
    }

    /// The text that a call gives.
    fn text(&self, call: unsafe extern "C" fn(*mut raw::ntns, u32, u32, *mut c_char, usize, *mut usize) -> u32) -> Result<String, Status> {
        let (process, value) = (self.process.number, self.value);
        self.process.namespace.text(|space, buffer, capacity, length| unsafe { call(space, process, value, buffer, capacity, length) })
    }
}

impl Drop for Handle<'_> {
    fn drop(&mut self) {
        // It may be closed already, as by the exit of its process.
        let _ = self.make(raw::ntns_close_handle);
    }
}

impl From<raw::ntns_handle> for Opened {
    fn from(handle: raw::ntns_handle) -> Self {
        let raw::ntns_handle { value, kind, user_data, id, inherit, permanent, exclusive, handles } = handle;
        let object = Object { kind: Type(kind), user_data, id };
        Self { value, object, inherit, permanent, exclusive, handles }
    }
}

impl Status {
    /// Whether a call did what was asked: as NT_SUCCESS.
    pub fn is_success(self) -> bool {
        self.0 < 0x8000_0000
    }

    /// Its name, as "OBJECT_NAME_NOT_FOUND", if it is one of the library's.
    pub fn name(self) -> Option<&'static str> {
        text_of(unsafe { raw::ntns_status_text(self.0) })
    }
}

impl Type {
    /// Its name, as Windows spells it: "Directory", "ALPC Port".
    pub fn name(self) -> Option<&'static str> {
        text_of(unsafe { raw::ntns_type_name(self.0) })
    }
}

/// A text of the library, which is there as long as the program.
fn text_of(text: *const c_char) -> Option<&'static str> {
    (!text.is_null()).then(|| unsafe { CStr::from_ptr(text) }.to_str().expect("texts of the library are ASCII"))
}

impl std::ops::BitOr for Attribute {
    type Output = Self;

    fn bitor(self, other: Self) -> Self {
        Self(self.0 | other.0)
    }
}

impl std::error::Error for Status {}

impl fmt::Display for Status {
    fn fmt(&self, formatter: &mut fmt::Formatter<'_>) -> fmt::Result {
        match self.name() {
            Some(name) => formatter.write_str(name),
            None => write!(formatter, "{:#010X}", self.0),
        }
    }
}

impl fmt::Debug for Status {
    fn fmt(&self, formatter: &mut fmt::Formatter<'_>) -> fmt::Result {
        fmt::Display::fmt(self, formatter)
    }
}

impl fmt::Debug for Type {
    fn fmt(&self, formatter: &mut fmt::Formatter<'_>) -> fmt::Result {
        write!(formatter, "{}", self.name().unwrap_or("any"))
    }
}

impl fmt::Debug for Pending<'_> {
    fn fmt(&self, formatter: &mut fmt::Formatter<'_>) -> fmt::Result {
        write!(formatter, "Pending({}, {}, {:?})", self.process.number, self.ticket, self.rest)
    }
}

impl fmt::Debug for Handle<'_> {
    fn fmt(&self, formatter: &mut fmt::Formatter<'_>) -> fmt::Result {
        write!(formatter, "Handle({}, {:#x})", self.process.number, self.value)
    }
}
