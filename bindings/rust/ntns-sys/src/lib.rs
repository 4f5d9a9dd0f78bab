//! The declarations of `include/ntns.h`, which describes the calls. Written by bindings/generate.py.
#![no_std]
#![allow(non_camel_case_types)]

use core::ffi::c_char;

/// An NTSTATUS. Those with 0xE in front are this library's own.
pub type ntns_status = u32;

/// A namespace: all zeros before it is opened and after it is closed. It may be moved between calls; ntns_copy makes another.
#[repr(C)]
#[derive(Debug, Default)]
pub struct ntns {
    pub words: [usize; 2],
}

/// An open that waits at a device or a key.
#[repr(C)]
#[derive(Debug, Clone, Copy, Default, PartialEq, Eq)]
pub struct ntns_pending {
    pub ticket: u64,
    pub id: u64,
    pub user_data: u64,
    pub kind: u32,
}

/// A row of a listing.
#[repr(C)]
#[derive(Debug, Clone, Copy, Default, PartialEq, Eq)]
pub struct ntns_row {
    pub context: u64,
    pub kind: u32,
    pub name: u32,
    pub length: u32,
}

/// A handle of a process.
#[repr(C)]
#[derive(Debug, Clone, Copy, Default, PartialEq, Eq)]
pub struct ntns_handle {
    pub value: u32,
    pub kind: u32,
    pub user_data: u64,
    pub id: u64,
    pub inherit: bool,
    pub permanent: bool,
    pub exclusive: bool,
    pub handles: u32,
}

/// An object of the caller's that was deleted.
#[repr(C)]
#[derive(Debug, Clone, Copy, Default, PartialEq, Eq)]
pub struct ntns_deletion {
    pub kind: u32,
    pub user_data: u64,
    pub id: u64,
    pub parsed: bool,
}

pub const NTNS_VERSION: u32 = 1;
pub const NTNS_STATUS_SUCCESS: u32 = 0x00000000;
pub const NTNS_STATUS_PENDING: u32 = 0x00000103;
pub const NTNS_STATUS_MORE_ENTRIES: u32 = 0x00000105;
pub const NTNS_STATUS_OBJECT_NAME_EXISTS: u32 = 0x40000000;
pub const NTNS_STATUS_NO_MORE_ENTRIES: u32 = 0x8000001A;
pub const NTNS_STATUS_INVALID_HANDLE: u32 = 0xC0000008;
pub const NTNS_STATUS_INVALID_PARAMETER: u32 = 0xC000000D;
pub const NTNS_STATUS_NO_MEMORY: u32 = 0xC0000017;
pub const NTNS_STATUS_ACCESS_DENIED: u32 = 0xC0000022;
pub const NTNS_STATUS_BUFFER_TOO_SMALL: u32 = 0xC0000023;
pub const NTNS_STATUS_OBJECT_TYPE_MISMATCH: u32 = 0xC0000024;
pub const NTNS_STATUS_OBJECT_NAME_INVALID: u32 = 0xC0000033;
pub const NTNS_STATUS_OBJECT_NAME_NOT_FOUND: u32 = 0xC0000034;
pub const NTNS_STATUS_OBJECT_NAME_COLLISION: u32 = 0xC0000035;
pub const NTNS_STATUS_OBJECT_PATH_NOT_FOUND: u32 = 0xC000003A;
pub const NTNS_STATUS_OBJECT_PATH_SYNTAX_BAD: u32 = 0xC000003B;
pub const NTNS_STATUS_INSUFFICIENT_RESOURCES: u32 = 0xC000009A;
pub const NTNS_STATUS_NAME_TOO_LONG: u32 = 0xC0000106;
pub const NTNS_STATUS_REPARSE_LIMIT: u32 = 0xE0000001;
pub const NTNS_STATUS_PROCESS_GONE: u32 = 0xE0000002;
pub const NTNS_OBJ_INHERIT: u32 = 0x002;
pub const NTNS_OBJ_PERMANENT: u32 = 0x010;
pub const NTNS_OBJ_EXCLUSIVE: u32 = 0x020;
pub const NTNS_OBJ_CASE_INSENSITIVE: u32 = 0x040;
pub const NTNS_OBJ_OPENIF: u32 = 0x080;
pub const NTNS_OBJ_OPENLINK: u32 = 0x100;
pub const NTNS_TYPE_ANY: u32 = 0;
pub const NTNS_TYPE_DIRECTORY: u32 = 1;
pub const NTNS_TYPE_SYMBOLIC_LINK: u32 = 2;
pub const NTNS_TYPE_EVENT: u32 = 3;
pub const NTNS_TYPE_MUTANT: u32 = 4;
pub const NTNS_TYPE_SEMAPHORE: u32 = 5;
pub const NTNS_TYPE_TIMER: u32 = 6;
pub const NTNS_TYPE_SECTION: u32 = 7;
pub const NTNS_TYPE_JOB: u32 = 8;
pub const NTNS_TYPE_IO_COMPLETION: u32 = 9;
pub const NTNS_TYPE_ALPC_PORT: u32 = 10;
pub const NTNS_TYPE_KEY: u32 = 11;
pub const NTNS_TYPE_DEVICE: u32 = 12;
pub const NTNS_TYPE_DRIVER: u32 = 13;
pub const NTNS_TYPE_FILE: u32 = 14;
pub const NTNS_TYPE_WINDOW_STATION: u32 = 15;
pub const NTNS_TYPE_DESKTOP: u32 = 16;
pub const NTNS_TYPE_PROCESS: u32 = 17;
pub const NTNS_TYPE_THREAD: u32 = 18;
pub const NTNS_TYPE_TOKEN: u32 = 19;
pub const NTNS_TYPE_CALLBACK: u32 = 20;
pub const NTNS_TYPE_PROFILE: u32 = 21;
pub const NTNS_TYPE_KEYED_EVENT: u32 = 22;
pub const NTNS_TYPE_SESSION: u32 = 23;
pub const NTNS_TYPE_PARTITION: u32 = 24;
pub const NTNS_TYPE_CONTROLLER: u32 = 25;
pub const NTNS_TYPE_ADAPTER: u32 = 26;
pub const NTNS_TYPE_ETW_REGISTRATION: u32 = 27;
pub const NTNS_TYPE_TM_TM: u32 = 28;
pub const NTNS_TYPE_TM_TX: u32 = 29;
pub const NTNS_TYPE_TM_RM: u32 = 30;
pub const NTNS_TYPE_TM_EN: u32 = 31;
pub const NTNS_TYPE_WAITABLE_PORT: u32 = 32;
pub const NTNS_TYPE_TP_WORKER_FACTORY: u32 = 33;
pub const NTNS_TYPE_FILTER_CONNECTION_PORT: u32 = 34;
pub const NTNS_TYPE_POWER_REQUEST: u32 = 35;
pub const NTNS_TYPE_DEBUG_OBJECT: u32 = 36;
pub const NTNS_TYPE_ETW_CONSUMER: u32 = 37;
pub const NTNS_TYPE_WMI_GUID: u32 = 38;

#[rustfmt::skip]
unsafe extern "C" {
    pub fn ntns_open(ns: *mut ntns) -> ntns_status;
    pub fn ntns_copy(from: *const ntns, to: *mut ntns) -> ntns_status;
    pub fn ntns_close(ns: *mut ntns);
    pub fn ntns_create_directory(ns: *mut ntns, process: u32, root: u32, name: *const c_char, name_len: usize, attributes: u32, handle: *mut u32) -> ntns_status;
    pub fn ntns_create_shadowed(ns: *mut ntns, process: u32, root: u32, name: *const c_char, name_len: usize, attributes: u32, shadow: u32, handle: *mut u32) -> ntns_status;
    pub fn ntns_create_link(ns: *mut ntns, process: u32, root: u32, name: *const c_char, name_len: usize, attributes: u32, target: *const c_char, target_len: usize, handle: *mut u32) -> ntns_status;
    pub fn ntns_create_object(ns: *mut ntns, process: u32, root: u32, name: *const c_char, name_len: usize, attributes: u32, kind: u32, user_data: u64, handle: *mut u32) -> ntns_status;
    pub fn ntns_open_directory(ns: *mut ntns, process: u32, root: u32, name: *const c_char, name_len: usize, attributes: u32, handle: *mut u32) -> ntns_status;
    pub fn ntns_open_link(ns: *mut ntns, process: u32, root: u32, name: *const c_char, name_len: usize, attributes: u32, handle: *mut u32) -> ntns_status;
    pub fn ntns_open_object(ns: *mut ntns, process: u32, root: u32, name: *const c_char, name_len: usize, attributes: u32, kind: u32, handle: *mut u32) -> ntns_status;
    pub fn ntns_begin_open(ns: *mut ntns, process: u32, root: u32, name: *const c_char, name_len: usize, attributes: u32, kind: u32, handle: *mut u32, pending: *mut ntns_pending, rest: *mut c_char, capacity: usize, length: *mut usize) -> ntns_status;
    pub fn ntns_end_open(ns: *mut ntns, ticket: u64, handle: *mut u32) -> ntns_status;
    pub fn ntns_cancel_open(ns: *mut ntns, ticket: u64) -> ntns_status;
    pub fn ntns_close_handle(ns: *mut ntns, process: u32, handle: u32) -> ntns_status;
    pub fn ntns_duplicate(ns: *mut ntns, process: u32, handle: u32, to: u32, inherit: bool, copy: *mut u32) -> ntns_status;
    pub fn ntns_set_inherit(ns: *mut ntns, process: u32, handle: u32, inherit: bool) -> ntns_status;
    pub fn ntns_make_temporary(ns: *mut ntns, process: u32, handle: u32) -> ntns_status;
    pub fn ntns_make_permanent(ns: *mut ntns, process: u32, handle: u32) -> ntns_status;
    pub fn ntns_query_link(ns: *mut ntns, process: u32, handle: u32, buffer: *mut c_char, capacity: usize, length: *mut usize) -> ntns_status;
    pub fn ntns_query_name(ns: *mut ntns, process: u32, handle: u32, buffer: *mut c_char, capacity: usize, length: *mut usize) -> ntns_status;
    pub fn ntns_query_file(ns: *mut ntns, process: u32, handle: u32, buffer: *mut c_char, capacity: usize, length: *mut usize) -> ntns_status;
    pub fn ntns_next_entry(ns: *mut ntns, process: u32, handle: u32, context: *mut u64, buffer: *mut c_char, capacity: usize, length: *mut usize, kind: *mut u32) -> ntns_status;
    pub fn ntns_next_page(ns: *mut ntns, process: u32, handle: u32, context: *mut u64, buffer: *mut c_char, capacity: usize, length: *mut usize) -> ntns_status;
    pub fn ntns_next_rows(ns: *mut ntns, process: u32, handle: u32, context: *mut u64, rows: *mut ntns_row, count: *mut usize, buffer: *mut c_char, capacity: usize) -> ntns_status;
    pub fn ntns_set_device_map(ns: *mut ntns, process: u32, handle: u32) -> ntns_status;
    pub fn ntns_new_process(ns: *mut ntns, process: u32, inherit: bool, child: *mut u32) -> ntns_status;
    pub fn ntns_exit_process(ns: *mut ntns, process: u32) -> ntns_status;
    pub fn ntns_query_object(ns: *mut ntns, process: u32, handle: u32, kind: *mut u32, user_data: *mut u64, id: *mut u64) -> ntns_status;
    pub fn ntns_query_handle(ns: *mut ntns, process: u32, value: u32, handle: *mut ntns_handle) -> ntns_status;
    pub fn ntns_next_handle(ns: *mut ntns, process: u32, context: *mut u64, handle: *mut ntns_handle) -> ntns_status;
    pub fn ntns_next_process(ns: *mut ntns, process: *mut u32) -> ntns_status;
    pub fn ntns_next_deletion(ns: *mut ntns, deletion: *mut ntns_deletion) -> ntns_status;
    pub fn ntns_status_text(status: ntns_status) -> *const c_char;
    pub fn ntns_type_name(kind: u32) -> *const c_char;
}
