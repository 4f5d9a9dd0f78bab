//! The constants of `include/ntns.h`. Written by bindings/generate.py.

use crate::{Attribute, Status, Type};

/// `NTNS_VERSION` of the header that the crate is for.
pub const VERSION: u32 = 1;

impl Status {
    pub const SUCCESS: Status = Status(0x00000000);
    pub const PENDING: Status = Status(0x00000103);
    pub const MORE_ENTRIES: Status = Status(0x00000105);
    pub const OBJECT_NAME_EXISTS: Status = Status(0x40000000);
    pub const NO_MORE_ENTRIES: Status = Status(0x8000001A);
    pub const INVALID_HANDLE: Status = Status(0xC0000008);
    pub const INVALID_PARAMETER: Status = Status(0xC000000D);
    pub const NO_MEMORY: Status = Status(0xC0000017);
    pub const ACCESS_DENIED: Status = Status(0xC0000022);
    pub const BUFFER_TOO_SMALL: Status = Status(0xC0000023);
    pub const OBJECT_TYPE_MISMATCH: Status = Status(0xC0000024);
    pub const OBJECT_NAME_INVALID: Status = Status(0xC0000033);
    pub const OBJECT_NAME_NOT_FOUND: Status = Status(0xC0000034);
    pub const OBJECT_NAME_COLLISION: Status = Status(0xC0000035);
    pub const OBJECT_PATH_NOT_FOUND: Status = Status(0xC000003A);
    pub const OBJECT_PATH_SYNTAX_BAD: Status = Status(0xC000003B);
    pub const INSUFFICIENT_RESOURCES: Status = Status(0xC000009A);
    pub const NAME_TOO_LONG: Status = Status(0xC0000106);
    pub const REPARSE_LIMIT: Status = Status(0xE0000001);
    pub const PROCESS_GONE: Status = Status(0xE0000002);
}

impl Attribute {
    pub const INHERIT: Attribute = Attribute(0x002);
    pub const PERMANENT: Attribute = Attribute(0x010);
    pub const EXCLUSIVE: Attribute = Attribute(0x020);
    pub const CASE_INSENSITIVE: Attribute = Attribute(0x040);
    pub const OPENIF: Attribute = Attribute(0x080);
    pub const OPENLINK: Attribute = Attribute(0x100);
}

impl Type {
    pub const ANY: Type = Type(0);
    pub const DIRECTORY: Type = Type(1);
    pub const SYMBOLIC_LINK: Type = Type(2);
    pub const EVENT: Type = Type(3);
    pub const MUTANT: Type = Type(4);
    pub const SEMAPHORE: Type = Type(5);
    pub const TIMER: Type = Type(6);
    pub const SECTION: Type = Type(7);
    pub const JOB: Type = Type(8);
    pub const IO_COMPLETION: Type = Type(9);
    pub const ALPC_PORT: Type = Type(10);
    pub const KEY: Type = Type(11);
    pub const DEVICE: Type = Type(12);
    pub const DRIVER: Type = Type(13);
    pub const FILE: Type = Type(14);
    pub const WINDOW_STATION: Type = Type(15);
    pub const DESKTOP: Type = Type(16);
    pub const PROCESS: Type = Type(17);
    pub const THREAD: Type = Type(18);
    pub const TOKEN: Type = Type(19);
    pub const CALLBACK: Type = Type(20);
    pub const PROFILE: Type = Type(21);
    pub const KEYED_EVENT: Type = Type(22);
    pub const SESSION: Type = Type(23);
    pub const PARTITION: Type = Type(24);
    pub const CONTROLLER: Type = Type(25);
    pub const ADAPTER: Type = Type(26);
    pub const ETW_REGISTRATION: Type = Type(27);
    pub const TM_TM: Type = Type(28);
    pub const TM_TX: Type = Type(29);
    pub const TM_RM: Type = Type(30);
    pub const TM_EN: Type = Type(31);
    pub const WAITABLE_PORT: Type = Type(32);
    pub const TP_WORKER_FACTORY: Type = Type(33);
    pub const FILTER_CONNECTION_PORT: Type = Type(34);
    pub const POWER_REQUEST: Type = Type(35);
    pub const DEBUG_OBJECT: Type = Type(36);
    pub const ETW_CONSUMER: Type = Type(37);
    pub const WMI_GUID: Type = Type(38);
}
