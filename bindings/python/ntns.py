r"""The naming half of the NT object manager, in memory, for Python 3.8 and later.

    >>> import ntns
    >>> with ntns.Namespace() as namespace:
    ...     system = namespace.process()
    ...     disk = system.create_object(ntns.Type.DEVICE, r"\Device\Disk", user_data=7)
    ...     drive = system.create_link(r"\??\C:", r"\Device\Disk")
    ...     with system.open(r"\??\C:\a.txt") as file:
    ...         print(file.query().type.name, file.query().user_data, file.file_text())
    FILE 7 \a.txt

The module loads libntns.so.1, which `make shared` builds: from the path in the environment variable NTNS_LIBRARY, else where the system finds it. docs/c.md
describes each call, its statuses, and what a refusal changes. A refused call raises NtError.

Names and texts are `str` or `bytes`. The namespace refuses bytes outside 0x20 to 0x7E. Only one thread at a time may use a namespace.
"""

import ctypes
import enum
import os
from ctypes import POINTER, byref, c_bool, c_char_p, c_size_t, c_uint32, c_uint64
from typing import Iterator, NamedTuple, Optional, Union

__all__ = ["Attribute", "Deletion", "Entry", "Handle", "Namespace", "NtError", "Object", "Pending", "Process", "Row", "Status", "Type", "VERSION"]

# ntns.h, written by bindings/generate.py

VERSION = 1


class Status(enum.IntEnum):
    """NTSTATUS values; those from 0xE0000000 on are this library's own."""

    SUCCESS = 0x00000000
    PENDING = 0x00000103
    MORE_ENTRIES = 0x00000105
    OBJECT_NAME_EXISTS = 0x40000000
    NO_MORE_ENTRIES = 0x8000001A
    INVALID_HANDLE = 0xC0000008
    INVALID_PARAMETER = 0xC000000D
    NO_MEMORY = 0xC0000017
    ACCESS_DENIED = 0xC0000022
    BUFFER_TOO_SMALL = 0xC0000023
    OBJECT_TYPE_MISMATCH = 0xC0000024
    OBJECT_NAME_INVALID = 0xC0000033
    OBJECT_NAME_NOT_FOUND = 0xC0000034
    OBJECT_NAME_COLLISION = 0xC0000035
    OBJECT_PATH_NOT_FOUND = 0xC000003A
    OBJECT_PATH_SYNTAX_BAD = 0xC000003B
    INSUFFICIENT_RESOURCES = 0xC000009A
    NAME_TOO_LONG = 0xC0000106
    REPARSE_LIMIT = 0xE0000001
    PROCESS_GONE = 0xE0000002


class Attribute(enum.IntFlag):
    """Attributes, as of OBJECT_ATTRIBUTES."""

    INHERIT = 0x002
    PERMANENT = 0x010
    EXCLUSIVE = 0x020
    CASE_INSENSITIVE = 0x040
    OPENIF = 0x080
    OPENLINK = 0x100


class Type(enum.IntEnum):
    """Types of objects; ANY is for opens alone."""

    ANY = 0
    DIRECTORY = 1
    SYMBOLIC_LINK = 2
    EVENT = 3
    MUTANT = 4
    SEMAPHORE = 5
    TIMER = 6
    SECTION = 7
    JOB = 8
    IO_COMPLETION = 9
    ALPC_PORT = 10
    KEY = 11
    DEVICE = 12
    DRIVER = 13
    FILE = 14
    WINDOW_STATION = 15
    DESKTOP = 16
    PROCESS = 17
    THREAD = 18
    TOKEN = 19
    CALLBACK = 20
    PROFILE = 21
    KEYED_EVENT = 22
    SESSION = 23
    PARTITION = 24
    CONTROLLER = 25
    ADAPTER = 26
    ETW_REGISTRATION = 27
    TM_TM = 28
    TM_TX = 29
    TM_RM = 30
    TM_EN = 31
    WAITABLE_PORT = 32
    TP_WORKER_FACTORY = 33
    FILTER_CONNECTION_PORT = 34
    POWER_REQUEST = 35
    DEBUG_OBJECT = 36
    ETW_CONSUMER = 37
    WMI_GUID = 38


class _Ntns(ctypes.Structure):
    """A namespace: all zeros before it is opened and after it is closed. It may be moved between calls; ntns_copy makes another."""

    _fields_ = [("words", c_size_t * 2)]


class _Pending(ctypes.Structure):
    """An open that waits at a device or a key."""

    _fields_ = [("ticket", c_uint64), ("id", c_uint64), ("user_data", c_uint64), ("type", c_uint32)]


class _Row(ctypes.Structure):
    """A row of a listing."""

    _fields_ = [("context", c_uint64), ("type", c_uint32), ("name", c_uint32), ("length", c_uint32)]


class _Handle(ctypes.Structure):
    """A handle of a process."""

    _fields_ = [("value", c_uint32), ("type", c_uint32), ("user_data", c_uint64), ("id", c_uint64), ("inherit", c_bool), ("permanent", c_bool), ("exclusive", c_bool), ("handles", c_uint32)]


class _Deletion(ctypes.Structure):
    """An object of the caller's that was deleted."""

    _fields_ = [("type", c_uint32), ("user_data", c_uint64), ("id", c_uint64), ("parsed", c_bool)]


# the result and the parameters of each call
_CALLS = {
    "ntns_open": (c_uint32, [POINTER(_Ntns)]),
    "ntns_copy": (c_uint32, [POINTER(_Ntns), POINTER(_Ntns)]),
    "ntns_close": (None, [POINTER(_Ntns)]),
    "ntns_create_directory": (c_uint32, [POINTER(_Ntns), c_uint32, c_uint32, c_char_p, c_size_t, c_uint32, POINTER(c_uint32)]),
    "ntns_create_shadowed": (c_uint32, [POINTER(_Ntns), c_uint32, c_uint32, c_char_p, c_size_t, c_uint32, c_uint32, POINTER(c_uint32)]),
    "ntns_create_link": (c_uint32, [POINTER(_Ntns), c_uint32, c_uint32, c_char_p, c_size_t, c_uint32, c_char_p, c_size_t, POINTER(c_uint32)]),
    "ntns_create_object": (c_uint32, [POINTER(_Ntns), c_uint32, c_uint32, c_char_p, c_size_t, c_uint32, c_uint32, c_uint64, POINTER(c_uint32)]),
    "ntns_open_directory": (c_uint32, [POINTER(_Ntns), c_uint32, c_uint32, c_char_p, c_size_t, c_uint32, POINTER(c_uint32)]),
    "ntns_open_link": (c_uint32, [POINTER(_Ntns), c_uint32, c_uint32, c_char_p, c_size_t, c_uint32, POINTER(c_uint32)]),
    "ntns_open_object": (c_uint32, [POINTER(_Ntns), c_uint32, c_uint32, c_char_p, c_size_t, c_uint32, c_uint32, POINTER(c_uint32)]),
    "ntns_begin_open": (c_uint32, [POINTER(_Ntns), c_uint32, c_uint32, c_char_p, c_size_t, c_uint32, c_uint32, POINTER(c_uint32), POINTER(_Pending), c_char_p, c_size_t, POINTER(c_size_t)]),
    "ntns_end_open": (c_uint32, [POINTER(_Ntns), c_uint64, POINTER(c_uint32)]),
    "ntns_cancel_open": (c_uint32, [POINTER(_Ntns), c_uint64]),
    "ntns_close_handle": (c_uint32, [POINTER(_Ntns), c_uint32, c_uint32]),
    "ntns_duplicate": (c_uint32, [POINTER(_Ntns), c_uint32, c_uint32, c_uint32, c_bool, POINTER(c_uint32)]),
    "ntns_set_inherit": (c_uint32, [POINTER(_Ntns), c_uint32, c_uint32, c_bool]),
    "ntns_make_temporary": (c_uint32, [POINTER(_Ntns), c_uint32, c_uint32]),
    "ntns_make_permanent": (c_uint32, [POINTER(_Ntns), c_uint32, c_uint32]),
    "ntns_query_link": (c_uint32, [POINTER(_Ntns), c_uint32, c_uint32, c_char_p, c_size_t, POINTER(c_size_t)]),
    "ntns_query_name": (c_uint32, [POINTER(_Ntns), c_uint32, c_uint32, c_char_p, c_size_t, POINTER(c_size_t)]),
    "ntns_query_file": (c_uint32, [POINTER(_Ntns), c_uint32, c_uint32, c_char_p, c_size_t, POINTER(c_size_t)]),
    "ntns_next_entry": (c_uint32, [POINTER(_Ntns), c_uint32, c_uint32, POINTER(c_uint64), c_char_p, c_size_t, POINTER(c_size_t), POINTER(c_uint32)]),
    "ntns_next_page": (c_uint32, [POINTER(_Ntns), c_uint32, c_uint32, POINTER(c_uint64), c_char_p, c_size_t, POINTER(c_size_t)]),
    "ntns_next_rows": (c_uint32, [POINTER(_Ntns), c_uint32, c_uint32, POINTER(c_uint64), POINTER(_Row), POINTER(c_size_t), c_char_p, c_size_t]),
    "ntns_set_device_map": (c_uint32, [POINTER(_Ntns), c_uint32, c_uint32]),
    "ntns_new_process": (c_uint32, [POINTER(_Ntns), c_uint32, c_bool, POINTER(c_uint32)]),
    "ntns_exit_process": (c_uint32, [POINTER(_Ntns), c_uint32]),
    "ntns_query_object": (c_uint32, [POINTER(_Ntns), c_uint32, c_uint32, POINTER(c_uint32), POINTER(c_uint64), POINTER(c_uint64)]),
    "ntns_query_handle": (c_uint32, [POINTER(_Ntns), c_uint32, c_uint32, POINTER(_Handle)]),
    "ntns_next_handle": (c_uint32, [POINTER(_Ntns), c_uint32, POINTER(c_uint64), POINTER(_Handle)]),
    "ntns_next_process": (c_uint32, [POINTER(_Ntns), POINTER(c_uint32)]),
    "ntns_next_deletion": (c_uint32, [POINTER(_Ntns), POINTER(_Deletion)]),
    "ntns_status_text": (c_char_p, [c_uint32]),
    "ntns_type_name": (c_char_p, [c_uint32]),
}

# end of ntns.h

Text = Union[str, bytes]


class NtError(Exception):
    """A refused call, with its status."""

    def __init__(self, status):
        super().__init__(status.name)
        self.status = status


class Object(NamedTuple):
    """The object of a handle. The user data of directories and links is 0. No other object of the namespace ever has this id."""

    type: Type
    user_data: int
    id: int


class Entry(NamedTuple):
    """A directory's entry."""

    name: str
    type: Type


class Row(NamedTuple):
    """A directory's entry, and the context that a listing goes on from after it."""

    name: str
    type: Type
    context: int


class Opened(NamedTuple):
    """A handle as a listing or a query reports it: its value, its object, and the object's attributes. `handles` are those to the object, of all processes."""

    value: int
    type: Type
    user_data: int
    id: int
    inherit: bool
    permanent: bool
    exclusive: bool
    handles: int


class Deletion(NamedTuple):
    """A deleted object. The id is that of `Handle.query`, or 0 where no handle to it was ever given; `parsed` says that an open through a device or a key made it."""

    type: Type
    user_data: int
    id: int
    parsed: bool


_LIBRARY = ctypes.CDLL(os.environ.get("NTNS_LIBRARY", "libntns.so.1"))

for _call, (_result, _parameters) in _CALLS.items():
    _function = getattr(_LIBRARY, _call)
    _function.restype, _function.argtypes = _result, _parameters


def _named(text: Optional[Text]):
    """A text and its length, as calls take them."""
    encoded = text.encode() if isinstance(text, str) else text
    return encoded, len(encoded or b"")


def _fitting(value, kind):
    """A number, which has to be one of a kind."""
    if not 0 <= value < 2 ** (8 * ctypes.sizeof(kind)):
        raise ValueError(f"{value} is no number of {8 * ctypes.sizeof(kind)} bits")
    return value


def _opened(handle):
    """A handle, of what a call fills."""
    flags = (handle.inherit, handle.permanent, handle.exclusive)
    return Opened(handle.value, Type(handle.type), handle.user_data, handle.id, *flags, handle.handles)


class Namespace:
    """A namespace with process 1, open until it is closed. A context manager."""

    def __init__(self):
        self._space = _Ntns()
        self._call("open")

    def __enter__(self):
        return self

    def __exit__(self, *_):
        self.close()

    def __del__(self):
        self.close()

    def close(self):
        """Frees all memory of the namespace. It reports no deletions. Every other call is refused afterwards; another close does nothing."""
        _LIBRARY.ntns_close(byref(self._space))

    def copy(self) -> "Namespace":
        """Another namespace in the same state, pending opens and untaken deletions included. Neither changes the other afterwards."""
        copy = Namespace.__new__(Namespace)
        copy._space = _Ntns()
        self._call("copy", byref(copy._space))
        return copy

    def process(self, number: int = 1) -> "Process":
        """The process with this number."""
        return Process(self, number)

    def processes(self) -> Iterator["Process"]:
        """The live processes, by rising numbers. Each that stays live throughout comes once."""
        number = c_uint32()
        while self._status("next_process", byref(number)) is not Status.NO_MORE_ENTRIES:
            yield Process(self, number.value)

    def deletions(self) -> Iterator[Deletion]:
        """The deleted objects of the caller, each once, in order of deletion."""
        deletion = _Deletion()
        while self._status("next_deletion", byref(deletion)) is not Status.NO_MORE_ENTRIES:
            yield Deletion(Type(deletion.type), deletion.user_data, deletion.id, deletion.parsed)

    def _status(self, call, *arguments):
        """The status of a call, which has to succeed or to be NO_MORE_ENTRIES or BUFFER_TOO_SMALL."""
        for kind, value in zip(_CALLS[f"ntns_{call}"][1][1:], arguments):
            if kind in (c_uint32, c_uint64):
                _fitting(value, kind)
        status = Status(getattr(_LIBRARY, f"ntns_{call}")(byref(self._space), *arguments))
        if status >= 0x80000000 and status not in (Status.NO_MORE_ENTRIES, Status.BUFFER_TOO_SMALL):
            raise NtError(status)
        return status

    def _call(self, call, *arguments):
        """The status of a call, which has to succeed."""
        status = self._status(call, *arguments)
        if status >= 0x80000000:
            raise NtError(status)
        return status

    def _number(self, call, *arguments):
        """The number that a call gives in its last parameter."""
        number = c_uint32()
        self._call(call, *arguments, byref(number))
        return number.value

    def _text(self, call, *arguments):
        """The text that a call writes into a buffer."""
        length, room = c_size_t(), 256
        while True:
            buffer = ctypes.create_string_buffer(room)
            if self._status(call, *arguments, buffer, room, byref(length)) is not Status.BUFFER_TOO_SMALL:
                return buffer.raw[: length.value].decode()
            room = length.value


class Process:
    """A process of a namespace. Every call of a process that has ended raises PROCESS_GONE, or INVALID_HANDLE where docs/c.md says so."""

    def __init__(self, namespace: Namespace, number: int):
        self.namespace, self.number = namespace, number

    def __repr__(self):
        return f"Process({self.number})"

    def create_directory(self, name: Optional[Text] = None, attributes: int = 0, root: Optional["Handle"] = None) -> "Handle":
        """NtCreateDirectoryObject. Without a name the directory has none."""
        return self._handle("create_directory", root, *_named(name), attributes)

    def create_shadowed(self, shadow: "Handle", name: Optional[Text] = None, attributes: int = 0, root: Optional["Handle"] = None) -> "Handle":
        """NtCreateDirectoryObjectEx: a directory that shows the entries of its shadow, another directory, where it has none of that name."""
        return self._handle("create_shadowed", root, *_named(name), attributes, self._own(shadow, "shadow"))

    def create_link(self, name: Optional[Text], target: Text, attributes: int = 0, root: Optional["Handle"] = None) -> "Handle":
        """NtCreateSymbolicLinkObject."""
        return self._handle("create_link", root, *_named(name), attributes, *_named(target))

    def create_object(
        self, kind: int, name: Optional[Text] = None, user_data: int = 0, attributes: int = 0, root: Optional["Handle"] = None
    ) -> "Handle":
        """NtCreateEvent, NtCreateMutant and so on: an object of the caller, with 64 bits of user data."""
        return self._handle("create_object", root, *_named(name), attributes, kind, user_data)

    def open(self, name: Text, kind: int = 0, attributes: int = 0, root: Optional["Handle"] = None) -> "Handle":
        """NtOpenEvent, NtOpenFile and so on; with the kind 0, Type.ANY, whatever object the name leads to."""
        return self._handle("open_object", root, *_named(name), attributes, kind)

    def begin_open(
        self, name: Text, kind: int = 0, attributes: int = 0, root: Optional["Handle"] = None
    ) -> Union["Handle", "Pending"]:
        """The same in two phases: a handle where the name leads through no device and no key, and else an open that is pending at one."""
        start = (self.number, 0 if root is None else self._own(root, "root"), *_named(name), attributes, kind)
        number, pending, length, room = c_uint32(), _Pending(), c_size_t(), 256
        while True:
            buffer = ctypes.create_string_buffer(room)
            arguments = (byref(number), byref(pending), buffer, room, byref(length))
            status = self.namespace._status("begin_open", *start, *arguments)
            if status is Status.SUCCESS:
                return Handle(self, number.value)
            if status is Status.PENDING:
                met = Object(Type(pending.type), pending.user_data, pending.id)
                return Pending(self, pending.ticket, met, buffer.raw[: length.value].decode())
            room = length.value

    def open_directory(self, name: Text, attributes: int = 0, root: Optional["Handle"] = None) -> "Handle":
        """NtOpenDirectoryObject."""
        return self._handle("open_directory", root, *_named(name), attributes)

    def open_link(self, name: Text, attributes: int = 0, root: Optional["Handle"] = None) -> "Handle":
        """NtOpenSymbolicLinkObject: the link itself."""
        return self._handle("open_link", root, *_named(name), attributes)

    def new_process(self, inherit: bool = False) -> "Process":
        """A child, with the device map of this process and with `inherit` its handles that have INHERIT, under the same values."""
        return Process(self.namespace, self.namespace._number("new_process", self.number, inherit))

    def exit(self):
        """Ends the process: its handles are closed in the order in which they were opened."""
        self.namespace._call("exit_process", self.number)

    def handles(self) -> Iterator[Opened]:
        """NtQuerySystemInformation: the handles, in the order in which they were opened. Each that stays open throughout comes once."""
        context, handle = c_uint64(), _Handle()
        while self.namespace._status("next_handle", self.number, byref(context), byref(handle)) is not Status.NO_MORE_ENTRIES:
            yield _opened(handle)

    def handle(self, value: int) -> "Handle":
        """The handle of this value, as one that a child inherited."""
        return Handle(self, value)

    def _handle(self, call, root, *arguments):
        number = c_uint32()
        status = self.namespace._call(call, self.number, 0 if root is None else self._own(root, "root"), *arguments, byref(number))
        return Handle(self, number.value, status is Status.OBJECT_NAME_EXISTS)

    def _own(self, handle, use):
        """The value of a handle, which has to be one of this process."""
        if (handle.process.namespace, handle.process.number) != (self.namespace, self.number):
            raise ValueError(f"the {use} is a handle of another process")
        return handle.value


class Pending:
    """An open that is pending at a device or a key, `object`, with the rest of its name. It is ended or cancelled once; one that is only dropped stays pending."""

    def __init__(self, process: Process, ticket: int, met: Object, rest: str):
        self.process, self.ticket, self.object, self.rest = process, ticket, met, rest

    def __repr__(self):
        return f"Pending({self.process.number}, {self.ticket}, {self.rest!r})"

    def end(self) -> "Handle":
        """Opens the file or the key, or the key that was met. The open is pending no longer, also where this is refused."""
        return Handle(self.process, self.process.namespace._number("end_open", self.ticket))

    def cancel(self):
        """Gives the open up."""
        self.process.namespace._call("cancel_open", self.ticket)


class Handle:
    """A handle of a process; `existed` says that a create with OPENIF opened it. A context manager, which closes it. A handle that is only dropped stays open."""

    def __init__(self, process: Process, value: int, existed: bool = False):
        self.process, self.value, self.existed = process, value, existed

    def __enter__(self):
        return self

    def __exit__(self, *_):
        self.close()

    def __repr__(self):
        return f"Handle({self.process.number}, {self.value:#x})"

    def close(self):
        """NtClose."""
        self._do("close_handle")

    def duplicate(self, to: Optional[Process] = None, inherit: bool = False) -> "Handle":
        """NtDuplicateObject: another handle to the object, of the process `to` or of the same one."""
        to = to or self.process
        if to.namespace is not self.process.namespace:
            raise ValueError("the process is one of another namespace")
        return Handle(to, self._ask("duplicate", to.number, inherit))

    def set_inherit(self, inherit: bool):
        """NtSetInformationObject with ObjectHandleFlagInformation: whether children inherit it. It keeps its value; if the flag changes, it comes last in the order of opening."""
        self._do("set_inherit", inherit)

    def make_temporary(self):
        """NtMakeTemporaryObject: the object loses its name with its last handle."""
        self._do("make_temporary")

    def make_permanent(self):
        """NtMakePermanentObject: the object keeps its name without handles."""
        self._do("make_permanent")

    def set_device_map(self):
        """NtSetInformationProcess with ProcessDeviceMap: \\?? is then this directory before \\GLOBAL??, for its process."""
        self._do("set_device_map")

    def target(self) -> str:
        """NtQuerySymbolicLinkObject."""
        return self.process.namespace._text("query_link", *self._arguments)

    def path(self) -> str:
        """ObQueryNameString: empty if the object or a directory above it has no name."""
        return self.process.namespace._text("query_name", *self._arguments)

    def file_text(self) -> str:
        """The part of its name that an open of a file or a key left to its device or key; empty if it was created."""
        return self.process.namespace._text("query_file", *self._arguments)

    def query(self) -> Object:
        """ObReferenceObjectByHandle: type, user data and id of the object."""
        kind, user_data, number = c_uint32(), c_uint64(), c_uint64()
        self._do("query_object", byref(kind), byref(user_data), byref(number))
        return Object(Type(kind.value), user_data.value, number.value)

    def attributes(self) -> Opened:
        """NtQueryObject with ObjectBasicInformation: the handle, its object and the object's attributes."""
        handle = _Handle()
        self._do("query_handle", byref(handle))
        return _opened(handle)

    def __iter__(self) -> Iterator[Entry]:
        """NtQueryDirectoryObject: the entries of the directory, in the order in which they were made. Each that stays throughout comes once."""
        context, length, kind, room = c_uint64(), c_size_t(), c_uint32(), 256
        while True:
            buffer = ctypes.create_string_buffer(room)
            arguments = (byref(context), buffer, room, byref(length), byref(kind))
            status = self.process.namespace._status("next_entry", *self._arguments, *arguments)
            if status is Status.NO_MORE_ENTRIES:
                return
            if status is Status.BUFFER_TOO_SMALL:
                room = length.value
            else:
                yield Entry(buffer.raw[: length.value].decode(), Type(kind.value))

    def rows(self, context: int = 0) -> Iterator[Row]:
        """NtQueryDirectoryObject: the entries of the directory after a context, each with its own; 0 is the beginning.

        A call of the library gives up to 64, as the directory is at one moment. Each that stays throughout comes once.
        """
        place, count, rows, buffer = c_uint64(_fitting(context, c_uint64)), c_size_t(), (_Row * 64)(), ctypes.create_string_buffer(65536)
        while True:
            count.value = len(rows)
            arguments = (byref(place), rows, byref(count), buffer, len(buffer))
            if self.process.namespace._status("next_rows", *self._arguments, *arguments) is Status.NO_MORE_ENTRIES:
                return
            names = buffer.raw
            yield from [Row(names[it.name : it.name + it.length].decode(), Type(it.type), it.context) for it in rows[: count.value]]

    @property
    def _arguments(self):
        return self.process.number, self.value

    def _do(self, call, *arguments):
        self.process.namespace._call(call, *self._arguments, *arguments)

    def _ask(self, call, *arguments):
        return self.process.namespace._number(call, *self._arguments, *arguments)
