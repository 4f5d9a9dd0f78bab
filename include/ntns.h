/*
 * ntns: the naming half of the NT object manager, in memory, for callers in C and C++.
 *
 * A namespace holds object directories, symbolic links and objects of the caller's own, and processes with handles to them. Of
 * each object that is the caller's own it keeps a type and user data, 64 bits in which the caller says what the object is, and
 * reports these again when the last reference has gone. docs/c.md has every call's statuses with what carries each claim;
 * docs/namespace.md has the rules.
 *
 *     ntns ns = NTNS_CLOSED;
 *     uint32_t event;
 *     ntns_status status = ntns_open(&ns);
 *     if (status == NTNS_STATUS_SUCCESS)
 *         status = ntns_create_object(&ns, 1, 0, "\\E", 2, 0, NTNS_TYPE_EVENT, 7, &event);
 *     ntns_close(&ns);
 *
 * A caller keeps to these rules: `ns` is all zeros before its first open, and no one else writes into it; every pointer is valid for what is
 * read or written through it, and no two that are written through overlap; a name, a target or a buffer may be NULL where its
 * length is 0. There is one call at a time on one namespace; calls on different namespaces are free of one another. A caller with
 * threads puts a lock round each namespace:
 *
 *     static pthread_mutex_t lock = PTHREAD_MUTEX_INITIALIZER;
 *
 *     pthread_mutex_lock(&lock);
 *     ntns_status status = ntns_close_handle(&ns, process, handle);
 *     pthread_mutex_unlock(&lock);
 *
 * No call blocks, prints or ends the process. Names, targets and texts are bytes with a length, without a terminator. Whatever is
 * refused, out of memory too, leaves the namespace as it was; docs/c.md has the exceptions.
 *
 * Process 1 is there from the open on; ntns_new_process gives others.
 *
 * NTNS_VERSION is the version of this header. Version 1 isn't released yet, and until it is each call may change. A later version may
 * add calls, constants and statuses, so a caller judges a status by NTNS_SUCCEEDED. One that changes or takes away what is there
 * has a library of another name, libntns.so.2.
 */
#ifndef NTNS_H
#define NTNS_H

#include <stdbool.h>
#include <stddef.h>
#include <stdint.h>

#ifdef __cplusplus
extern "C" {
#endif

#define NTNS_VERSION 1

/* A namespace: all zeros before it is opened and after it is closed. It may be moved between calls; ntns_copy makes another. */
typedef struct ntns {
	uintptr_t words[2];
} ntns;

/* what a closed namespace is made from */
#define NTNS_CLOSED { { 0, 0 } }

/* An NTSTATUS. Those with 0xE in front are this library's own. */
typedef uint32_t ntns_status;

/* whether a call did what was asked: as NT_SUCCESS */
#define NTNS_SUCCEEDED(status) ((ntns_status)(status) < 0x80000000u)

#define NTNS_STATUS_SUCCESS                ((ntns_status)0x00000000u)
#define NTNS_STATUS_PENDING                ((ntns_status)0x00000103u) /* of ntns_begin_open: a device or a key was met */
#define NTNS_STATUS_MORE_ENTRIES           ((ntns_status)0x00000105u) /* of a page: other entries follow it */
#define NTNS_STATUS_OBJECT_NAME_EXISTS     ((ntns_status)0x40000000u) /* with OPENIF: what is there was opened */
#define NTNS_STATUS_NO_MORE_ENTRIES        ((ntns_status)0x8000001Au)
#define NTNS_STATUS_INVALID_HANDLE         ((ntns_status)0xC0000008u)
#define NTNS_STATUS_INVALID_PARAMETER      ((ntns_status)0xC000000Du)
#define NTNS_STATUS_NO_MEMORY              ((ntns_status)0xC0000017u)
#define NTNS_STATUS_ACCESS_DENIED          ((ntns_status)0xC0000022u) /* another process holds the exclusive object */
#define NTNS_STATUS_BUFFER_TOO_SMALL       ((ntns_status)0xC0000023u)
#define NTNS_STATUS_OBJECT_TYPE_MISMATCH   ((ntns_status)0xC0000024u)
#define NTNS_STATUS_OBJECT_NAME_INVALID    ((ntns_status)0xC0000033u)
#define NTNS_STATUS_OBJECT_NAME_NOT_FOUND  ((ntns_status)0xC0000034u)
#define NTNS_STATUS_OBJECT_NAME_COLLISION  ((ntns_status)0xC0000035u)
#define NTNS_STATUS_OBJECT_PATH_NOT_FOUND  ((ntns_status)0xC000003Au)
#define NTNS_STATUS_OBJECT_PATH_SYNTAX_BAD ((ntns_status)0xC000003Bu)
#define NTNS_STATUS_INSUFFICIENT_RESOURCES ((ntns_status)0xC000009Au) /* a table is full, or a number has run out */
#define NTNS_STATUS_NAME_TOO_LONG          ((ntns_status)0xC0000106u)
#define NTNS_STATUS_REPARSE_LIMIT          ((ntns_status)0xE0000001u) /* a lookup would start again for the 33rd time */
#define NTNS_STATUS_PROCESS_GONE           ((ntns_status)0xE0000002u) /* the process has ended, or there never was one */

/* Attributes, as of OBJECT_ATTRIBUTES. Creates use all but OPENLINK, opens all but PERMANENT and OPENIF. */
#define NTNS_OBJ_INHERIT          0x002u
#define NTNS_OBJ_PERMANENT        0x010u
#define NTNS_OBJ_EXCLUSIVE        0x020u
#define NTNS_OBJ_CASE_INSENSITIVE 0x040u
#define NTNS_OBJ_OPENIF           0x080u
#define NTNS_OBJ_OPENLINK         0x100u

/*
 * The types. Directories and links are the namespace's own; the others are for the caller's objects. A device and a key parse: an
 * open takes the whole rest of a name that leads through one, and makes a file of the device, or a key below the key.
 */
enum ntns_type {
	NTNS_TYPE_ANY = 0, /* of an open: whatever is found; no object's type */
	NTNS_TYPE_DIRECTORY = 1,
	NTNS_TYPE_SYMBOLIC_LINK = 2,
	NTNS_TYPE_EVENT = 3,
	NTNS_TYPE_MUTANT = 4,
	NTNS_TYPE_SEMAPHORE = 5,
	NTNS_TYPE_TIMER = 6,
	NTNS_TYPE_SECTION = 7,
	NTNS_TYPE_JOB = 8,
	NTNS_TYPE_IO_COMPLETION = 9,
	NTNS_TYPE_ALPC_PORT = 10,
	NTNS_TYPE_KEY = 11,
	NTNS_TYPE_DEVICE = 12,
	NTNS_TYPE_DRIVER = 13,
	NTNS_TYPE_FILE = 14,
	NTNS_TYPE_WINDOW_STATION = 15,
	NTNS_TYPE_DESKTOP = 16,
	NTNS_TYPE_PROCESS = 17,
	NTNS_TYPE_THREAD = 18,
	NTNS_TYPE_TOKEN = 19,
	NTNS_TYPE_CALLBACK = 20,
	NTNS_TYPE_PROFILE = 21,
	NTNS_TYPE_KEYED_EVENT = 22,
	NTNS_TYPE_SESSION = 23,
	NTNS_TYPE_PARTITION = 24,
	NTNS_TYPE_CONTROLLER = 25,
	NTNS_TYPE_ADAPTER = 26,
	NTNS_TYPE_ETW_REGISTRATION = 27,
	NTNS_TYPE_TM_TM = 28,
	NTNS_TYPE_TM_TX = 29,
	NTNS_TYPE_TM_RM = 30,
	NTNS_TYPE_TM_EN = 31,
	NTNS_TYPE_WAITABLE_PORT = 32,
	NTNS_TYPE_TP_WORKER_FACTORY = 33,
	NTNS_TYPE_FILTER_CONNECTION_PORT = 34,
	NTNS_TYPE_POWER_REQUEST = 35,
	NTNS_TYPE_DEBUG_OBJECT = 36,
	NTNS_TYPE_ETW_CONSUMER = 37,
	NTNS_TYPE_WMI_GUID = 38
};

/*
 * Opens a namespace: the root, \GLOBAL??, \DosDevices (a link to \??), \Device, \BaseNamedObjects and \Sessions, and process 1.
 * INVALID_PARAMETER if it is open already, NO_MEMORY; then `ns` is as it was.
 */
ntns_status ntns_open(ntns *ns);

/*
 * Opens `to` in the state of `from`, which stays as it is: with the same processes, handles, ids and contexts, the opens that are
 * pending, under the same tickets, and the deletions that weren't taken yet. No call on one changes the other. It is a call on both,
 * and takes a time that grows with all that `from` has. `to` is closed before.
 * INVALID_PARAMETER (`from` is closed, or `to` is open; both stay as they are), NO_MEMORY; then `to` stays closed.
 */
ntns_status ntns_copy(const ntns *from, ntns *to);

/*
 * Closes a namespace: all memory that it owns is freed, opens that are pending are given up, and `ns` is all zeros. Nothing is reported
 * as deleted. A closed one stays closed.
 */
void ntns_close(ntns *ns);

/*
 * Creates. `root` is the handle of a directory that the name is relative to, or 0 for an absolute name; with `name` NULL the object has
 * no name. `handle` is given a handle of the process on success, and else 0. With OPENIF an object of that type that is there is
 * opened: OBJECT_NAME_EXISTS. The statuses, of which the first that holds is returned:
 *
 *     INVALID_PARAMETER        `ns` is closed; of an object, the type is none or isn't the caller's to make
 *     PROCESS_GONE             the process isn't live
 *     INVALID_PARAMETER        another bit in the attributes, INHERIT with EXCLUSIVE; of a link, a target that isn't 1 to 32,767
 *                              bytes from 0x20 to 0x7E
 *     OBJECT_NAME_INVALID      a byte of the name outside 0x20 to 0x7E
 *     NAME_TOO_LONG            a name above 32,767 bytes
 *     INVALID_HANDLE           `root` is no handle of the process
 *     of a shadow:             INVALID_HANDLE, OBJECT_TYPE_MISMATCH (no directory), INVALID_PARAMETER (it has a shadow itself)
 *     OBJECT_PATH_SYNTAX_BAD   an absolute name without a leading backslash, or a relative one with one
 *     OBJECT_TYPE_MISMATCH     `root` is no directory's
 *     of the walk:             OBJECT_NAME_INVALID, OBJECT_PATH_NOT_FOUND, OBJECT_TYPE_MISMATCH, and of links REPARSE_LIMIT,
 *                              NAME_TOO_LONG, OBJECT_PATH_SYNTAX_BAD
 *     OBJECT_TYPE_MISMATCH     with OPENIF: what is there is of another type
 *     OBJECT_NAME_COLLISION    without OPENIF: the name is taken
 *     of what OPENIF opens:    INVALID_PARAMETER (EXCLUSIVE is asked of an object that isn't, INHERIT of one that is), ACCESS_DENIED
 *     INSUFFICIENT_RESOURCES   the process's 65,535 handles, the 1,048,576 objects or a counter
 *     NO_MEMORY                here, or before all else but the first line where names can't be copied
 */

/* NtCreateDirectoryObject */
ntns_status ntns_create_directory(ntns *ns, uint32_t process, uint32_t root, const char *name, size_t name_len, uint32_t attributes,
				  uint32_t *handle);

/*
 * NtCreateDirectoryObjectEx with a shadow directory: a name that the new directory has no entry of is looked up in its shadow, the
 * directory of the handle `shadow`. The last component of a create is looked up in the new directory alone, and a listing has its own
 * entries alone. The shadow remains as long as the directory. A directory that OPENIF opens keeps the shadow that it has, or none.
 */
ntns_status ntns_create_shadowed(ntns *ns, uint32_t process, uint32_t root, const char *name, size_t name_len, uint32_t attributes,
				 uint32_t shadow, uint32_t *handle);

/* NtCreateSymbolicLinkObject. The name in `target` is looked up when the link is followed. */
ntns_status ntns_create_link(ntns *ns, uint32_t process, uint32_t root, const char *name, size_t name_len, uint32_t attributes,
			     const char *target, size_t target_len, uint32_t *handle);

/* NtCreateEvent, NtCreateMutant, NtCreateSection and so on: an object of the caller's, of a type from NTNS_TYPE_EVENT on. */
ntns_status ntns_create_object(ntns *ns, uint32_t process, uint32_t root, const char *name, size_t name_len, uint32_t attributes,
			       uint32_t type, uint64_t user_data, uint32_t *handle);

/*
 * Opens. `handle` is given a handle of the process on success, and else 0. A name that leads through a device or a key is parsed to
 * its end within the call, except by ntns_begin_open; `root` may then be a handle to one. The statuses, of which the first that holds
 * is returned:
 *
 *     INVALID_PARAMETER        `ns` is closed; of an object, a type that is neither NTNS_TYPE_ANY nor the caller's to make
 *     PROCESS_GONE, INVALID_PARAMETER, OBJECT_NAME_INVALID, NAME_TOO_LONG, INVALID_HANDLE, OBJECT_PATH_SYNTAX_BAD,
 *     OBJECT_TYPE_MISMATCH     as of a create
 *     of the walk:             the same, and OBJECT_NAME_NOT_FOUND where the last component is no entry
 *     OBJECT_TYPE_MISMATCH     what was found is of another type
 *     INVALID_PARAMETER        EXCLUSIVE is asked of an object that isn't, INHERIT of one that is
 *     ACCESS_DENIED            the object is exclusive, and another process has a handle to it
 *     INSUFFICIENT_RESOURCES, NO_MEMORY
 */

/* NtOpenDirectoryObject */
ntns_status ntns_open_directory(ntns *ns, uint32_t process, uint32_t root, const char *name, size_t name_len, uint32_t attributes,
				uint32_t *handle);

/* NtOpenSymbolicLinkObject: the last component isn't followed. */
ntns_status ntns_open_link(ntns *ns, uint32_t process, uint32_t root, const char *name, size_t name_len, uint32_t attributes,
			   uint32_t *handle);

/*
 * NtOpenEvent, NtOpenFile, NtOpenKey and so on; with NTNS_TYPE_ANY whatever the name leads to, also a directory, and with OPENLINK a
 * link. A name through a device leads to a new file, one through a key to a new key, each with the user data of the device or key and
 * the rest of the name as its text (ntns_query_file). The empty rest of a key is the key itself, of a device a file too.
 */
ntns_status ntns_open_object(ntns *ns, uint32_t process, uint32_t root, const char *name, size_t name_len, uint32_t attributes,
			     uint32_t type, uint32_t *handle);

/* An open that waits at a device or a key. */
struct ntns_pending {
	uint64_t ticket;    /* by which it is ended or cancelled: never 0, and never that of another open */
	uint64_t id;        /* of the device or key, as of ntns_query_object */
	uint64_t user_data; /* likewise */
	uint32_t type;      /* NTNS_TYPE_DEVICE or NTNS_TYPE_KEY */
};

/*
 * ntns_open_object in two phases, for a host whose file system or registry has a say: it is asked before a handle is made, without
 * the lock that the host puts round the namespace, since other calls may be made meanwhile.
 *
 * ntns_begin_open: where the name leads through no device and no key, this is the whole open, with its statuses. Else the status is
 * PENDING, which is a success without a handle: `pending` is given the ticket and the device or key that was met, and `rest` the
 * part of the name that follows it, of `length` bytes. Where the buffer is too small nothing is written into it, `length` is what
 * is needed, no open is pending, and the status is BUFFER_TOO_SMALL. With any status but PENDING each field of `pending` is 0, with
 * any but PENDING and BUFFER_TOO_SMALL `length` is 0, and with any but SUCCESS `handle` is 0.
 *
 * The device or key remains as long as an open is pending at it, without its name if it loses that. An open stays pending after its
 * process has ended, until it is ended or cancelled, or the namespace closed. It counts among the 1,048,576 objects.
 *
 * ntns_end_open: the second phase, judged in the state as it is now: `handle` is given a handle of the process to the new file or
 * key, or to the key that was met. Whether it is given or refused, the open is pending no longer, after NO_MEMORY too; where a file or
 * key was made and no handle given, its deletion is reported. INVALID_PARAMETER (closed, or no open is pending under this ticket; then
 * nothing changes), PROCESS_GONE, OBJECT_TYPE_MISMATCH, INVALID_PARAMETER (EXCLUSIVE is asked of an object that isn't, INHERIT of one
 * that is), ACCESS_DENIED, INSUFFICIENT_RESOURCES, NO_MEMORY.
 *
 * ntns_cancel_open: the open is given up, and nothing was opened. It takes no memory. INVALID_PARAMETER, as of ntns_end_open.
 */
ntns_status ntns_begin_open(ntns *ns, uint32_t process, uint32_t root, const char *name, size_t name_len, uint32_t attributes,
			    uint32_t type, uint32_t *handle, struct ntns_pending *pending, char *rest, size_t capacity, size_t *length);
ntns_status ntns_end_open(ntns *ns, uint64_t ticket, uint32_t *handle);
ntns_status ntns_cancel_open(ntns *ns, uint64_t ticket);

/*
 * NtClose. An object to which nothing refers any more is deleted, and ntns_next_deletion reports it if it is the caller's.
 * INVALID_PARAMETER (closed), PROCESS_GONE, INVALID_HANDLE.
 */
ntns_status ntns_close_handle(ntns *ns, uint32_t process, uint32_t handle);

/*
 * NtDuplicateObject: a handle of the process `to`, which may be the caller, to the same object.
 * INVALID_PARAMETER (closed), PROCESS_GONE (the caller, then `to`), INVALID_HANDLE, INVALID_PARAMETER (`inherit` of an exclusive
 * object), ACCESS_DENIED, INSUFFICIENT_RESOURCES, NO_MEMORY.
 */
ntns_status ntns_duplicate(ntns *ns, uint32_t process, uint32_t handle, uint32_t to, bool inherit, uint32_t *copy);

/*
 * NtSetInformationObject with ObjectHandleFlagInformation: whether children of the process inherit the handle. Its value stays; if the
 * flag changes, the handle comes last in the order of opening, and the time taken grows with all that the namespace has.
 * INVALID_PARAMETER (closed), PROCESS_GONE, INVALID_HANDLE; and if the flag is to change, NO_MEMORY, INVALID_PARAMETER (`inherit` of
 * an exclusive object), INSUFFICIENT_RESOURCES (the process has 65,535 handles, or no two orders of opening are left).
 */
ntns_status ntns_set_inherit(ntns *ns, uint32_t process, uint32_t handle, bool inherit);

/*
 * NtMakeTemporaryObject: the object loses its name with its last handle. NtMakePermanentObject: it keeps it without one.
 * INVALID_PARAMETER (closed), PROCESS_GONE, INVALID_HANDLE.
 */
ntns_status ntns_make_temporary(ntns *ns, uint32_t process, uint32_t handle);
ntns_status ntns_make_permanent(ntns *ns, uint32_t process, uint32_t handle);

/*
 * Texts. On success `length` is that of the text, whose bytes are in `buffer`; if that is too small nothing is written into it,
 * and `length` is what is needed; on any other status it is 0. The rest of the buffer stays as it was.
 *
 * NtQuerySymbolicLinkObject: the target of a link, as it was given.
 * ObQueryNameString: the path of an object; empty if it or a directory above it has no name.
 * ntns_query_file: of a file or a key, what the parse took: the text after its device or key, empty of one that was created.
 *
 * INVALID_PARAMETER (closed), PROCESS_GONE, INVALID_HANDLE, OBJECT_TYPE_MISMATCH (no link; no file or key), NAME_TOO_LONG (a path above
 * 32,767 bytes), NO_MEMORY, BUFFER_TOO_SMALL. ntns_query_file takes no memory, and of a process that is gone answers INVALID_HANDLE.
 */
ntns_status ntns_query_link(ntns *ns, uint32_t process, uint32_t handle, char *buffer, size_t capacity, size_t *length);
ntns_status ntns_query_name(ntns *ns, uint32_t process, uint32_t handle, char *buffer, size_t capacity, size_t *length);
ntns_status ntns_query_file(ntns *ns, uint32_t process, uint32_t handle, char *buffer, size_t capacity, size_t *length);

/*
 * NtQueryDirectoryObject, one entry a call: the name and the type of the first entry after `context`, which is 0 for the first of all
 * and is then left at the entry that was shown. Entries are in the order in which they were made; those that come or go between
 * calls don't disturb the others. `length` and `buffer` are as of texts; where the buffer is too small `context` stays, and `type` is
 * reported all the same. On any other refusal `type` is 0.
 *
 * INVALID_PARAMETER (closed), PROCESS_GONE, INVALID_HANDLE, OBJECT_TYPE_MISMATCH (no directory), NO_MEMORY, NO_MORE_ENTRIES (after
 * the last), BUFFER_TOO_SMALL.
 */
ntns_status ntns_next_entry(ntns *ns, uint32_t process, uint32_t handle, uint64_t *context, char *buffer, size_t capacity, size_t *length,
			    uint32_t *type);

/*
 * NtQueryDirectoryObject, a page a call: as many entries as fit after `context`, which is as above and is left at the last that was shown.
 * `buffer` has, one after another, the name of each entry and the name of its type, as "Directory", each with a 0 after it, and
 * `length` is how many bytes these are. Of the room, at most 1,048,576 bytes, each entry counts for 4 bytes more than both names:
 * 33,000 bytes have room for any. If not even the first fits nothing is written, and ntns_next_entry reports how long its name is.
 *
 * SUCCESS (no entry is left), MORE_ENTRIES (others are), which are both successes; INVALID_PARAMETER (closed), PROCESS_GONE,
 * INVALID_HANDLE, OBJECT_TYPE_MISMATCH (no directory), NO_MEMORY, NO_MORE_ENTRIES (after the last), BUFFER_TOO_SMALL. On a refusal
 * `length` is 0, and `context` and `buffer` stay.
 */
ntns_status ntns_next_page(ntns *ns, uint32_t process, uint32_t handle, uint64_t *context, char *buffer, size_t capacity, size_t *length);

/* A row of a listing. */
struct ntns_row {
	uint64_t context; /* that the listing goes on from after this row */
	uint32_t type;
	uint32_t name;    /* where in the buffer the name begins */
	uint32_t length;  /* its bytes */
};

/*
 * NtQueryDirectoryObject, for a host that fills the native structure: the entries after `context`, which is 0 for the first of all and
 * is then left at the last row. `count` is how many rows there is place for, and is given how many were filled; their names are in
 * `buffer`, one after another. It stops where no entry is left, at the last place for a row, and at a name that doesn't fit into the
 * buffer, of which the first 4,294,967,295 bytes are used. A host whose own buffer ends before the last row goes on from the
 * context of the last row that it took. The call is as many queries of one entry, with no other call between them.
 *
 * SUCCESS (no entry is left), MORE_ENTRIES (others are), which are both successes; INVALID_PARAMETER (closed), PROCESS_GONE,
 * INVALID_HANDLE, OBJECT_TYPE_MISMATCH (no directory), NO_MEMORY, NO_MORE_ENTRIES (after the last), BUFFER_TOO_SMALL (no place for a
 * row, or the first name doesn't fit). On a refusal `count` is 0 and `context` stays; after NO_MEMORY rows and buffer may have changed.
 */
ntns_status ntns_next_rows(ntns *ns, uint32_t process, uint32_t handle, uint64_t *context, struct ntns_row *rows, size_t *count, char *buffer,
			   size_t capacity);

/*
 * NtSetInformationProcess with ProcessDeviceMap: \?? is then this directory before \GLOBAL??, for the process and the children that
 * it begins.
 * INVALID_PARAMETER (closed), PROCESS_GONE, INVALID_HANDLE, OBJECT_TYPE_MISMATCH (no directory).
 */
ntns_status ntns_set_device_map(ntns *ns, uint32_t process, uint32_t handle);

/*
 * CreateProcess, as far as handles go: a child with the device map of `process`, and with `inherit` its handles that have INHERIT, under
 * the same values. `child` is its number, or 0.
 * INVALID_PARAMETER (closed), PROCESS_GONE, INSUFFICIENT_RESOURCES (1,024 live processes), NO_MEMORY.
 */
ntns_status ntns_new_process(ntns *ns, uint32_t process, bool inherit, uint32_t *child);

/* ExitProcess, likewise: its handles are closed in the order in which they were opened. INVALID_PARAMETER (closed), PROCESS_GONE. */
ntns_status ntns_exit_process(ntns *ns, uint32_t process);

/*
 * ObReferenceObjectByHandle: what a handle leads to, its type, its user data (0 of directories and links) and its id. The caller's
 * objects have the ids 1, 2, 3 and so on, in the order in which each got its first handle; those of directories and links are from
 * 2^63 on. No two objects of a namespace have one id, also where one is deleted before the other is made. It takes no memory.
 * INVALID_PARAMETER (closed), INVALID_HANDLE (also of a process that is gone); then all three are 0.
 */
ntns_status ntns_query_object(ntns *ns, uint32_t process, uint32_t handle, uint32_t *type, uint64_t *user_data, uint64_t *id);

/* A handle of a process. */
struct ntns_handle {
	uint32_t value;
	uint32_t type;
	uint64_t user_data; /* of its object, as of ntns_query_object */
	uint64_t id;        /* likewise */
	bool inherit;       /* children of the process inherit it */
	bool permanent;     /* its object is permanent */
	bool exclusive;     /* its object is exclusive */
	uint32_t handles;   /* to its object, of all processes */
};

/*
 * NtQueryObject with ObjectBasicInformation: a handle, its object and the object's attributes. It takes no memory.
 * INVALID_PARAMETER (closed), INVALID_HANDLE (also of a process that is gone); then each field is 0.
 */
ntns_status ntns_query_handle(ntns *ns, uint32_t process, uint32_t value, struct ntns_handle *handle);

/*
 * NtQuerySystemInformation with SystemHandleInformation, of one process: the first handle that was opened after `context`, 0 at first,
 * which becomes that of the handle. So handles are listed in the order in which they were opened, each that stays open once, whatever is opened and
 * closed between the calls. It takes no memory.
 * INVALID_PARAMETER (closed), NO_MORE_ENTRIES (none is left, or the process is gone); then each field is 0, and `context` stays.
 */
ntns_status ntns_next_handle(ntns *ns, uint32_t process, uint64_t *context, struct ntns_handle *handle);

/*
 * Likewise of the live processes: the one of the least number above `process`, 0 at first, which becomes that number. It takes no memory.
 * INVALID_PARAMETER (closed), NO_MORE_ENTRIES (none is left); then `process` stays.
 */
ntns_status ntns_next_process(ntns *ns, uint32_t *process);

/* An object of the caller's that was deleted. */
struct ntns_deletion {
	uint32_t type;
	uint64_t user_data; /* of its create, or of the device or key through which it was opened */
	uint64_t id;        /* that of ntns_query_object; 0 if no handle to it was ever given */
	bool parsed;        /* an open through a device or a key made it */
};

/*
 * The delete procedure, run after the step: takes the first deletion that wasn't taken yet. They wait until they are taken, in the
 * order of the steps, and take no further memory. An object that a parse made is reported too if it got no handle. docs/c.md says how
 * a host counts. It takes no memory.
 * INVALID_PARAMETER (closed), NO_MORE_ENTRIES (none is left); then each field is 0.
 */
ntns_status ntns_next_deletion(ntns *ns, struct ntns_deletion *deletion);

/* The status's name, as "OBJECT_NAME_NOT_FOUND"; NULL if it is none of this library's. */
const char *ntns_status_text(ntns_status status);

/* The type's name, as Windows spells it: "Directory", "ALPC Port"; NULL where there is no such type. */
const char *ntns_type_name(uint32_t type);

#ifdef __cplusplus
}
#endif

#endif
