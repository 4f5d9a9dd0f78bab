/* What the calls of nt.h share: the host's lock, names as ntns.h takes them, and what is kept of objects. */
#ifndef HOST_H
#define HOST_H

#include "nt.h"

/* the character that stands before a unit of UTF-16 that isn't one of a name of ntns.h */
static const char ESCAPE = '%';

/* the longest name in bytes */
enum { NAME_ROOM = 32767 };

/* What the host keeps of an object: whether an event is set, and where a file is read. */
struct body {
	struct body *next;
	uint64_t id, position;
	bool is_set;
};

/* What the host keeps of a live process: its number, and the handle of process 1 to its object. */
struct guest {
	struct guest *next;
	uint32_t number, object;
};

/* A name as the calls of ntns.h take it, with the root that it is relative to. */
struct name {
	uint32_t root;
	const char *text; /* NULL for none */
	size_t length;
	char bytes[NAME_ROOM];
};

/* Begins a call: no other is made until it ends. */
void begin(struct host *host);

/* Ends a call: frees what it deleted; its status as a guest knows it. */
NTSTATUS end(struct host *host, ntns_status status);

/* The value of a handle for ntns.h. One of more than 32 bits, as a pseudo handle, is none of a process. */
uint32_t value_of(HANDLE handle);

/* The attributes for ntns.h. Windows itself sets the flag for case at directories, links, devices and files, and so does `folds`. */
uint32_t flags_of(const OBJECT_ATTRIBUTES *attributes, bool folds);

/* The name of an OBJECT_ATTRIBUTES, which may be NULL. */
NTSTATUS take_name(const OBJECT_ATTRIBUTES *attributes, struct name *name);

/* The path of an object; of a file that of its device, and then its text, and of a key below another likewise. */
ntns_status path_of(struct host *host, uint32_t process, uint32_t handle, char *path, size_t room, size_t *length);

/* Makes a name below a file absolute, since a file leads nowhere in ntns.h. Any other stays. */
ntns_status take_file_root(struct host *host, uint32_t process, struct name *name);

/* Begins to keep something of a new object. Where that isn't possible its handle is closed again. */
NTSTATUS add_body(struct host *host, uint32_t process, uint32_t *handle, bool is_set);

/* What is kept of the object of a handle, where that has this type. */
NTSTATUS look(struct host *host, uint32_t process, HANDLE handle, uint32_t wanted, struct body **body);

/* Finds or stores what a new handle to a file or a key stands for, as the disposition says. Where that is refused the handle is closed. */
NTSTATUS open_stored(struct host *host, uint32_t process, uint32_t *handle, ULONG disposition, ULONG *information);

/* Begins to keep a process; its number and the object's handle are those of process 1. */
NTSTATUS add_guest(struct host *host, uint32_t number);

/* What is kept of a live process, or NULL. */
struct guest *guest_of(struct host *host, uint32_t number);

/* Keeps a process no longer: process 1 closes its handle to the object. */
void drop_guest(struct host *host, uint32_t number);

/* Whose a handle is, and its value for ntns.h: the pseudo handle of the caller's process stands for a handle of process 1. */
uint32_t owner_of(struct host *host, uint32_t process, HANDLE handle, uint32_t *value);

#endif
