/*
 * System calls of Windows over ntns.h, as plain C functions: what an emulator's host does with a guest's structures. The structures are
 * those of a 64-bit Windows, and a guest's memory is the program's own here. docs/emulator.md shows parts of it.
 *
 * The host keeps no table of handles: it finds what a handle leads to by ntns_query_object, keeps what belongs to an object (whether an
 * event is set, where a file is read) by the object's id, and frees it with the deletion that has the id.
 *
 * Each call takes the host's lock, so that guest threads may have threads of the host's.
 */
#ifndef NT_H
#define NT_H

#include <ntns_windows.h>
#include <pthread.h>

typedef ntns_status NTSTATUS;
typedef uint64_t HANDLE;
typedef uint32_t ULONG;

typedef struct {
	uint16_t Length, MaximumLength;
	uint16_t *Buffer;
} UNICODE_STRING;

typedef struct {
	ULONG Length;
	HANDLE RootDirectory;
	const UNICODE_STRING *ObjectName;
	ULONG Attributes;
	void *SecurityDescriptor, *SecurityQualityOfService;
} OBJECT_ATTRIBUTES;

typedef struct {
	UNICODE_STRING Name, TypeName;
} OBJECT_DIRECTORY_INFORMATION;

/* what NtQueryObject gives of a type: the counts of Windows stand where these are reserved */
typedef struct {
	UNICODE_STRING TypeName;
	ULONG Reserved[22];
} PUBLIC_OBJECT_TYPE_INFORMATION;

enum { ObjectNameInformation = 1, ObjectTypeInformation = 2 };

/* of NtCreateFile: what is asked, and what was done */
enum { FILE_OPEN = 1, FILE_CREATE = 2, FILE_OPEN_IF = 3 };
enum { FILE_OPENED = 1, FILE_CREATED = 2 };

enum { DUPLICATE_CLOSE_SOURCE = 1, DUPLICATE_SAME_ACCESS = 2, DUPLICATE_SAME_ATTRIBUTES = 4 };

/* the pseudo handles, which are in no table: of the process, the thread, and tokens */
#define NtCurrentProcess() ((HANDLE)-1)
#define IS_PSEUDO(handle) ((handle) >= (HANDLE)-6)

/* statuses of the host's own */
#define STATUS_BUFFER_OVERFLOW      ((NTSTATUS)0x80000005u)
#define STATUS_INVALID_INFO_CLASS   ((NTSTATUS)0xC0000003u)
#define STATUS_INFO_LENGTH_MISMATCH ((NTSTATUS)0xC0000004u)
#define STATUS_NOT_SUPPORTED        ((NTSTATUS)0xC00000BBu)

/* the user data of a volume: of its device or key, and of each file and key that is opened through it */
enum { DISK = 1, REGISTRY = 2, VOLUMES = 3 };

/* A host: its namespace, and what it keeps of its objects. */
struct host {
	ntns ns;
	pthread_mutex_t lock;
	uint32_t volumes[VOLUMES]; /* the handle of process 1 to each volume */
	struct body *bodies;       /* of events and files */
	struct guest *guests;      /* of live processes */
	struct stored *stored;     /* of files and keys, open or not */
	uint32_t made, freed;      /* how many bodies were made, and how many of them freed */
};

/* Opens a host with a drive \??\C:, whose device is \Device\Disk, a key \REGISTRY, and the links that a new namespace lacks. */
NTSTATUS host_open(struct host *host);

/* Closes it, and frees what is kept of the objects that are left. */
void host_close(struct host *host);

/* Each is called by a process of the host. That with number 1 is the system's, and is there from the beginning. */
NTSTATUS NtCreateEvent(struct host *host, uint32_t process, HANDLE *event, const OBJECT_ATTRIBUTES *attributes, bool is_set);
NTSTATUS NtOpenEvent(struct host *host, uint32_t process, HANDLE *event, const OBJECT_ATTRIBUTES *attributes);
NTSTATUS NtSetEvent(struct host *host, uint32_t process, HANDLE event, bool *was_set);
NTSTATUS NtCreateFile(struct host *host, uint32_t process, HANDLE *file, const OBJECT_ATTRIBUTES *attributes, ULONG disposition, ULONG *information);
NTSTATUS NtOpenFile(struct host *host, uint32_t process, HANDLE *file, const OBJECT_ATTRIBUTES *attributes);
NTSTATUS NtSetFilePosition(struct host *host, uint32_t process, HANDLE file, uint64_t position);
NTSTATUS NtQueryFilePosition(struct host *host, uint32_t process, HANDLE file, uint64_t *position);
NTSTATUS NtCreateKey(struct host *host, uint32_t process, HANDLE *key, const OBJECT_ATTRIBUTES *attributes);
NTSTATUS NtOpenKey(struct host *host, uint32_t process, HANDLE *key, const OBJECT_ATTRIBUTES *attributes);
NTSTATUS NtCreateDirectoryObject(struct host *host, uint32_t process, HANDLE *directory, const OBJECT_ATTRIBUTES *attributes);
NTSTATUS NtCreateDirectoryObjectEx(struct host *host, uint32_t process, HANDLE *directory, const OBJECT_ATTRIBUTES *attributes, HANDLE shadow);
NTSTATUS NtOpenDirectoryObject(struct host *host, uint32_t process, HANDLE *directory, const OBJECT_ATTRIBUTES *attributes);
NTSTATUS NtQueryDirectoryObject(struct host *host, uint32_t process, HANDLE directory, void *buffer, ULONG length, bool is_single, bool restarts,
				ULONG *context, ULONG *returned);
NTSTATUS NtQueryObject(struct host *host, uint32_t process, HANDLE handle, ULONG information, void *buffer, ULONG length, ULONG *returned);
NTSTATUS NtCreateSymbolicLinkObject(struct host *host, uint32_t process, HANDLE *link, const OBJECT_ATTRIBUTES *attributes, const UNICODE_STRING *target);
NTSTATUS NtSetDeviceMap(struct host *host, uint32_t process, HANDLE directory);
NTSTATUS NtDuplicateObject(struct host *host, uint32_t process, HANDLE source_process, HANDLE source, HANDLE target_process, HANDLE *target,
			   ULONG attributes, ULONG options);
NTSTATUS NtClose(struct host *host, uint32_t process, HANDLE handle);

/* The new process has a number, by which its own calls are made, and a handle of its parent. */
NTSTATUS NtCreateUserProcess(struct host *host, uint32_t process, bool inherits, HANDLE *handle, uint32_t *child);
NTSTATUS NtTerminateProcess(struct host *host, uint32_t process, HANDLE target);

#endif
