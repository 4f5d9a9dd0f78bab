/* See host.h. */
#include "host.h"

#include <stdlib.h>
#include <string.h>

/* A file or a key that the host has stored, by its path in its volume. */
struct stored {
	struct stored *next;
	uint64_t volume;
	size_t length;
	char path[NAME_ROOM];
};

void begin(struct host *host)
{
	pthread_mutex_lock(&host->lock);
}

/* The place of the pointer to what is kept of an object, or of the end of the list. A host with many objects has a hash table. */
static struct body **body_of(struct host *host, uint64_t id)
{
	struct body **place = &host->bodies;

	while (*place && (*place)->id != id)
		place = &(*place)->next;
	return place;
}

/* Frees what is kept at a place. */
static void free_body(struct host *host, struct body **place)
{
	struct body *body = *place;

	*place = body->next;
	free(body);
	host->freed++;
}

/* Frees what is kept of a deleted object, if anything is: nothing of a device, and of a file that never had a handle. */
static void free_deleted(struct host *host, const struct ntns_deletion *deletion)
{
	struct body **place = body_of(host, deletion->id);

	if (*place)
		free_body(host, place);
}

NTSTATUS end(struct host *host, ntns_status status)
{
	struct ntns_deletion deletion;

	while (ntns_next_deletion(&host->ns, &deletion) == NTNS_STATUS_SUCCESS)
		free_deleted(host, &deletion);
	pthread_mutex_unlock(&host->lock);
	return ntns_guest_status(status);
}

uint32_t value_of(HANDLE handle)
{
	return handle > UINT32_MAX ? UINT32_MAX : (uint32_t)handle;
}

uint32_t flags_of(const OBJECT_ATTRIBUTES *attributes, bool folds)
{
	return (attributes ? NTNS_ATTRIBUTES(attributes->Attributes) : 0) | (folds ? NTNS_OBJ_CASE_INSENSITIVE : 0);
}

NTSTATUS take_name(const OBJECT_ATTRIBUTES *attributes, struct name *name)
{
	const UNICODE_STRING *given = attributes ? attributes->ObjectName : NULL;

	name->root = attributes ? value_of(attributes->RootDirectory) : 0;
	name->text = NULL;
	name->length = 0;
	if (!given || given->Length == 0)
		return NTNS_STATUS_SUCCESS;
	NTSTATUS status = ntns_from_utf16(given->Buffer, given->Length / 2, ESCAPE, name->bytes, sizeof name->bytes, &name->length);
	name->text = name->bytes;
	return status == NTNS_STATUS_BUFFER_TOO_SMALL ? NTNS_STATUS_NAME_TOO_LONG : status;
}

/* The text of a file or a key. It begins with a backslash unless it is empty, also where a root handle to the volume left that out. */
static ntns_status text_of(struct host *host, uint32_t process, uint32_t handle, char *text, size_t room, size_t *length)
{
	ntns_status status = ntns_query_file(&host->ns, process, handle, text, room, length);

	if (status != NTNS_STATUS_SUCCESS || *length == 0 || text[0] == '\\')
		return status;
	if (*length == room)
		return NTNS_STATUS_NAME_TOO_LONG;
	memmove(text + 1, text, *length);
	text[0] = '\\';
	*length += 1;
	return status;
}

ntns_status path_of(struct host *host, uint32_t process, uint32_t handle, char *path, size_t room, size_t *length)
{
	uint32_t type;
	uint64_t volume, id;
	size_t rest = 0;

	ntns_query_object(&host->ns, process, handle, &type, &volume, &id);
	if (type != NTNS_TYPE_FILE && type != NTNS_TYPE_KEY)
		return ntns_query_name(&host->ns, process, handle, path, room, length);
	ntns_status status = ntns_query_name(&host->ns, 1, host->volumes[volume], path, room, length);
	if (status == NTNS_STATUS_SUCCESS)
		status = text_of(host, process, handle, path + *length, room - *length, &rest);
	*length += rest;
	return status == NTNS_STATUS_BUFFER_TOO_SMALL ? NTNS_STATUS_NAME_TOO_LONG : status;
}

/* Puts a path before a name, with one backslash between. */
static ntns_status put_before(struct name *name, const char *path, size_t length)
{
	size_t gap = name->length && path[length - 1] != '\\';

	if (length + gap + name->length > sizeof name->bytes)
		return NTNS_STATUS_NAME_TOO_LONG;
	memmove(name->bytes + length + gap, name->bytes, name->length);
	memcpy(name->bytes, path, length);
	memcpy(name->bytes + length, "\\", gap);
	name->text = name->bytes;
	name->length += length + gap;
	return NTNS_STATUS_SUCCESS;
}

ntns_status take_file_root(struct host *host, uint32_t process, struct name *name)
{
	char path[NAME_ROOM];
	uint32_t type;
	uint64_t user_data, id;
	size_t length;

	ntns_query_object(&host->ns, process, name->root, &type, &user_data, &id);
	if (type != NTNS_TYPE_FILE || (name->length && name->text[0] == '\\'))
		return NTNS_STATUS_SUCCESS;
	ntns_status status = path_of(host, process, name->root, path, sizeof path, &length);
	if (status == NTNS_STATUS_SUCCESS)
		status = put_before(name, path, length);
	name->root = 0;
	return status;
}

NTSTATUS look(struct host *host, uint32_t process, HANDLE handle, uint32_t wanted, struct body **body)
{
	uint32_t type;
	uint64_t user_data, id;
	NTSTATUS status = ntns_query_object(&host->ns, process, value_of(handle), &type, &user_data, &id);

	if (status == NTNS_STATUS_SUCCESS && type != wanted)
		status = NTNS_STATUS_OBJECT_TYPE_MISMATCH;
	*body = status == NTNS_STATUS_SUCCESS ? *body_of(host, id) : NULL;
	return status;
}

/* Closes a handle again that isn't given out. */
static void take_back(struct host *host, uint32_t process, uint32_t *handle)
{
	ntns_close_handle(&host->ns, process, *handle);
	*handle = 0;
}

NTSTATUS add_body(struct host *host, uint32_t process, uint32_t *handle, bool is_set)
{
	struct body *body = (struct body *)calloc(1, sizeof *body);
	uint32_t type;
	uint64_t user_data;

	if (!body) {
		take_back(host, process, handle);
		return NTNS_STATUS_NO_MEMORY;
	}
	ntns_query_object(&host->ns, process, *handle, &type, &user_data, &body->id);
	body->is_set = is_set;
	body->next = host->bodies;
	host->bodies = body;
	host->made++;
	return NTNS_STATUS_SUCCESS;
}

/* Whether a path is stored in a volume. The volume itself is, and its topmost folder. */
static bool is_stored(const struct host *host, uint64_t volume, const char *path, size_t length)
{
	for (const struct stored *stored = host->stored; stored; stored = stored->next)
		if (stored->volume == volume && stored->length == length && memcmp(stored->path, path, length) == 0)
			return true;
	return length < 2;
}

/* Stores a path in a volume. */
static NTSTATUS store(struct host *host, uint64_t volume, const char *path, size_t length)
{
	struct stored *stored = (struct stored *)malloc(sizeof *stored);

	if (!stored)
		return NTNS_STATUS_NO_MEMORY;
	stored->volume = volume;
	stored->length = length;
	memcpy(stored->path, path, length);
	stored->next = host->stored;
	host->stored = stored;
	return NTNS_STATUS_SUCCESS;
}

NTSTATUS open_stored(struct host *host, uint32_t process, uint32_t *handle, ULONG disposition, ULONG *information)
{
	char path[NAME_ROOM];
	uint32_t type;
	uint64_t volume, id;
	size_t length;

	ntns_query_object(&host->ns, process, *handle, &type, &volume, &id);
	ntns_status status = text_of(host, process, *handle, path, sizeof path, &length);
	*information = is_stored(host, volume, path, length) ? FILE_OPENED : FILE_CREATED;
	if (status == NTNS_STATUS_SUCCESS && *information == FILE_OPENED && disposition == FILE_CREATE)
		status = NTNS_STATUS_OBJECT_NAME_COLLISION;
	if (status == NTNS_STATUS_SUCCESS && *information == FILE_CREATED)
		status = disposition == FILE_OPEN ? NTNS_STATUS_OBJECT_NAME_NOT_FOUND : store(host, volume, path, length);
	if (status != NTNS_STATUS_SUCCESS)
		take_back(host, process, handle);
	return status;
}

NTSTATUS add_guest(struct host *host, uint32_t number)
{
	struct guest *guest = (struct guest *)malloc(sizeof *guest);

	if (!guest)
		return NTNS_STATUS_NO_MEMORY;
	NTSTATUS status = ntns_create_object(&host->ns, 1, 0, NULL, 0, 0, NTNS_TYPE_PROCESS, number, &guest->object);
	if (status != NTNS_STATUS_SUCCESS) {
		free(guest);
		return status;
	}
	guest->number = number;
	guest->next = host->guests;
	host->guests = guest;
	return status;
}

/* The place of the pointer to what is kept of a process, or of the end of the list. */
static struct guest **place_of(struct host *host, uint32_t number)
{
	struct guest **place = &host->guests;

	while (*place && (*place)->number != number)
		place = &(*place)->next;
	return place;
}

struct guest *guest_of(struct host *host, uint32_t number)
{
	return *place_of(host, number);
}

void drop_guest(struct host *host, uint32_t number)
{
	struct guest **place = place_of(host, number), *guest = *place;

	ntns_close_handle(&host->ns, 1, guest->object);
	*place = guest->next;
	free(guest);
}

#define TEXT(text) text, sizeof(text) - 1

/* The volumes, whose handles process 1 keeps. */
static ntns_status open_volumes(struct host *host)
{
	ntns_status status = ntns_create_object(&host->ns, 1, 0, TEXT("\\Device\\Disk"), 0, NTNS_TYPE_DEVICE, DISK, &host->volumes[DISK]);

	if (status == NTNS_STATUS_SUCCESS)
		status = ntns_create_object(&host->ns, 1, 0, TEXT("\\REGISTRY"), 0, NTNS_TYPE_KEY, REGISTRY, &host->volumes[REGISTRY]);
	return status;
}

/* A link that stays. */
struct link {
	const char *name, *target;
};

/* the links of Windows that a new namespace lacks, and the drive */
static const struct link links[] = {
	{ "\\GLOBAL??\\GLOBALROOT", "\\" },
	{ "\\GLOBAL??\\Global", "\\GLOBAL??" },
	{ "\\BaseNamedObjects\\Global", "\\BaseNamedObjects" },
	{ "\\BaseNamedObjects\\Local", "\\BaseNamedObjects" },
	{ "\\GLOBAL??\\C:", "\\Device\\Disk" },
};

/* Makes these links, which keep their names without handles. */
static ntns_status make_links(struct host *host)
{
	ntns_status status = NTNS_STATUS_SUCCESS;
	uint32_t handle;

	for (size_t link = 0; link < sizeof links / sizeof *links && status == NTNS_STATUS_SUCCESS; link++) {
		const char *name = links[link].name, *target = links[link].target;
		status = ntns_create_link(&host->ns, 1, 0, name, strlen(name), NTNS_OBJ_PERMANENT, target, strlen(target), &handle);
		ntns_close_handle(&host->ns, 1, handle);
	}
	return status;
}

NTSTATUS host_open(struct host *host)
{
	memset(host, 0, sizeof *host);
	pthread_mutex_init(&host->lock, NULL);
	NTSTATUS status = ntns_open(&host->ns);
	if (status == NTNS_STATUS_SUCCESS)
		status = open_volumes(host);
	if (status == NTNS_STATUS_SUCCESS)
		status = make_links(host);
	if (status == NTNS_STATUS_SUCCESS)
		status = add_guest(host, 1);
	return status;
}

void host_close(struct host *host)
{
	while (host->guests)
		drop_guest(host, host->guests->number);
	ntns_close(&host->ns);
	while (host->bodies)
		free_body(host, &host->bodies);
	while (host->stored) {
		struct stored *stored = host->stored;
		host->stored = stored->next;
		free(stored);
	}
	pthread_mutex_destroy(&host->lock);
}
