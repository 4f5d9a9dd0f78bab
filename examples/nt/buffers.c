/* The calls of nt.h that fill a guest's buffer with structures and strings. */
#include "host.h"

#include <stdlib.h>
#include <string.h>

/* how many rows are asked for at once, and the bytes for their names */
enum { ROW_ROOM = 64, BYTES_ROOM = 65536 };

/* The rows of a listing, and their names. */
struct listing {
	struct ntns_row rows[ROW_ROOM];
	size_t count;
	char names[BYTES_ROOM];
};

/* The bytes that a string takes in a guest's buffer, with a zero after it. */
static size_t string_bytes(const char *text, size_t bytes)
{
	uint16_t units[NAME_ROOM];
	size_t length = 0;

	ntns_to_utf16(text, bytes, ESCAPE, units, NAME_ROOM, &length);
	return 2 * (length + 1);
}

/* Writes a string and a zero at a place of a guest's buffer; the place after them. */
static char *put_string(const char *text, size_t bytes, char *place, UNICODE_STRING *string)
{
	uint16_t *units = (uint16_t *)(void *)place;
	size_t length = 0;

	ntns_to_utf16(text, bytes, ESCAPE, units, NAME_ROOM, &length);
	units[length] = 0;
	string->Length = (uint16_t)(2 * length);
	string->MaximumLength = (uint16_t)(length < NAME_ROOM ? 2 * length + 2 : 2 * length);
	string->Buffer = units;
	return place + 2 * length + 2;
}

/* How many rows fit into a guest's buffer: each takes a structure and two strings, and a structure of zeros ends them. */
static size_t rows_that_fit(const struct listing *listing, ULONG length)
{
	size_t rows = 0, used = sizeof(OBJECT_DIRECTORY_INFORMATION);

	for (; rows < listing->count; rows++) {
		const struct ntns_row *row = &listing->rows[rows];
		const char *type = ntns_type_name(row->type);
		used += sizeof(OBJECT_DIRECTORY_INFORMATION) + string_bytes(listing->names + row->name, row->length) + string_bytes(type, strlen(type));
		if (used > length || row->context > UINT32_MAX)
			break;
	}
	return rows;
}

/* Writes rows into a guest's buffer; how many bytes they take. */
static ULONG put_rows(const struct listing *listing, size_t rows, void *buffer)
{
	OBJECT_DIRECTORY_INFORMATION *entry = (OBJECT_DIRECTORY_INFORMATION *)buffer;
	char *place = (char *)(entry + rows + 1);

	for (size_t row = 0; row < rows; row++, entry++) {
		const char *type = ntns_type_name(listing->rows[row].type);
		place = put_string(listing->names + listing->rows[row].name, listing->rows[row].length, place, &entry->Name);
		place = put_string(type, strlen(type), place, &entry->TypeName);
	}
	memset(entry, 0, sizeof *entry);
	return (ULONG)(place - (char *)buffer);
}

NTSTATUS NtQueryDirectoryObject(struct host *host, uint32_t process, HANDLE directory, void *buffer, ULONG length, bool is_single, bool restarts,
				ULONG *context, ULONG *returned)
{
	struct listing *listing = (struct listing *)malloc(sizeof *listing);
	uint64_t place = restarts ? 0 : *context;

	*returned = 0;
	if (!listing)
		return NTNS_STATUS_NO_MEMORY;
	listing->count = is_single ? 1 : ROW_ROOM;
	begin(host);
	NTSTATUS status = ntns_next_rows(&host->ns, process, value_of(directory), &place, listing->rows, &listing->count, listing->names, sizeof listing->names);
	size_t rows = rows_that_fit(listing, length);
	if (NTNS_SUCCEEDED(status) && rows == 0)
		status = NTNS_STATUS_BUFFER_TOO_SMALL;
	if (NTNS_SUCCEEDED(status)) {
		*returned = put_rows(listing, rows, buffer);
		*context = (ULONG)listing->rows[rows - 1].context;
		if (is_single)
			status = NTNS_STATUS_SUCCESS;
		else if (rows < listing->count)
			status = NTNS_STATUS_MORE_ENTRIES;
	}
	free(listing);
	return end(host, status);
}

/* Writes a structure that begins with a string, and the string after it. */
static NTSTATUS put_information(const char *text, size_t bytes, size_t structure, void *buffer, ULONG length, ULONG *returned)
{
	*returned = (ULONG)(structure + string_bytes(text, bytes));
	if (length < structure)
		return STATUS_INFO_LENGTH_MISMATCH;
	if (length < *returned)
		return STATUS_BUFFER_OVERFLOW;
	memset(buffer, 0, structure);
	put_string(text, bytes, (char *)buffer + structure, (UNICODE_STRING *)buffer);
	return NTNS_STATUS_SUCCESS;
}

NTSTATUS NtQueryObject(struct host *host, uint32_t process, HANDLE handle, ULONG information, void *buffer, ULONG length, ULONG *returned)
{
	char path[NAME_ROOM];
	uint32_t value, type, owner;
	uint64_t user_data, id;
	size_t bytes;

	*returned = 0;
	begin(host);
	owner = owner_of(host, process, handle, &value);
	NTSTATUS status = ntns_query_object(&host->ns, owner, value, &type, &user_data, &id);
	if (status != NTNS_STATUS_SUCCESS)
		return end(host, status);
	if (information == ObjectTypeInformation) {
		const char *name = ntns_type_name(type);
		return end(host, put_information(name, strlen(name), sizeof(PUBLIC_OBJECT_TYPE_INFORMATION), buffer, length, returned));
	}
	if (information != ObjectNameInformation)
		return end(host, STATUS_INVALID_INFO_CLASS);
	status = path_of(host, owner, value, path, sizeof path, &bytes);
	if (status == NTNS_STATUS_SUCCESS)
		status = put_information(path, bytes, sizeof(UNICODE_STRING), buffer, length, returned);
	return end(host, status);
}
