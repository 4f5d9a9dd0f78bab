/* See nt.h. */
#include "host.h"

NTSTATUS NtCreateEvent(struct host *host, uint32_t process, HANDLE *event, const OBJECT_ATTRIBUTES *attributes, bool is_set)
{
	struct name name;
	uint32_t handle = 0;
	NTSTATUS status = take_name(attributes, &name);

	begin(host);
	if (status == NTNS_STATUS_SUCCESS)
		status = ntns_create_object(&host->ns, process, name.root, name.text, name.length, flags_of(attributes, false), NTNS_TYPE_EVENT, 0, &handle);
	if (status == NTNS_STATUS_SUCCESS)
		status = add_body(host, process, &handle, is_set);
	*event = handle;
	return end(host, status);
}

NTSTATUS NtOpenEvent(struct host *host, uint32_t process, HANDLE *event, const OBJECT_ATTRIBUTES *attributes)
{
	struct name name;
	uint32_t handle = 0;
	NTSTATUS status = take_name(attributes, &name);

	begin(host);
	if (status == NTNS_STATUS_SUCCESS)
		status = ntns_open_object(&host->ns, process, name.root, name.text, name.length, flags_of(attributes, false), NTNS_TYPE_EVENT, &handle);
	*event = handle;
	return end(host, status);
}

NTSTATUS NtSetEvent(struct host *host, uint32_t process, HANDLE event, bool *was_set)
{
	struct body *body;

	begin(host);
	NTSTATUS status = look(host, process, event, NTNS_TYPE_EVENT, &body);
	if (body) {
		*was_set = body->is_set;
		body->is_set = true;
	}
	return end(host, status);
}

NTSTATUS NtCreateFile(struct host *host, uint32_t process, HANDLE *file, const OBJECT_ATTRIBUTES *attributes, ULONG disposition, ULONG *information)
{
	struct name name;
	uint32_t handle = 0;
	NTSTATUS status = take_name(attributes, &name);

	begin(host);
	if (status == NTNS_STATUS_SUCCESS)
		status = take_file_root(host, process, &name);
	if (status == NTNS_STATUS_SUCCESS)
		status = ntns_open_object(&host->ns, process, name.root, name.text, name.length, flags_of(attributes, true), NTNS_TYPE_FILE, &handle);
	if (status == NTNS_STATUS_SUCCESS)
		status = open_stored(host, process, &handle, disposition, information);
	if (status == NTNS_STATUS_SUCCESS)
		status = add_body(host, process, &handle, false);
	*file = handle;
	return end(host, status);
}

NTSTATUS NtOpenFile(struct host *host, uint32_t process, HANDLE *file, const OBJECT_ATTRIBUTES *attributes)
{
	ULONG information;

	return NtCreateFile(host, process, file, attributes, FILE_OPEN, &information);
}

NTSTATUS NtSetFilePosition(struct host *host, uint32_t process, HANDLE file, uint64_t position)
{
	struct body *body;

	begin(host);
	NTSTATUS status = look(host, process, file, NTNS_TYPE_FILE, &body);
	if (body)
		body->position = position;
	return end(host, status);
}

NTSTATUS NtQueryFilePosition(struct host *host, uint32_t process, HANDLE file, uint64_t *position)
{
	struct body *body;

	begin(host);
	NTSTATUS status = look(host, process, file, NTNS_TYPE_FILE, &body);
	if (body)
		*position = body->position;
	return end(host, status);
}

/* Opens a key, or creates it below a key that is there. */
static NTSTATUS open_key(struct host *host, uint32_t process, HANDLE *key, const OBJECT_ATTRIBUTES *attributes, ULONG disposition)
{
	struct name name;
	uint32_t handle = 0;
	ULONG information;
	NTSTATUS status = take_name(attributes, &name);

	begin(host);
	if (status == NTNS_STATUS_SUCCESS)
		status = ntns_open_object(&host->ns, process, name.root, name.text, name.length, flags_of(attributes, true), NTNS_TYPE_KEY, &handle);
	if (status == NTNS_STATUS_SUCCESS)
		status = open_stored(host, process, &handle, disposition, &information);
	*key = handle;
	return end(host, status);
}

NTSTATUS NtCreateKey(struct host *host, uint32_t process, HANDLE *key, const OBJECT_ATTRIBUTES *attributes)
{
	return open_key(host, process, key, attributes, FILE_OPEN_IF);
}

NTSTATUS NtOpenKey(struct host *host, uint32_t process, HANDLE *key, const OBJECT_ATTRIBUTES *attributes)
{
	return open_key(host, process, key, attributes, FILE_OPEN);
}

NTSTATUS NtCreateDirectoryObject(struct host *host, uint32_t process, HANDLE *directory, const OBJECT_ATTRIBUTES *attributes)
{
	return NtCreateDirectoryObjectEx(host, process, directory, attributes, 0);
}

NTSTATUS NtCreateDirectoryObjectEx(struct host *host, uint32_t process, HANDLE *directory, const OBJECT_ATTRIBUTES *attributes, HANDLE shadow)
{
	struct name name;
	uint32_t handle = 0;
	NTSTATUS status = take_name(attributes, &name);

	begin(host);
	if (status == NTNS_STATUS_SUCCESS && shadow)
		status = ntns_create_shadowed(&host->ns, process, name.root, name.text, name.length, flags_of(attributes, true), value_of(shadow), &handle);
	else if (status == NTNS_STATUS_SUCCESS)
		status = ntns_create_directory(&host->ns, process, name.root, name.text, name.length, flags_of(attributes, true), &handle);
	*directory = handle;
	return end(host, status);
}

NTSTATUS NtOpenDirectoryObject(struct host *host, uint32_t process, HANDLE *directory, const OBJECT_ATTRIBUTES *attributes)
{
	struct name name;
	uint32_t handle = 0;
	NTSTATUS status = take_name(attributes, &name);

	begin(host);
	if (status == NTNS_STATUS_SUCCESS)
		status = ntns_open_directory(&host->ns, process, name.root, name.text, name.length, flags_of(attributes, true), &handle);
	*directory = handle;
	return end(host, status);
}

NTSTATUS NtCreateSymbolicLinkObject(struct host *host, uint32_t process, HANDLE *link, const OBJECT_ATTRIBUTES *attributes, const UNICODE_STRING *target)
{
	OBJECT_ATTRIBUTES named = { sizeof named, 0, target, 0, NULL, NULL };
	struct name name, leads;
	uint32_t handle = 0;
	NTSTATUS status = take_name(attributes, &name);

	begin(host);
	if (status == NTNS_STATUS_SUCCESS)
		status = take_name(&named, &leads);
	if (status == NTNS_STATUS_SUCCESS)
		status = ntns_create_link(&host->ns, process, name.root, name.text, name.length, flags_of(attributes, true), leads.text, leads.length, &handle);
	*link = handle;
	return end(host, status);
}

NTSTATUS NtSetDeviceMap(struct host *host, uint32_t process, HANDLE directory)
{
	begin(host);
	return end(host, ntns_set_device_map(&host->ns, process, value_of(directory)));
}

uint32_t owner_of(struct host *host, uint32_t process, HANDLE handle, uint32_t *value)
{
	struct guest *guest = handle == NtCurrentProcess() ? guest_of(host, process) : NULL;

	*value = guest ? guest->object : value_of(handle);
	return guest ? 1 : process;
}

/* The number of the process that a handle leads to. */
static ntns_status process_of(struct host *host, uint32_t process, HANDLE handle, uint32_t *number)
{
	uint32_t value, type, owner = owner_of(host, process, handle, &value);
	uint64_t user_data, id;
	ntns_status status = ntns_query_object(&host->ns, owner, value, &type, &user_data, &id);

	*number = (uint32_t)user_data;
	return status == NTNS_STATUS_SUCCESS && type != NTNS_TYPE_PROCESS ? NTNS_STATUS_OBJECT_TYPE_MISMATCH : status;
}

NTSTATUS NtDuplicateObject(struct host *host, uint32_t process, HANDLE source_process, HANDLE source, HANDLE target_process, HANDLE *target,
			   ULONG attributes, ULONG options)
{
	uint32_t from, to = 0, owner, value, handle = 0;

	*target = 0;
	if (options & DUPLICATE_SAME_ATTRIBUTES)
		return STATUS_NOT_SUPPORTED;
	begin(host);
	NTSTATUS status = process_of(host, process, source_process, &from);
	if (status != NTNS_STATUS_SUCCESS)
		return end(host, status);
	owner = owner_of(host, from, source, &value);
	if (target_process || !(options & DUPLICATE_CLOSE_SOURCE)) {
		status = process_of(host, process, target_process, &to);
		if (status == NTNS_STATUS_SUCCESS)
			status = ntns_duplicate(&host->ns, owner, value, to, attributes & NTNS_OBJ_INHERIT, &handle);
	}
	if ((options & DUPLICATE_CLOSE_SOURCE) && !IS_PSEUDO(source))
		ntns_close_handle(&host->ns, from, value);
	*target = handle;
	return end(host, status);
}

NTSTATUS NtClose(struct host *host, uint32_t process, HANDLE handle)
{
	if (IS_PSEUDO(handle))
		return NTNS_STATUS_SUCCESS;
	begin(host);
	return end(host, ntns_close_handle(&host->ns, process, value_of(handle)));
}

NTSTATUS NtCreateUserProcess(struct host *host, uint32_t process, bool inherits, HANDLE *handle, uint32_t *child)
{
	uint32_t given = 0;

	begin(host);
	NTSTATUS status = ntns_new_process(&host->ns, process, inherits, child);
	if (status != NTNS_STATUS_SUCCESS)
		return end(host, status);
	status = add_guest(host, *child);
	if (status == NTNS_STATUS_SUCCESS) {
		status = ntns_duplicate(&host->ns, 1, guest_of(host, *child)->object, process, false, &given);
		if (status != NTNS_STATUS_SUCCESS)
			drop_guest(host, *child);
	}
	if (status != NTNS_STATUS_SUCCESS)
		ntns_exit_process(&host->ns, *child);
	*handle = given;
	return end(host, status);
}

NTSTATUS NtTerminateProcess(struct host *host, uint32_t process, HANDLE target)
{
	uint32_t number;

	begin(host);
	NTSTATUS status = process_of(host, process, target, &number);
	if (status == NTNS_STATUS_SUCCESS && number == 1)
		status = NTNS_STATUS_ACCESS_DENIED;
	if (status == NTNS_STATUS_SUCCESS)
		status = ntns_exit_process(&host->ns, number);
	if (status == NTNS_STATUS_SUCCESS)
		drop_guest(host, number);
	return end(host, status);
}
