/*
 * Wrong libraries. Each is the library with one call that does another thing than it should; a client has to tell each of them from the right one. One is
 * chosen by a macro, and its call is handed to the function below by a linker that knows --wrap.
 *
 *     cc -std=c11 -I out -DLOSES_A_BYTE clients/wrong.c clients/cases.c clients/play.c out/libntns.a -Wl,--wrap=ntns_query_file
 */
#include <ntns.h>

#include <stdlib.h>

#define S(status) NTNS_STATUS_##status

/* The head of a function that stands in the place of a call, which it can make by the name with __real_ before it. */
#define INSTEAD(result, call, ...) \
	result __real_##call(__VA_ARGS__); \
	result __wrap_##call(__VA_ARGS__); \
	result __wrap_##call(__VA_ARGS__)

#if defined HANDLE_IS_NOT_TOLD
INSTEAD(ntns_status, ntns_open_directory, ntns *ns, uint32_t process, uint32_t root, const char *name, size_t length, uint32_t attributes, uint32_t *handle)
{
	ntns_status status = __real_ntns_open_directory(ns, process, root, name, length, attributes, handle);
	*handle = 0;
	return status;
}

#elif defined HANDLE_IS_TOLD_OF_A_REFUSAL
INSTEAD(ntns_status, ntns_open_directory, ntns *ns, uint32_t process, uint32_t root, const char *name, size_t length, uint32_t attributes, uint32_t *handle)
{
	uint32_t given = 0;
	ntns_status status = __real_ntns_open_directory(ns, process, root, name, length, attributes, &given);
	if (given)
		*handle = given;
	return status;
}

#elif defined STATUS_IS_ANOTHER
INSTEAD(ntns_status, ntns_open_directory, ntns *ns, uint32_t process, uint32_t root, const char *name, size_t length, uint32_t attributes, uint32_t *handle)
{
	ntns_status status = __real_ntns_open_directory(ns, process, root, name, length, attributes, handle);
	return status == S(OBJECT_PATH_NOT_FOUND) ? S(OBJECT_NAME_NOT_FOUND) : status;
}

#elif defined CLOSE_LEAVES_IT_OPEN
INSTEAD(void, ntns_close, ntns *ns)
{
	ntns copy = *ns;
	__real_ntns_close(&copy);
}

#elif defined CLOSE_FREES_NOTHING
INSTEAD(void, ntns_close, ntns *ns)
{
	ns->words[0] = ns->words[1] = 0;
}

#elif defined OPENS_AGAIN
INSTEAD(ntns_status, ntns_open, ntns *ns)
{
	ntns_close(ns);
	return __real_ntns_open(ns);
}

#elif defined COPY_SHARES
INSTEAD(ntns_status, ntns_copy, const ntns *from, ntns *to)
{
	if (!from->words[0] || to->words[0])
		return S(INVALID_PARAMETER);
	*to = *from;
	return S(SUCCESS);
}

#elif defined COPY_INTO_AN_OPEN_ONE
INSTEAD(ntns_status, ntns_copy, const ntns *from, ntns *to)
{
	if (to != from)
		ntns_close(to);
	return __real_ntns_copy(from, to);
}

#elif defined COPY_IS_NEW
INSTEAD(ntns_status, ntns_copy, const ntns *from, ntns *to)
{
	return from->words[0] ? ntns_open(to) : S(INVALID_PARAMETER);
}

#elif defined COPY_LOSES_DELETIONS
INSTEAD(ntns_status, ntns_copy, const ntns *from, ntns *to)
{
	struct ntns_deletion deletion;
	ntns_status status = __real_ntns_copy(from, to);
	while (status == S(SUCCESS) && ntns_next_deletion(to, &deletion) == S(SUCCESS))
		;
	return status;
}

#elif defined COPY_TAKES_DELETIONS
/* Takes the deletions away from what is copied. */
INSTEAD(ntns_status, ntns_copy, const ntns *from, ntns *to)
{
	struct ntns_deletion deletion;
	ntns lent = *from;
	ntns_status status = __real_ntns_copy(from, to);
	while (status == S(SUCCESS) && ntns_next_deletion(&lent, &deletion) == S(SUCCESS))
		;
	return status;
}

#elif defined COPY_LOSES_PENDING_OPENS
INSTEAD(ntns_status, ntns_copy, const ntns *from, ntns *to)
{
	ntns_status status = __real_ntns_copy(from, to);
	for (uint64_t ticket = 1; status == S(SUCCESS) && ticket < 1000; ticket++)
		ntns_cancel_open(to, ticket);
	return status;
}

#elif defined NOTHING_IS_CLOSED
INSTEAD(ntns_status, ntns_close_handle, ntns *ns, uint32_t process, uint32_t handle)
{
	uint32_t type;
	uint64_t user_data, id;
	return ntns_query_object(ns, process, handle, &type, &user_data, &id);
}

#elif defined DELETED_IS_TOLD_TWICE
static struct ntns_deletion last;

INSTEAD(ntns_status, ntns_next_deletion, ntns *ns, struct ntns_deletion *deletion)
{
	if (last.type) {
		*deletion = last;
		last.type = 0;
		return S(SUCCESS);
	}
	ntns_status status = __real_ntns_next_deletion(ns, deletion);
	last = *deletion;
	return status;
}

#elif defined DELETED_IS_NEVER_TOLD
INSTEAD(ntns_status, ntns_next_deletion, ntns *ns, struct ntns_deletion *deletion)
{
	*deletion = (struct ntns_deletion){ 0 };
	return ns->words[0] ? S(NO_MORE_ENTRIES) : S(INVALID_PARAMETER);
}

#elif defined DELETED_HAS_ANOTHER_ID
/* Reports the id of the object that got its handle before. */
INSTEAD(ntns_status, ntns_next_deletion, ntns *ns, struct ntns_deletion *deletion)
{
	ntns_status status = __real_ntns_next_deletion(ns, deletion);
	deletion->id -= deletion->id > 1;
	return status;
}

#elif defined FILE_IS_TOLD_AS_ITS_DEVICE
INSTEAD(ntns_status, ntns_next_deletion, ntns *ns, struct ntns_deletion *deletion)
{
	ntns_status status = __real_ntns_next_deletion(ns, deletion);
	if (deletion->type == NTNS_TYPE_FILE && deletion->parsed)
		deletion->type = NTNS_TYPE_DEVICE;
	return status;
}

#elif defined WHO_MADE_IT_IS_NOT_TOLD
INSTEAD(ntns_status, ntns_next_deletion, ntns *ns, struct ntns_deletion *deletion)
{
	ntns_status status = __real_ntns_next_deletion(ns, deletion);
	deletion->parsed = false;
	return status;
}

#elif defined LISTING_SKIPS_AFTER_A_CLOSE
/* Takes the context for the number of the handles that were listed. */
INSTEAD(ntns_status, ntns_next_handle, ntns *ns, uint32_t process, uint64_t *context, struct ntns_handle *handle)
{
	uint64_t at = 0;
	for (uint64_t count = 0; count < *context && count < 64; count++)
		__real_ntns_next_handle(ns, process, &at, handle);
	ntns_status status = __real_ntns_next_handle(ns, process, &at, handle);
	*context += status == S(SUCCESS);
	return status;
}

#elif defined COUNTS_HANDLES_OF_ONE_PROCESS
INSTEAD(ntns_status, ntns_query_handle, ntns *ns, uint32_t process, uint32_t value, struct ntns_handle *handle)
{
	struct ntns_handle other;
	uint64_t context = 0;
	ntns_status status = __real_ntns_query_handle(ns, process, value, handle);
	if (status == S(SUCCESS)) {
		handle->handles = 0;
		while (ntns_next_handle(ns, process, &context, &other) == S(SUCCESS))
			handle->handles += other.id == handle->id;
	}
	return status;
}

#elif defined ENDED_PROCESS_IS_LISTED
INSTEAD(ntns_status, ntns_next_process, ntns *ns, uint32_t *process)
{
	uint32_t before = *process;
	ntns_status status = __real_ntns_next_process(ns, process);
	if (status == S(NO_MORE_ENTRIES) && before == 1) {
		*process = 2;
		return S(SUCCESS);
	}
	return status;
}

#elif defined WRITES_PAST_THE_ROOM
INSTEAD(ntns_status, ntns_query_name, ntns *ns, uint32_t process, uint32_t handle, char *buffer, size_t capacity, size_t *length)
{
	ntns_status status = __real_ntns_query_name(ns, process, handle, buffer, capacity, length);
	if (status == S(SUCCESS) && *length)
		buffer[*length] = 0;
	return status;
}

#elif defined WRITES_WHERE_ROOM_IS_MISSING
INSTEAD(ntns_status, ntns_query_link, ntns *ns, uint32_t process, uint32_t handle, char *buffer, size_t capacity, size_t *length)
{
	ntns_status status = __real_ntns_query_link(ns, process, handle, buffer, capacity, length);
	if (status == S(BUFFER_TOO_SMALL) && capacity)
		buffer[0] = '\\';
	return status;
}

#elif defined LOSES_A_BYTE
INSTEAD(ntns_status, ntns_query_file, ntns *ns, uint32_t process, uint32_t handle, char *buffer, size_t capacity, size_t *length)
{
	ntns_status status = __real_ntns_query_file(ns, process, handle, buffer, capacity, length);
	if (status == S(SUCCESS) && *length && buffer[*length - 1] == '\\')
		--*length;
	return status;
}

#elif defined CONTEXT_MOVES_WHERE_ROOM_IS_MISSING
INSTEAD(ntns_status, ntns_next_entry, ntns *ns, uint32_t process, uint32_t handle, uint64_t *context, char *buffer, size_t capacity, size_t *length, uint32_t *type)
{
	ntns_status status = __real_ntns_next_entry(ns, process, handle, context, buffer, capacity, length, type);
	*context += status == S(BUFFER_TOO_SMALL);
	return status;
}

#elif defined PAGE_LOSES_AN_ENTRY
/* Tells a page without its last entry, where there are more. */
INSTEAD(ntns_status, ntns_next_page, ntns *ns, uint32_t process, uint32_t handle, uint64_t *context, char *buffer, size_t capacity, size_t *length)
{
	ntns_status status = __real_ntns_next_page(ns, process, handle, context, buffer, capacity, length);
	size_t end = *length;
	for (int names = 0; end && names < 3; end--)
		names += buffer[end - 1] == 0;
	*length = end ? end + 1 : *length;
	return status;
}

#elif defined PAGE_IS_THE_FIRST
INSTEAD(ntns_status, ntns_next_page, ntns *ns, uint32_t process, uint32_t handle, uint64_t *context, char *buffer, size_t capacity, size_t *length)
{
	uint64_t kept = *context;
	ntns_status status = __real_ntns_next_page(ns, process, handle, context, buffer, capacity, length);
	*context = kept;
	return status;
}

#elif defined ROWS_LOSE_ONE
INSTEAD(ntns_status, ntns_next_rows, ntns *ns, uint32_t process, uint32_t handle, uint64_t *context, struct ntns_row *rows, size_t *count, char *buffer, size_t capacity)
{
	ntns_status status = __real_ntns_next_rows(ns, process, handle, context, rows, count, buffer, capacity);
	*count -= *count > 1;
	return status;
}

#elif defined ROWS_HAVE_ONE_CONTEXT
INSTEAD(ntns_status, ntns_next_rows, ntns *ns, uint32_t process, uint32_t handle, uint64_t *context, struct ntns_row *rows, size_t *count, char *buffer, size_t capacity)
{
	ntns_status status = __real_ntns_next_rows(ns, process, handle, context, rows, count, buffer, capacity);
	for (size_t row = 0; row < *count; row++)
		rows[row].context = *context;
	return status;
}

#elif defined ROW_PAST_THE_PLACES
INSTEAD(ntns_status, ntns_next_rows, ntns *ns, uint32_t process, uint32_t handle, uint64_t *context, struct ntns_row *rows, size_t *count, char *buffer, size_t capacity)
{
	*count += *count != 0;
	return __real_ntns_next_rows(ns, process, handle, context, rows, count, buffer, capacity);
}

#elif defined OPENS_IN_ONE_PHASE
INSTEAD(ntns_status, ntns_begin_open, ntns *ns, uint32_t process, uint32_t root, const char *name, size_t length, uint32_t attributes, uint32_t type, uint32_t *handle,
	struct ntns_pending *pending, char *rest, size_t capacity, size_t *needed)
{
	ntns_status status = __real_ntns_begin_open(ns, process, root, name, length, attributes, type, handle, pending, rest, capacity, needed);
	if (status != S(PENDING))
		return status;
	status = ntns_end_open(ns, pending->ticket, handle);
	*pending = (struct ntns_pending){ 0 };
	*needed = 0;
	return status;
}

#elif defined REST_LOSES_ITS_BACKSLASH
INSTEAD(ntns_status, ntns_begin_open, ntns *ns, uint32_t process, uint32_t root, const char *name, size_t length, uint32_t attributes, uint32_t type, uint32_t *handle,
	struct ntns_pending *pending, char *rest, size_t capacity, size_t *needed)
{
	ntns_status status = __real_ntns_begin_open(ns, process, root, name, length, attributes, type, handle, pending, rest, capacity, needed);
	if (status == S(PENDING) && *needed && rest[0] == '\\') {
		--*needed;
		for (size_t place = 0; place < *needed; place++)
			rest[place] = rest[place + 1];
	}
	return status;
}

#elif defined PENDING_AT_ANOTHER_OBJECT
INSTEAD(ntns_status, ntns_begin_open, ntns *ns, uint32_t process, uint32_t root, const char *name, size_t length, uint32_t attributes, uint32_t type, uint32_t *handle,
	struct ntns_pending *pending, char *rest, size_t capacity, size_t *needed)
{
	ntns_status status = __real_ntns_begin_open(ns, process, root, name, length, attributes, type, handle, pending, rest, capacity, needed);
	pending->id += status == S(PENDING);
	return status;
}

#elif defined PENDING_WITHOUT_ROOM
/* Leaves an open pending whose rest doesn't fit. */
INSTEAD(ntns_status, ntns_begin_open, ntns *ns, uint32_t process, uint32_t root, const char *name, size_t length, uint32_t attributes, uint32_t type, uint32_t *handle,
	struct ntns_pending *pending, char *rest, size_t capacity, size_t *needed)
{
	static char whole[1 << 16];
	ntns_status status = __real_ntns_begin_open(ns, process, root, name, length, attributes, type, handle, pending, rest, capacity, needed);
	if (status == S(BUFFER_TOO_SMALL)) {
		__real_ntns_begin_open(ns, process, root, name, length, attributes, type, handle, pending, whole, sizeof whole, needed);
		*pending = (struct ntns_pending){ 0 };
	}
	return status;
}

#elif defined TICKET_SERVES_TWICE
INSTEAD(ntns_status, ntns_cancel_open, ntns *ns, uint64_t ticket)
{
	__real_ntns_cancel_open(ns, ticket);
	return ns->words[0] ? S(SUCCESS) : S(INVALID_PARAMETER);
}

#elif defined CANCELLED_IS_OPENED
/* Ends the open, and closes its handle. */
INSTEAD(ntns_status, ntns_cancel_open, ntns *ns, uint64_t ticket)
{
	uint32_t handle;
	ntns_status status = ntns_end_open(ns, ticket, &handle);
	if (handle)
		ntns_close_handle(ns, 1, handle);
	return status == S(INVALID_PARAMETER) ? status : S(SUCCESS);
}

#elif defined REFUSED_END_LEAVES_IT_PENDING
/* Says that an open is pending again, by a ticket that serves. */
INSTEAD(ntns_status, ntns_end_open, ntns *ns, uint64_t ticket, uint32_t *handle)
{
	static uint64_t refused;
	ntns_status status = __real_ntns_end_open(ns, ticket, handle);
	if (status == S(OBJECT_TYPE_MISMATCH))
		refused = ticket;
	return status == S(INVALID_PARAMETER) && ticket == refused ? S(OBJECT_TYPE_MISMATCH) : status;
}

#elif defined FLAGGED_VALUE_IS_ANOTHER
/* Leaves the duplicate in place of the handle. */
INSTEAD(ntns_status, ntns_set_inherit, ntns *ns, uint32_t process, uint32_t handle, bool inherit)
{
	uint32_t copy;
	struct ntns_handle held;
	if (ntns_query_handle(ns, process, handle, &held) == S(SUCCESS) && held.inherit == inherit)
		return S(SUCCESS);
	ntns_status status = ntns_duplicate(ns, process, handle, process, inherit, &copy);
	return status == S(SUCCESS) ? ntns_close_handle(ns, process, handle) : status;
}

#elif defined FLAG_STAYS
INSTEAD(ntns_status, ntns_set_inherit, ntns *ns, uint32_t process, uint32_t handle, bool inherit)
{
	struct ntns_handle held;
	if (ntns_query_handle(ns, process, handle, &held) == S(SUCCESS) && !held.exclusive)
		return S(SUCCESS);
	return __real_ntns_set_inherit(ns, process, handle, inherit);
}

#elif defined FLAG_IS_GIVEN_UP
INSTEAD(ntns_status, ntns_set_inherit, ntns *ns, uint32_t process, uint32_t handle, bool inherit)
{
	struct ntns_handle held;
	if (ntns_query_handle(ns, process, handle, &held) == S(SUCCESS) && held.inherit != inherit && !held.exclusive)
		return S(NO_MEMORY);
	return __real_ntns_set_inherit(ns, process, handle, inherit);
}

#elif defined FLAG_LEAVES_A_HANDLE
INSTEAD(ntns_status, ntns_set_inherit, ntns *ns, uint32_t process, uint32_t handle, bool inherit)
{
	uint32_t copy;
	ntns_status status = __real_ntns_set_inherit(ns, process, handle, inherit);
	if (status == S(SUCCESS))
		ntns_duplicate(ns, process, handle, process, inherit, &copy);
	return status;
}

#elif defined FLAG_IS_SET_WITHOUT_MEMORY
/* Refuses for want of memory, and sets the flag all the same. */
INSTEAD(ntns_status, ntns_set_inherit, ntns *ns, uint32_t process, uint32_t handle, bool inherit)
{
	ntns_status status = __real_ntns_set_inherit(ns, process, handle, inherit);
	if (status == S(NO_MEMORY))
		__real_ntns_set_inherit(ns, process, handle, inherit);
	return status;
}

#elif defined OTHER_USER_DATA
INSTEAD(ntns_status, ntns_create_object, ntns *ns, uint32_t process, uint32_t root, const char *name, size_t length, uint32_t attributes, uint32_t type, uint64_t user_data, uint32_t *handle)
{
	return __real_ntns_create_object(ns, process, root, name, length, attributes, type, (uint32_t)user_data, handle);
}

#elif defined SHADOW_IS_LOST
INSTEAD(ntns_status, ntns_create_shadowed, ntns *ns, uint32_t process, uint32_t root, const char *name, size_t length, uint32_t attributes, uint32_t shadow, uint32_t *handle)
{
	ntns_status status = __real_ntns_create_shadowed(ns, process, root, name, length, attributes, shadow, handle);
	if (status == S(SUCCESS)) {
		ntns_make_temporary(ns, process, *handle);
		ntns_close_handle(ns, process, *handle);
		status = ntns_create_directory(ns, process, root, name, length, attributes, handle);
	}
	return status;
}

#elif defined REFUSED_MEMORY_AND_DONE
/* Refuses for want of memory, and makes the directory all the same. */
INSTEAD(ntns_status, ntns_create_directory, ntns *ns, uint32_t process, uint32_t root, const char *name, size_t length, uint32_t attributes, uint32_t *handle)
{
	uint32_t given;
	ntns_status status = __real_ntns_create_directory(ns, process, root, name, length, attributes, handle);
	if (status == S(NO_MEMORY) && __real_ntns_create_directory(ns, process, root, name, length, attributes, &given) == S(SUCCESS))
		ntns_make_permanent(ns, process, given);
	return status;
}

#elif defined LOSES_MEMORY
void *lost;

INSTEAD(ntns_status, ntns_query_name, ntns *ns, uint32_t process, uint32_t handle, char *buffer, size_t capacity, size_t *length)
{
	lost = malloc(8);
	return __real_ntns_query_name(ns, process, handle, buffer, capacity, length);
}

#endif
