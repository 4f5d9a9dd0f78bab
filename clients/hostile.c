/*
 * Hands odd arguments to each call: a namespace that is closed, no name, no room, no such type, no such attribute, the longest names and longer ones, handles
 * and processes that aren't there, or are another's. Each has to be answered with its status, to write what it says and no more, and to change nothing.
 *
 *     cc -std=c11 -I out clients/hostile.c out/libntns.a
 *
 * The last line is 'N passed, M failed'; the exit status is 0 where none failed.
 */
#include <ntns.h>

#include <stdio.h>
#include <stdlib.h>
#include <string.h>

#define S(status) NTNS_STATUS_##status
#define TEXT(text) text, sizeof(text) - 1

/* what stands where a call has to write something else */
static const uint32_t STALE = 0xABABABAB;

static int passed, failed;

/* Counts what has to hold, and tells what doesn't. */
static void hold(bool holds, const char *shows, unsigned long at)
{
	passed += holds;
	failed += !holds;
	if (!holds)
		printf("hostile: %s (%lu)\n", shows, at);
}

/* A new namespace. */
static ntns opened(void)
{
	ntns ns = NTNS_CLOSED;

	hold(ntns_open(&ns) == S(SUCCESS), "a namespace is opened", 0);
	return ns;
}

static bool is_closed(const ntns *ns)
{
	return ns->words[0] == 0 && ns->words[1] == 0;
}

/* The answer of each call that gives a handle, with the same arguments; the handle is `*given` behind it. Where there is no root the handle is what is
 * duplicated, or the shadow. */
enum { GIVING = 9 };

static ntns_status give(ntns *ns, int call, uint32_t process, uint32_t root, const char *name, size_t length, uint32_t attributes, uint32_t *given)
{
	*given = STALE;
	switch (call) {
	case 0:
		return ntns_create_directory(ns, process, root, name, length, attributes, given);
	case 1:
		return ntns_create_link(ns, process, root, name, length, attributes, TEXT("\\A"), given);
	case 2:
		return ntns_create_object(ns, process, root, name, length, attributes, NTNS_TYPE_EVENT, 1, given);
	case 3:
		return ntns_open_directory(ns, process, root, name, length, attributes, given);
	case 4:
		return ntns_open_link(ns, process, root, name, length, attributes, given);
	case 5:
		return ntns_open_object(ns, process, root, name, length, attributes, NTNS_TYPE_ANY, given);
	case 6:
		return ntns_duplicate(ns, process, root, process, attributes & NTNS_OBJ_INHERIT, given);
	case 7:
		return ntns_create_shadowed(ns, process, 0, name, length, attributes, root, given);
	default:
		return ntns_new_process(ns, process, attributes & NTNS_OBJ_INHERIT, given);
	}
}

/* The answer of each call that tells a text, with the same arguments. */
enum { TELLING = 4 };

static ntns_status tell(ntns *ns, int call, uint32_t process, uint32_t handle, char *buffer, size_t capacity, size_t *length)
{
	uint64_t context = 0;
	uint32_t type = STALE;
	ntns_status status;

	*length = STALE;
	switch (call) {
	case 0:
		return ntns_query_link(ns, process, handle, buffer, capacity, length);
	case 1:
		return ntns_query_name(ns, process, handle, buffer, capacity, length);
	case 2:
		return ntns_query_file(ns, process, handle, buffer, capacity, length);
	default:
		status = ntns_next_entry(ns, process, handle, &context, buffer, capacity, length, &type);
		hold((status == S(SUCCESS)) == (context != 0), "a context moves where an entry is shown, and else stays", status);
		bool is_there = status == S(SUCCESS) || status == S(BUFFER_TOO_SMALL);
		hold(is_there == (type != 0) && type != STALE, "a type is told where there is an entry, and else 0", status);
		return status;
	}
}

/* The answer of each call that has a process and a handle and gives nothing. */
enum { PLAIN = 7 };

static ntns_status do_plain(ntns *ns, int call, uint32_t process, uint32_t handle)
{
	switch (call) {
	case 0:
		return ntns_close_handle(ns, process, handle);
	case 1:
		return ntns_make_temporary(ns, process, handle);
	case 2:
		return ntns_make_permanent(ns, process, handle);
	case 3:
		return ntns_set_device_map(ns, process, handle);
	case 4:
		return ntns_set_inherit(ns, process, handle, true);
	case 5:
		return ntns_set_inherit(ns, process, handle, false);
	default:
		return ntns_exit_process(ns, process);
	}
}

/* Whether a handle is said to lead nowhere, with this status. */
static bool leads_nowhere(ntns *ns, uint32_t process, uint32_t handle, ntns_status status)
{
	uint32_t type = STALE;
	uint64_t user_data = STALE, id = STALE;

	return ntns_query_object(ns, process, handle, &type, &user_data, &id) == status && type == 0 && user_data == 0 && id == 0;
}

/* Every call has to answer a status to a process and a handle, and to give and tell nothing; exits are left out where the process lives. Of a process that is
 * gone the two that look at an object say that it has no such handle. */
static void refused(ntns *ns, uint32_t process, uint32_t handle, ntns_status status, bool is_live)
{
	ntns_status looked_at = status == S(PROCESS_GONE) ? S(INVALID_HANDLE) : status;
	uint32_t given;
	size_t length;
	char text[4] = "abc";

	for (int call = is_live ? 6 : 0; call < (is_live ? 8 : GIVING); call++)
		hold(give(ns, call, process, handle, TEXT("x"), 0, &given) == status && given == 0, "a call that gives a handle is refused", call);
	for (int call = 0; call < TELLING; call++)
		hold(tell(ns, call, process, handle, text, sizeof text, &length) == (call == 2 ? looked_at : status) && length == 0 && !strcmp(text, "abc"), "a query is refused", call);
	for (int call = 0; call < (is_live ? PLAIN - 1 : PLAIN); call++)
		hold(do_plain(ns, call, process, handle) == status, "a call with a handle is refused", call);
	hold(leads_nowhere(ns, process, handle, looked_at), "a handle leads nowhere", handle);
}

/* Whether each field of a pending open is 0. */
static bool is_no_open(const struct ntns_pending *pending)
{
	return pending->ticket == 0 && pending->id == 0 && pending->user_data == 0 && pending->type == 0;
}

/* Whether an open in two phases is refused with a status, and no open is pending. */
static bool begins_nothing(ntns *ns, uint32_t process, uint32_t root, const char *name, size_t name_len, uint32_t attributes, uint32_t type, ntns_status status)
{
	struct ntns_pending pending;
	uint32_t given = STALE;
	size_t length = STALE;
	char rest[4] = "abc";

	memset(&pending, 0x5A, sizeof pending);
	return ntns_begin_open(ns, process, root, name, name_len, attributes, type, &given, &pending, rest, sizeof rest, &length) == status && given == 0 &&
	       length == 0 && is_no_open(&pending) && !strcmp(rest, "abc");
}

/* Whether no open is pending under a ticket. */
static bool is_no_ticket(ntns *ns, uint64_t ticket)
{
	uint32_t given = STALE;

	return ntns_end_open(ns, ticket, &given) == S(INVALID_PARAMETER) && given == 0 && ntns_cancel_open(ns, ticket) == S(INVALID_PARAMETER);
}

/* Whether each field of a deletion is 0. */
static bool is_none(const struct ntns_deletion *deletion)
{
	return deletion->type == 0 && deletion->user_data == 0 && deletion->id == 0 && !deletion->parsed;
}

/* Whether each field of a handle is 0. */
static bool is_no_handle(const struct ntns_handle *handle)
{
	return handle->value == 0 && handle->type == 0 && handle->user_data == 0 && handle->id == 0 && !handle->inherit && !handle->permanent && !handle->exclusive &&
	       handle->handles == 0;
}

/* Whether a query and a listing of handles report none, and leave the context. */
static bool reports_no_handle(ntns *ns, uint32_t process, uint32_t value, ntns_status queried, ntns_status listed, uint64_t context)
{
	struct ntns_handle handle;
	uint64_t at = context;

	memset(&handle, 0x5A, sizeof handle);
	if (ntns_query_handle(ns, process, value, &handle) != queried || !is_no_handle(&handle))
		return false;
	memset(&handle, 0x5A, sizeof handle);
	return ntns_next_handle(ns, process, &at, &handle) == listed && at == context && is_no_handle(&handle);
}

static void closed_namespaces(void)
{
	ntns ns = NTNS_CLOSED;
	struct ntns_deletion deletion;
	uint32_t process = 5;

	ntns_close(&ns);
	hold(is_closed(&ns), "a closed namespace is closed again", 0);
	for (int round = 0; round < 3; round++) {
		refused(&ns, 1, 4, S(INVALID_PARAMETER), false);
		memset(&deletion, 0x5A, sizeof deletion);
		hold(ntns_next_deletion(&ns, &deletion) == S(INVALID_PARAMETER) && is_none(&deletion), "a closed one reports no deletion", round);
		hold(reports_no_handle(&ns, 1, 4, S(INVALID_PARAMETER), S(INVALID_PARAMETER), 3), "nor a handle", round);
		hold(ntns_next_process(&ns, &process) == S(INVALID_PARAMETER) && process == 5, "nor a process", round);
		hold(begins_nothing(&ns, 1, 0, TEXT("\\D\\x"), 0, 0, S(INVALID_PARAMETER)) && is_no_ticket(&ns, 7), "nor has it a pending open", round);
		hold(is_closed(&ns), "what is refused leaves it closed", round);
		hold(ntns_open(&ns) == S(SUCCESS), "it is opened", round);
		ntns before = ns;
		hold(ntns_open(&ns) == S(INVALID_PARAMETER) && !memcmp(&ns, &before, sizeof ns), "one that is open isn't opened again", round);
		ntns_close(&ns);
		hold(is_closed(&ns), "it is closed", round);
	}
}

static void names(void)
{
	ntns ns = opened();
	uint32_t given, root, directory;
	char path[8];
	size_t length;

	ntns_open_directory(&ns, 1, 0, TEXT("\\"), 0, &root);
	ntns_create_directory(&ns, 1, 0, TEXT("\\A"), 0, &directory);
	for (int call = 0; call < 3; call++) {
		hold(give(&ns, call, 1, 0, NULL, 0, 0, &given) == S(SUCCESS), "a create without a name makes an object without one", call);
		hold(ntns_query_name(&ns, 1, given, NULL, 0, &length) == S(SUCCESS) && length == 0, "it has none", call);
		hold(give(&ns, call, 1, 0, "", 0, 0, &given) == S(OBJECT_PATH_SYNTAX_BAD) && given == 0, "an empty name is no absolute one", call);
		hold(give(&ns, call, 1, directory, "", 0, 0, &given) == S(OBJECT_NAME_COLLISION) && given == 0, "an empty relative name is the directory's", call);
	}
	for (int call = 3; call < 6; call++)
		hold(give(&ns, call, 1, 0, NULL, 0, 0, &given) == S(OBJECT_PATH_SYNTAX_BAD) && given == 0, "an open without a name is refused", call);
	hold(give(&ns, 3, 1, directory, NULL, 0, 0, &given) == S(SUCCESS), "but relative to a directory it opens that", 0);
	hold(ntns_query_name(&ns, 1, given, path, sizeof path, &length) == S(SUCCESS) && length == 2 && !memcmp(path, "\\A", 2), "it is that directory", 0);
	hold(give(&ns, 0, 1, root, TEXT("a\0b"), 0, &given) == S(OBJECT_NAME_INVALID) && given == 0, "a name has no zero byte", 0);
	hold(ntns_create_link(&ns, 1, 0, TEXT("\\L"), 0, NULL, 0, &given) == S(INVALID_PARAMETER) && given == 0, "a link has a target", 0);
	for (int byte = 0; byte < 256; byte++) {
		char name[2] = { '\\', (char)byte };
		bool is_well = byte >= 0x20 && byte <= 0x7E;
		ntns_status status = give(&ns, 3, 1, 0, name, sizeof name, 0, &given);
		ntns_status wanted = byte == '\\' ? S(OBJECT_NAME_INVALID) : byte == 'A' ? S(SUCCESS) : is_well ? S(OBJECT_NAME_NOT_FOUND) : S(OBJECT_NAME_INVALID);
		hold(status == wanted, "each byte of a name is judged", (unsigned long)byte);
		status = ntns_create_link(&ns, 1, 0, NULL, 0, 0, name + 1, 1, &given);
		hold(status == (is_well ? S(SUCCESS) : S(INVALID_PARAMETER)), "each byte of a target is judged", (unsigned long)byte);
	}
	ntns_close(&ns);
}

static void long_names(void)
{
	static const size_t lengths[] = { 32766, 32767, 32768, 65535, 65536, 65537, 1 << 20, 1 << 26 };
	char *name = malloc(1 << 26);

	hold(name != NULL, "there is memory for a long name", 0);
	for (size_t place = 0; name && place < sizeof lengths / sizeof *lengths; place++) {
		ntns ns = opened();
		uint32_t given;
		size_t length = lengths[place];
		ntns_status too_long = length > 32767 ? S(NAME_TOO_LONG) : S(SUCCESS);

		memset(name, 'a', length);
		name[0] = '\\';
		for (int call = 0; call < 3; call++) {
			hold(give(&ns, call, 1, 0, name, length, 0, &given) == too_long, "a create of a long name", length);
			if (given)
				ntns_close_handle(&ns, 1, given);
		}
		for (int call = 3; call < 6; call++)
			hold(give(&ns, call, 1, 0, name, length, 0, &given) == (too_long ? too_long : S(OBJECT_NAME_NOT_FOUND)), "an open of one", length);
		ntns_status status = ntns_create_link(&ns, 1, 0, NULL, 0, 0, name, length, &given);
		hold(status == (too_long ? S(INVALID_PARAMETER) : S(SUCCESS)), "a link with a long target", length);
		name[length - 1] = 7;
		for (int call = 0; call < 6; call++)
			hold(give(&ns, call, 1, 0, name, length, 0, &given) == S(OBJECT_NAME_INVALID) && given == 0, "a wrong byte at its end is told first", length);
		ntns_close(&ns);
	}
	free(name);
}

static void rooms(void)
{
	ntns ns = opened();
	uint32_t handles[TELLING], device;
	char text[8];
	size_t length;

	ntns_create_link(&ns, 1, 0, NULL, 0, 0, TEXT("\\A"), &handles[0]);
	ntns_create_directory(&ns, 1, 0, TEXT("\\D"), 0, &handles[1]);
	ntns_create_object(&ns, 1, 0, TEXT("\\D\\dd"), 0, NTNS_TYPE_DEVICE, 1, &device);
	ntns_open_object(&ns, 1, device, TEXT("xy"), 0, NTNS_TYPE_FILE, &handles[2]);
	handles[3] = handles[1];
	for (int call = 0; call < TELLING; call++) {
		hold(tell(&ns, call, 1, handles[call], NULL, 0, &length) == S(BUFFER_TOO_SMALL) && length == 2, "no room, and no buffer", call);
		hold(tell(&ns, call, 1, handles[call], text, 0, &length) == S(BUFFER_TOO_SMALL) && length == 2, "no room", call);
		memcpy(text, "abcdefg", 8);
		hold(tell(&ns, call, 1, handles[call], text, 1, &length) == S(BUFFER_TOO_SMALL) && length == 2 && !memcmp(text, "abcdefg", 8), "too little room", call);
		hold(tell(&ns, call, 1, handles[call], text, 2, &length) == S(SUCCESS) && length == 2 && !memcmp(text + 2, "cdefg", 6), "just the room", call);
		hold(tell(&ns, call, 1, handles[call], text, sizeof text, &length) == S(SUCCESS) && length == 2, "more room", call);
	}
	ntns_create_object(&ns, 1, 0, NULL, 0, 0, NTNS_TYPE_FILE, 1, &handles[2]);
	hold(tell(&ns, 1, 1, handles[2], NULL, 0, &length) == S(SUCCESS) && length == 0, "an empty path needs no room", 0);
	hold(tell(&ns, 2, 1, handles[2], NULL, 0, &length) == S(SUCCESS) && length == 0, "nor does an empty rest", 0);
	ntns_close(&ns);
}

static void pages(void)
{
	ntns ns = opened();
	uint32_t directory, given;
	uint64_t context = 0;
	char text[32];
	size_t length = STALE;

	ntns_create_directory(&ns, 1, 0, TEXT("\\D"), 0, &directory);
	hold(ntns_next_page(&ns, 1, directory, &context, NULL, 0, &length) == S(NO_MORE_ENTRIES) && length == 0 && context == 0, "an empty directory has no page", 0);
	ntns_create_object(&ns, 1, directory, TEXT("ab"), 0, NTNS_TYPE_EVENT, 1, &given);
	for (size_t room = 0; room < 11; room++) {
		memset(text, 'z', sizeof text);
		length = STALE;
		hold(ntns_next_page(&ns, 1, directory, &context, room ? text : NULL, room, &length) == S(BUFFER_TOO_SMALL) && length == 0 && context == 0, "an entry doesn't fit", (long)room);
		hold(text[0] == 'z' && text[room] == 'z', "and nothing is written", (long)room);
	}
	for (size_t room = 11; room < sizeof text; room++) {
		memset(text, 'z', sizeof text);
		context = 0;
		hold(ntns_next_page(&ns, 1, directory, &context, text, room, &length) == S(SUCCESS) && length == 9 && context != 0, "an entry fits", (long)room);
		hold(!memcmp(text, "ab\0Event\0zz", 11) && text[room] == 'z', "and no more is written", (long)room);
	}
	context = 0;
	hold(ntns_next_page(&ns, 1, directory, &context, text, sizeof text, &length) == S(SUCCESS) && context != 0, "a page is told", 0);
	hold(ntns_next_page(&ns, 1, directory, &context, text, sizeof text, &length) == S(NO_MORE_ENTRIES) && length == 0, "and none behind it", 0);
	hold(ntns_next_page(&ns, 1, given, &context, text, sizeof text, &length) == S(OBJECT_TYPE_MISMATCH) && length == 0, "an event has no pages", 0);
	ntns_close(&ns);
	hold(ntns_next_page(&ns, 1, directory, &context, text, sizeof text, &length) == S(INVALID_PARAMETER) && length == 0, "nor has a closed namespace", 0);
}

/* Reads the rest of a listing by so many rows and so much room, and compares it with its entries, "a", "bb" and "ccc". Whether it is told whole. */
static bool lists_all(ntns *ns, uint32_t directory, size_t places, size_t room)
{
	static const char names[] = "abbccc";
	uint64_t context = 0;
	size_t told = 0;

	while (true) {
		struct ntns_row rows[5];
		char buffer[16];
		uint64_t before = context;
		size_t count = places, used = 0;

		memset(rows, 0xAB, sizeof rows);
		memset(buffer, 'z', sizeof buffer);
		ntns_status status = ntns_next_rows(ns, 1, directory, &context, rows, &count, buffer, room);
		for (size_t row = 0; row < count; row++, told++) {
			size_t length = told + 1;
			if (told > 2 || rows[row].name != used || rows[row].length != length || rows[row].type != NTNS_TYPE_EVENT || rows[row].context <= before)
				return false;
			if (memcmp(buffer + used, names + told * length / 2, length))
				return false;
			before = rows[row].context;
			used += length;
		}
		if (count > places || used > room || buffer[used] != 'z' || rows[count].length != STALE)
			return false;
		if (context != before)
			return false;
		if (status == S(BUFFER_TOO_SMALL))
			return count == 0 && told < 3 && (places == 0 || room <= told);
		if (status == S(SUCCESS) || status == S(NO_MORE_ENTRIES))
			return told == 3 && (status == S(SUCCESS)) == (count != 0);
		if (status != S(MORE_ENTRIES) || count == 0 || told == 3)
			return false;
	}
}

static void rows(void)
{
	ntns ns = opened();
	uint32_t directory, given;
	uint64_t context = 7;
	size_t count = 3;
	struct ntns_row row[2];
	char text[8];

	ntns_create_directory(&ns, 1, 0, TEXT("\\D"), 0, &directory);
	hold(ntns_next_rows(&ns, 1, directory, &context, row, &count, text, sizeof text) == S(NO_MORE_ENTRIES) && count == 0 && context == 7, "an empty directory has no rows", 0);
	ntns_create_object(&ns, 1, directory, TEXT("a"), 0, NTNS_TYPE_EVENT, 1, &given);
	ntns_create_object(&ns, 1, directory, TEXT("bb"), 0, NTNS_TYPE_EVENT, 1, &given);
	ntns_create_object(&ns, 1, directory, TEXT("ccc"), 0, NTNS_TYPE_EVENT, 1, &given);
	for (size_t places = 0; places < 5; places++)
		for (size_t room = 0; room < 9; room++)
			hold(lists_all(&ns, directory, places, room), "rows tell a listing", (long)(places * 10 + room));
	struct ntns_row all[4];
	context = 0;
	count = 3;
	hold(ntns_next_rows(&ns, 1, directory, &context, all, &count, text, sizeof text) == S(SUCCESS) && count == 3, "three rows have three entries", 0);
	for (size_t last = 0; last < 2; last++) {
		count = 1;
		context = all[last].context;
		hold(ntns_next_rows(&ns, 1, directory, &context, row, &count, text, sizeof text) == (last ? S(SUCCESS) : S(MORE_ENTRIES)) && row->length == last + 2 && context == all[last + 1].context, "a listing goes on from any row", (long)last);
	}
	context = 0;
	count = 3;
	hold(ntns_next_rows(&ns, 1, directory, &context, NULL, &count, text, sizeof text) == S(BUFFER_TOO_SMALL) && count == 0 && context == 0, "there are no rows", 0);
	count = 1;
	hold(ntns_next_rows(&ns, 1, directory, &context, row, &count, NULL, 9) == S(BUFFER_TOO_SMALL) && count == 0 && context == 0, "there is no buffer", 0);
	count = 1;
	hold(ntns_next_rows(&ns, 1, given, &context, row, &count, text, sizeof text) == S(OBJECT_TYPE_MISMATCH) && count == 0 && context == 0, "an event has no rows", 0);
	count = 1;
	context = UINT64_MAX;
	hold(ntns_next_rows(&ns, 1, directory, &context, row, &count, text, sizeof text) == S(NO_MORE_ENTRIES) && count == 0 && context == UINT64_MAX, "nor has the end of a listing", 0);
	ntns_close(&ns);
	count = 1;
	hold(ntns_next_rows(&ns, 1, directory, &context, row, &count, text, sizeof text) == S(INVALID_PARAMETER) && count == 0, "nor has a closed namespace", 0);
}

static void types(void)
{
	ntns ns = opened();
	uint32_t given, type, directory;
	uint64_t user_data, id, context = 0;
	size_t length;
	char name[16];

	ntns_create_directory(&ns, 1, 0, TEXT("\\T"), 0, &directory);
	for (uint32_t asked = 0; asked <= 64; asked++) {
		bool is_callers = asked >= NTNS_TYPE_EVENT && asked <= NTNS_TYPE_WMI_GUID, is_type = is_callers || asked == NTNS_TYPE_DIRECTORY || asked == NTNS_TYPE_SYMBOLIC_LINK;
		int count = snprintf(name, sizeof name, "t%u", (unsigned)asked);

		given = STALE;
		ntns_status status = ntns_create_object(&ns, 1, directory, name, (size_t)count, 0, asked, asked + 100, &given);
		hold(status == (is_callers ? S(SUCCESS) : S(INVALID_PARAMETER)) && (given != 0) == is_callers, "an object is made of each of the caller's types, and of no other", asked);
		hold((ntns_type_name(asked) != NULL) == is_type, "each type has a name", asked);
		status = ntns_open_object(&ns, 1, 0, TEXT("\\No"), 0, asked, &given);
		hold(status == (is_callers || asked == NTNS_TYPE_ANY ? S(OBJECT_NAME_NOT_FOUND) : S(INVALID_PARAMETER)) && given == 0, "an open knows the caller's types", asked);
	}
	for (uint32_t made = NTNS_TYPE_EVENT; made <= NTNS_TYPE_WMI_GUID; made++) {
		hold(ntns_next_entry(&ns, 1, directory, &context, name, sizeof name, &length, &type) == S(SUCCESS) && type == made, "an entry tells its type", made);
		hold(ntns_open_object(&ns, 1, directory, name, length, 0, made == NTNS_TYPE_DEVICE ? NTNS_TYPE_FILE : made, &given) == S(SUCCESS), "an object is opened by its type", made);
		hold(ntns_query_object(&ns, 1, given, &type, &user_data, &id) == S(SUCCESS) && user_data == made + 100, "its user data is told", made);
		hold(ntns_open_object(&ns, 1, directory, name, length, 0, made == NTNS_TYPE_EVENT ? NTNS_TYPE_MUTANT : NTNS_TYPE_EVENT, &given) == S(OBJECT_TYPE_MISMATCH), "and by no other", made);
	}
	hold(ntns_create_object(&ns, 1, 0, NULL, 0, 0, UINT32_MAX, 1, &given) == S(INVALID_PARAMETER) && given == 0, "there are no other types", 0);
	hold(ntns_open_object(&ns, 1, 0, TEXT("\\"), 0, UINT32_MAX, &given) == S(INVALID_PARAMETER) && given == 0, "none to be opened either", 0);
	hold(ntns_type_name(UINT32_MAX) == NULL, "they have no names", 0);
	hold(!strcmp(ntns_type_name(NTNS_TYPE_ALPC_PORT), "ALPC Port") && !strcmp(ntns_type_name(NTNS_TYPE_WMI_GUID), "WmiGuid"), "types have the names that Windows gives them", 0);
	hold(!strcmp(ntns_status_text(S(PROCESS_GONE)), "PROCESS_GONE") && !strcmp(ntns_status_text(S(SUCCESS)), "SUCCESS"), "statuses have names", 0);
	hold(!strcmp(ntns_status_text(S(PENDING)), "PENDING"), "a pending open's too", 0);
	hold(ntns_status_text(1) == NULL && ntns_status_text(UINT32_MAX) == NULL, "and others none", 0);
	ntns_close(&ns);
}

static void attributes(void)
{
	static const uint32_t known = NTNS_OBJ_INHERIT | NTNS_OBJ_PERMANENT | NTNS_OBJ_EXCLUSIVE | NTNS_OBJ_CASE_INSENSITIVE | NTNS_OBJ_OPENIF | NTNS_OBJ_OPENLINK;
	ntns ns = opened();
	uint32_t given;

	for (unsigned bit = 0; bit < 32; bit++) {
		bool is_known = known & 1u << bit;
		for (int call = 0; call < 6; call++) {
			hold(give(&ns, call, 1, 0, TEXT("\\A\\\x07"), 1u << bit, &given) == (is_known ? S(OBJECT_NAME_INVALID) : S(INVALID_PARAMETER)) && given == 0, "each attribute is judged, before the name", bit);
			hold(give(&ns, call, 1, 0, NULL, 0, 1u << bit | NTNS_OBJ_INHERIT | NTNS_OBJ_EXCLUSIVE, &given) == S(INVALID_PARAMETER) && given == 0, "two of them don't go together", bit);
		}
	}
	ntns_close(&ns);
}

static void handles_and_processes(void)
{
	static const uint32_t odd[] = { 0, 1, 2, 3, 400, 262140, 262144, 0x7FFFFFFF, 0x80000000, 0xFFFFFFFC, UINT32_MAX };
	static const uint32_t none[] = { 0, 3, 4, 0x80000000, UINT32_MAX };
	ntns ns = opened();
	uint32_t own, child, others, given;
	uint64_t context = UINT64_MAX;
	size_t length;
	uint32_t type;

	ntns_open_directory(&ns, 1, 0, TEXT("\\"), 0, &own);
	ntns_new_process(&ns, 1, false, &child);
	for (int made = 0; made < 3; made++)
		ntns_create_directory(&ns, child, 0, NULL, 0, 0, &others);
	for (size_t place = 0; place < sizeof odd / sizeof *odd; place++)
		refused(&ns, 1, odd[place], S(INVALID_HANDLE), true);
	refused(&ns, 1, others, S(INVALID_HANDLE), true);
	for (size_t place = 0; place < sizeof none / sizeof *none; place++) {
		refused(&ns, none[place], own, S(PROCESS_GONE), false);
		hold(ntns_duplicate(&ns, 1, own, none[place], false, &given) == S(PROCESS_GONE) && given == 0, "a duplicate into no process", none[place]);
	}
	hold(give(&ns, 3, 1, others, TEXT("x"), 0, &given) == S(INVALID_HANDLE) && given == 0, "another's handle is no root handle", 0);
	hold(ntns_next_entry(&ns, 1, own, &context, NULL, 0, &length, &type) == S(NO_MORE_ENTRIES) && context == UINT64_MAX && length == 0 && type == 0, "nothing stands behind the last context", 0);
	hold(ntns_next_page(&ns, 1, own, &context, NULL, 0, &length) == S(NO_MORE_ENTRIES) && context == UINT64_MAX && length == 0, "nor is there a page", 0);
	hold(ntns_exit_process(&ns, child) == S(SUCCESS), "a process ends", 0);
	refused(&ns, child, others, S(PROCESS_GONE), false);
	hold(ntns_close_handle(&ns, 1, own | 3) == S(SUCCESS), "the low bits of a handle don't count", 0);
	ntns_close(&ns);
}

/* Lists the handles of a process from a context on, as their values, at most eight; how many there are. */
static size_t listed(ntns *ns, uint32_t process, uint64_t context, uint32_t values[8])
{
	struct ntns_handle handle;
	size_t count = 0;

	while (count < 8 && ntns_next_handle(ns, process, &context, &handle) == S(SUCCESS))
		values[count++] = handle.value;
	return count;
}

static void handles_listed(void)
{
	ntns ns = opened();
	uint32_t directory, link, event, again, child, others, number = 0, values[8];
	uint64_t context = 0, id, user_data;
	struct ntns_handle handle;

	hold(ntns_next_process(&ns, &number) == S(SUCCESS) && number == 1, "the first process is listed", 0);
	hold(ntns_next_process(&ns, &number) == S(NO_MORE_ENTRIES) && number == 1, "and no other", 0);
	hold(reports_no_handle(&ns, 1, 4, S(INVALID_HANDLE), S(NO_MORE_ENTRIES), 0), "it has no handle", 0);
	ntns_create_directory(&ns, 1, 0, TEXT("\\D"), NTNS_OBJ_PERMANENT | NTNS_OBJ_INHERIT, &directory);
	ntns_create_link(&ns, 1, 0, TEXT("\\L"), 0, TEXT("\\D"), &link);
	ntns_create_object(&ns, 1, directory, TEXT("E"), NTNS_OBJ_EXCLUSIVE, NTNS_TYPE_EVENT, 70, &event);
	hold(ntns_query_object(&ns, 1, directory, &number, &user_data, &id) == S(SUCCESS), "a directory has an id", 0);
	hold(ntns_next_handle(&ns, 1, &context, &handle) == S(SUCCESS) && handle.value == directory && handle.type == NTNS_TYPE_DIRECTORY && handle.id == id && handle.inherit &&
	     handle.permanent && !handle.exclusive && handle.handles == 1, "handles are listed from the oldest on", 0);
	ntns_close_handle(&ns, 1, directory);
	ntns_open_directory(&ns, 1, 0, TEXT("\\D"), 0, &again);
	hold(listed(&ns, 1, context, values) == 3 && values[0] == link && values[1] == event && values[2] == again, "a close between two calls skips none, and a new one is the last", 0);
	hold(ntns_next_handle(&ns, 1, &context, &handle) == S(SUCCESS) && handle.value == link && handle.type == NTNS_TYPE_SYMBOLIC_LINK && handle.user_data == 0 && !handle.inherit &&
	     !handle.permanent, "a link is listed", 0);
	hold(ntns_query_handle(&ns, 1, event | 3, &handle) == S(SUCCESS) && handle.value == event && handle.type == NTNS_TYPE_EVENT && handle.user_data == 70 && handle.id == 1 &&
	     handle.exclusive && !handle.permanent, "the low bits of a handle don't count in a query", 0);
	hold(ntns_new_process(&ns, 1, true, &child) == S(SUCCESS), "a child begins", 0);
	hold(listed(&ns, child, 0, values) == 0, "it inherits what children inherit alone", 0);
	hold(ntns_duplicate(&ns, 1, again, child, true, &others) == S(SUCCESS), "a handle is handed on", 0);
	hold(ntns_query_handle(&ns, child, others, &handle) == S(SUCCESS) && handle.handles == 2 && handle.inherit, "handles are counted over all processes", 0);
	number = 0;
	hold(ntns_next_process(&ns, &number) == S(SUCCESS) && number == 1 && ntns_next_process(&ns, &number) == S(SUCCESS) && number == child &&
	     ntns_next_process(&ns, &number) == S(NO_MORE_ENTRIES) && number == child, "processes are listed by their numbers", 0);
	hold(ntns_exit_process(&ns, child) == S(SUCCESS), "a process ends", 0);
	hold(reports_no_handle(&ns, child, others, S(INVALID_HANDLE), S(NO_MORE_ENTRIES), 0), "and has no handle any more", 0);
	number = 1;
	hold(ntns_next_process(&ns, &number) == S(NO_MORE_ENTRIES) && number == 1, "nor is it listed", 0);
	context = UINT64_MAX;
	hold(reports_no_handle(&ns, 1, 0, S(INVALID_HANDLE), S(NO_MORE_ENTRIES), UINT64_MAX), "nothing follows the last context", 0);
	ntns_close(&ns);
}

/* A handle to the root directory, and whether children inherit it. */
struct flagged {
	uint32_t value;
	bool inherit;
};

/* Whether process 1 has just these handles, in this order of opening, and no other process has one to the root directory. */
static bool has_just(ntns *ns, const struct flagged *flagged, size_t count)
{
	struct ntns_handle handle;
	uint64_t context = 0;

	for (size_t place = 0; place < count; place++)
		if (ntns_next_handle(ns, 1, &context, &handle) != S(SUCCESS) || handle.value != flagged[place].value || handle.inherit != flagged[place].inherit ||
		    handle.handles != count)
			return false;
	return ntns_next_handle(ns, 1, &context, &handle) == S(NO_MORE_ENTRIES);
}

/* Takes a handle out of a list. */
static void take_out(struct flagged *flagged, size_t *count, size_t place)
{
	*count -= 1;
	memmove(flagged + place, flagged + place + 1, (*count - place) * sizeof *flagged);
}

/* Opens, closes and flags handles at random, beside a list of them in the order of opening: a handle whose flag changes comes last. */
static void flags_at_random(void)
{
	enum { ROOM = 12, STEPS = 3000 };
	struct flagged flagged[ROOM], one;
	ntns ns = opened();
	uint32_t drawn = 1;
	size_t count = 0;

	for (unsigned long step = 0; step < STEPS; step++) {
		/* the generator that ISO C shows for rand */
		drawn = drawn * 1103515245 + 12345;
		uint32_t choice = drawn >> 16 & 3, low_bits = drawn >> 30;
		size_t place = count ? (drawn >> 19 & 0x3FF) % count : 0;
		one.inherit = drawn >> 18 & 1;
		one.value = count ? flagged[place].value : 0;
		if (choice == 0 && count < ROOM) {
			hold(ntns_open_directory(&ns, 1, 0, TEXT("\\"), one.inherit ? NTNS_OBJ_INHERIT : 0, &one.value) == S(SUCCESS), "a handle is opened", step);
			flagged[count++] = one;
		} else if (choice == 1 && count) {
			hold(ntns_close_handle(&ns, 1, one.value | low_bits) == S(SUCCESS), "a handle is closed", step);
			take_out(flagged, &count, place);
		} else {
			hold(ntns_set_inherit(&ns, 1, one.value | low_bits, one.inherit) == (count ? S(SUCCESS) : S(INVALID_HANDLE)), "a flag is set where there is a handle", step);
			if (count && flagged[place].inherit != one.inherit) {
				take_out(flagged, &count, place);
				flagged[count++] = one;
			}
		}
		hold(has_just(&ns, flagged, count), "each handle has its value, its flag and its place", step);
	}
	ntns_close(&ns);
}

/* Where a process has as many handles as it may, no flag changes. */
static void flags_of_a_full_table(void)
{
	enum { MOST = 65535 };
	ntns ns = opened();
	struct ntns_handle handle;
	uint32_t first, given = 0;
	ntns_status status = ntns_open_directory(&ns, 1, 0, TEXT("\\"), 0, &first);

	for (int made = 1; made < MOST && status == S(SUCCESS); made++)
		status = ntns_open_directory(&ns, 1, 0, TEXT("\\"), 0, &given);
	hold(status == S(SUCCESS) && ntns_set_inherit(&ns, 1, first, true) == S(INSUFFICIENT_RESOURCES), "a full table has no room for a duplicate", 0);
	hold(ntns_query_handle(&ns, 1, first, &handle) == S(SUCCESS) && !handle.inherit && handle.handles == MOST, "and then nothing has changed", 0);
	hold(ntns_set_inherit(&ns, 1, first, false) == S(SUCCESS), "a flag that is as asked needs none", 0);
	hold(ntns_close_handle(&ns, 1, given) == S(SUCCESS) && ntns_set_inherit(&ns, 1, first, true) == S(SUCCESS), "nor does one handle less", 0);
	hold(ntns_query_handle(&ns, 1, first, &handle) == S(SUCCESS) && handle.inherit && handle.handles == MOST - 1, "the value stays", 0);
	ntns_close(&ns);
}

static void opens_in_two_phases(void)
{
	static const uint64_t none[] = { 0, 1, 6, 7, 1 << 20, (uint64_t)1 << 32, (uint64_t)1 << 63, UINT64_MAX };
	ntns ns = opened(), other = opened();
	struct ntns_pending pending, again;
	struct ntns_deletion deletion;
	uint32_t device, given, type;
	uint64_t user_data, id;
	size_t length;
	char rest[8];

	ntns_create_object(&ns, 1, 0, TEXT("\\D"), 0, NTNS_TYPE_DEVICE, 9, &device);
	ntns_query_object(&ns, 1, device, &type, &user_data, &id);
	for (size_t place = 0; place < sizeof none / sizeof *none; place++)
		hold(is_no_ticket(&ns, none[place]), "no open is pending at first", place);
	for (size_t room = 0; room < sizeof rest; room++) {
		memset(rest, 'z', sizeof rest);
		memset(&pending, 0x5A, sizeof pending);
		given = STALE;
		ntns_status status = ntns_begin_open(&ns, 1, 0, TEXT("\\D\\xyz"), 0, NTNS_TYPE_FILE, &given, &pending, room ? rest : NULL, room, &length);
		hold(status == (room < 4 ? S(BUFFER_TOO_SMALL) : S(PENDING)) && given == 0 && length == 4, "a rest fits its room, or not", room);
		hold(!memcmp(rest, room < 4 ? "zzzz" : "\\xyz", 4) && rest[4] == 'z', "and no more is written", room);
		if (room < 4)
			hold(is_no_open(&pending), "where it doesn't fit no open is pending", room);
		else
			hold(pending.ticket && pending.id == id && pending.user_data == 9 && pending.type == NTNS_TYPE_DEVICE && ntns_cancel_open(&ns, pending.ticket) == S(SUCCESS),
			     "an open is pending at a device", room);
	}
	hold(ntns_begin_open(&ns, 1, device, NULL, 0, 0, NTNS_TYPE_ANY, &given, &pending, NULL, 0, &length) == S(PENDING) && length == 0, "an empty rest needs no room", 0);
	hold(ntns_begin_open(&ns, 1, device, TEXT("a"), 0, NTNS_TYPE_ANY, &given, &again, rest, 1, &length) == S(PENDING) && again.ticket != pending.ticket, "each open has its own ticket", 0);
	hold(is_no_ticket(&other, pending.ticket), "another namespace doesn't know it", 0);
	hold(ntns_close_handle(&ns, 1, device) == S(SUCCESS) && ntns_next_deletion(&ns, &deletion) == S(NO_MORE_ENTRIES), "what an open is pending at remains", 0);
	hold(ntns_end_open(&ns, pending.ticket, &given) == S(SUCCESS) && given != 0 && is_no_ticket(&ns, pending.ticket), "an open is ended once", 0);
	hold(ntns_cancel_open(&ns, again.ticket) == S(SUCCESS) && is_no_ticket(&ns, again.ticket), "or cancelled once", 0);
	hold(ntns_next_deletion(&ns, &deletion) == S(SUCCESS) && deletion.id == id && deletion.type == NTNS_TYPE_DEVICE, "then the device goes", 0);
	hold(ntns_next_deletion(&ns, &deletion) == S(NO_MORE_ENTRIES), "and no file of an open that was cancelled", 0);
	hold(begins_nothing(&ns, 1, 0, NULL, 0, 0, NTNS_TYPE_ANY, S(OBJECT_PATH_SYNTAX_BAD)), "an open has a name", 0);
	hold(begins_nothing(&ns, 1, 0, TEXT("\\No"), 0, NTNS_TYPE_ANY, S(OBJECT_NAME_NOT_FOUND)), "one that is there", 0);
	hold(begins_nothing(&ns, 1, 0, TEXT("\\D"), 0x200, NTNS_TYPE_ANY, S(INVALID_PARAMETER)), "known attributes", 0);
	hold(begins_nothing(&ns, 1, 0, TEXT("\\D"), 0, NTNS_TYPE_DIRECTORY, S(INVALID_PARAMETER)), "a type of the caller's", 0);
	hold(begins_nothing(&ns, 5, 0, TEXT("\\D"), 0, NTNS_TYPE_ANY, S(PROCESS_GONE)), "and a process", 0);
	ntns_close(&ns);
	ntns_close(&other);
}

static void two_namespaces(void)
{
	ntns one = opened(), other = opened();
	uint32_t handle, given, type;
	uint64_t user_data, id;
	struct ntns_deletion deletion;

	ntns_create_object(&one, 1, 0, TEXT("\\E"), 0, NTNS_TYPE_EVENT, 7, &handle);
	hold(ntns_open_object(&other, 1, 0, TEXT("\\E"), 0, NTNS_TYPE_EVENT, &given) == S(OBJECT_NAME_NOT_FOUND), "what one has the other hasn't", 0);
	hold(leads_nowhere(&other, 1, handle, S(INVALID_HANDLE)), "nor does it know its handles", 0);
	hold(ntns_query_object(&one, 1, handle, &type, &user_data, &id) == S(SUCCESS) && id == 1, "its first object has the first id", 0);
	ntns moved = one;
	ntns_close(&other);
	hold(ntns_close_handle(&moved, 1, handle) == S(SUCCESS), "a struct that was moved serves on", 0);
	hold(ntns_next_deletion(&moved, &deletion) == S(SUCCESS) && deletion.type == NTNS_TYPE_EVENT && deletion.user_data == 7 && deletion.id == id && !deletion.parsed, "with all that it had", 0);
	hold(ntns_next_deletion(&moved, &deletion) == S(NO_MORE_ENTRIES) && is_none(&deletion), "and no more", 0);
	ntns_close(&moved);
	hold(is_closed(&moved), "and is closed", 0);
}

static void copies(void)
{
	ntns ns = opened(), closed = NTNS_CLOSED, copy = NTNS_CLOSED, second = NTNS_CLOSED;
	uint32_t handle, given, type;
	uint64_t user_data, id;
	struct ntns_deletion deletion;

	hold(ntns_copy(&closed, &copy) == S(INVALID_PARAMETER) && is_closed(&closed) && is_closed(&copy), "a closed namespace isn't copied", 0);
	hold(ntns_copy(&closed, &closed) == S(INVALID_PARAMETER) && is_closed(&closed), "nor onto itself", 0);
	ntns_create_object(&ns, 1, 0, TEXT("\\E"), 0, NTNS_TYPE_EVENT, 7, &handle);
	ntns before = ns;
	hold(ntns_copy(&closed, &ns) == S(INVALID_PARAMETER) && !memcmp(&ns, &before, sizeof ns), "an open one is no place for a copy", 0);
	hold(ntns_copy(&ns, &ns) == S(INVALID_PARAMETER) && !memcmp(&ns, &before, sizeof ns), "nor for its own", 0);
	hold(ntns_copy(&ns, &copy) == S(SUCCESS) && !memcmp(&ns, &before, sizeof ns), "an open one is copied, and its struct stays", 0);
	if (copy.words[0] == ns.words[0]) {
		hold(false, "a copy owns memory of its own", 0);
		ntns_close(&ns);
		return;
	}
	before = copy;
	hold(ntns_copy(&ns, &copy) == S(INVALID_PARAMETER) && !memcmp(&copy, &before, sizeof copy), "a copy is no place for another", 0);
	hold(ntns_query_object(&copy, 1, handle, &type, &user_data, &id) == S(SUCCESS) && type == NTNS_TYPE_EVENT && user_data == 7 && id == 1, "a copy has the handle, with its object", 0);
	hold(ntns_close_handle(&copy, 1, handle) == S(SUCCESS), "which is closed in the copy", 0);
	hold(ntns_query_object(&ns, 1, handle, &type, &user_data, &id) == S(SUCCESS), "and not in what was copied", 0);
	hold(ntns_copy(&copy, &second) == S(SUCCESS), "a copy is copied", 0);
	hold(ntns_next_deletion(&copy, &deletion) == S(SUCCESS) && deletion.id == 1, "a copy reports its own deletion", 0);
	hold(ntns_next_deletion(&ns, &deletion) == S(NO_MORE_ENTRIES), "and alone", 0);
	hold(ntns_next_deletion(&second, &deletion) == S(SUCCESS) && deletion.id == 1 && deletion.user_data == 7, "or its copy, which was made before", 0);
	hold(ntns_create_object(&ns, 1, 0, TEXT("\\F"), 0, NTNS_TYPE_EVENT, 8, &given) == S(SUCCESS) && given != handle, "another object is made in what was copied", 0);
	hold(ntns_open_object(&copy, 1, 0, TEXT("\\F"), 0, NTNS_TYPE_EVENT, &given) == S(OBJECT_NAME_NOT_FOUND), "and not in the copy", 0);
	ntns_close(&ns);
	hold(ntns_create_object(&copy, 1, 0, TEXT("\\G"), 0, NTNS_TYPE_EVENT, 9, &given) == S(SUCCESS) && given == handle, "a copy serves on without it", 0);
	hold(ntns_query_object(&copy, 1, given, &type, &user_data, &id) == S(SUCCESS) && id == 2, "and draws the next id", 0);
	ntns_close(&copy);
	ntns_close(&second);
	hold(is_closed(&copy) && is_closed(&second), "copies are closed", 0);
}

int main(void)
{
	closed_namespaces();
	names();
	long_names();
	rooms();
	pages();
	rows();
	types();
	attributes();
	handles_and_processes();
	handles_listed();
	flags_at_random();
	flags_of_a_full_table();
	opens_in_two_phases();
	two_namespaces();
	copies();
	printf("%d passed, %d failed\n", passed, failed);
	return failed != 0;
}
