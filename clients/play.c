/* See play.h. */
#include "play.h"

#include <stdlib.h>
#include <string.h>

/* what is written where a call has to write, and behind a buffer */
enum { STALE = 0x5A };

void play_begin(struct play *play)
{
	memset(play, 0, sizeof *play);
	play->processes['p'] = 1;
}

size_t play_text(const char *text, char *full)
{
	size_t length = 0;
	while (*text) {
		if (*text != '{') {
			full[length++] = *text++;
			continue;
		}
		char *end;
		unsigned long count = strtoul(text + 1, &end, 10);
		memset(full + length, end[1], count);
		length += count;
		text = end + 3;
	}
	return length;
}

/* The value of a handle that a step names by its letter, 0 if it names none. */
static uint32_t value_of(const struct play *play, const struct step *step, char letter)
{
	return letter ? play->handles[(int)step->process][(int)letter] + step->more : 0;
}

static uint32_t handle_of(const struct play *play, const struct step *step)
{
	return value_of(play, step, step->handle);
}

/* Begins an open, with room for so many bytes of its rest. */
static void begin_open(struct play *play, const struct step *step, struct answer *answer, const char *name, size_t length, size_t capacity)
{
	struct ntns_pending pending;

	memset(&pending, STALE, sizeof pending);
	memset(&answer->length, STALE, sizeof answer->length);
	answer->status = ntns_begin_open(&play->ns, play->processes[(int)step->process], handle_of(play, step), name, length, step->attributes,
					 step->type, &answer->number, &pending, answer->text, capacity, &answer->length);
	answer->ticket = pending.ticket;
	answer->type = pending.type;
	answer->user_data = pending.user_data;
	answer->id = pending.id;
}

/* Makes the call of a create or an open. */
static void call_by_name(struct play *play, const struct step *step, struct answer *answer, size_t capacity)
{
	static char names[TEXT_ROOM], targets[TEXT_ROOM];
	ntns *ns = &play->ns;
	uint32_t process = play->processes[(int)step->process], root = handle_of(play, step);
	const char *name = step->name ? names : NULL;
	size_t length = step->name ? play_text(step->name, names) : 0;

	switch (step->call) {
	case CREATE_DIRECTORY:
		answer->status = ntns_create_directory(ns, process, root, name, length, step->attributes, &answer->number);
		break;
	case CREATE_SHADOWED:
		answer->status = ntns_create_shadowed(ns, process, root, name, length, step->attributes, value_of(play, step, step->shadow),
						      &answer->number);
		break;
	case CREATE_LINK:
		answer->status = ntns_create_link(ns, process, root, name, length, step->attributes, targets,
						  play_text(step->text, targets), &answer->number);
		break;
	case CREATE_OBJECT:
		answer->status = ntns_create_object(ns, process, root, name, length, step->attributes, step->type, step->user_data,
						    &answer->number);
		break;
	case OPEN_DIRECTORY:
		answer->status = ntns_open_directory(ns, process, root, name, length, step->attributes, &answer->number);
		break;
	case OPEN_LINK:
		answer->status = ntns_open_link(ns, process, root, name, length, step->attributes, &answer->number);
		break;
	case BEGIN_OPEN:
		begin_open(play, step, answer, name, length, capacity);
		break;
	default:
		answer->status = ntns_open_object(ns, process, root, name, length, step->attributes, step->type, &answer->number);
		break;
	}
}

/* Takes a deletion. */
static void next_deletion(ntns *ns, struct answer *answer)
{
	struct ntns_deletion deletion;

	memset(&deletion, STALE, sizeof deletion);
	answer->status = ntns_next_deletion(ns, &deletion);
	answer->type = deletion.type;
	answer->user_data = deletion.user_data;
	answer->id = deletion.id;
	answer->parsed = deletion.parsed;
}

/* Adds a text and a 0 to that of an answer. */
static void add_text(struct answer *answer, const char *text, size_t length)
{
	memcpy(answer->text + answer->length, text, length);
	answer->length += length;
	answer->text[answer->length++] = 0;
}

/* Asks for rows, and tells them as a page: of each its name and that of its type. */
static void next_rows(struct play *play, const struct step *step, struct answer *answer)
{
	static struct ntns_row rows[ROW_ROOM];
	static char names[TEXT_ROOM];
	size_t count = step->user_data ? step->user_data : ROW_ROOM, place = 0;

	memset(rows, STALE, sizeof rows);
	answer->status = ntns_next_rows(&play->ns, play->processes[(int)step->process], handle_of(play, step), &answer->context, rows, &count, names,
					sizeof names);
	answer->length = 0;
	for (size_t row = 0; row < count; row++) {
		if (rows[row].name != place)
			add_text(answer, "a name elsewhere", 16);
		add_text(answer, names + place, rows[row].length);
		add_text(answer, ntns_type_name(rows[row].type), strlen(ntns_type_name(rows[row].type)));
		place += rows[row].length;
	}
	if (count && rows[count - 1].context != answer->context)
		add_text(answer, "another context", 15);
}

/* Makes the call of a query. */
static void query(struct play *play, const struct step *step, struct answer *answer, size_t capacity)
{
	ntns *ns = &play->ns;
	uint32_t process = play->processes[(int)step->process], handle = handle_of(play, step);
	bool goes_on = step->call == NEXT_ENTRY || step->call == NEXT_PAGE || step->call == NEXT_ROWS;

	answer->context = goes_on ? play->contexts[(int)step->process][(int)step->handle] : 0;
	switch (step->call) {
	case QUERY_LINK:
		answer->status = ntns_query_link(ns, process, handle, answer->text, capacity, &answer->length);
		break;
	case QUERY_NAME:
		answer->status = ntns_query_name(ns, process, handle, answer->text, capacity, &answer->length);
		break;
	case QUERY_FILE:
		answer->status = ntns_query_file(ns, process, handle, answer->text, capacity, &answer->length);
		break;
	case QUERY_OBJECT:
		answer->status = ntns_query_object(ns, process, handle, &answer->type, &answer->user_data, &answer->id);
		break;
	case NEXT_DELETION:
		next_deletion(ns, answer);
		break;
	case FIRST_PAGE:
	case NEXT_PAGE:
		answer->status = ntns_next_page(ns, process, handle, &answer->context, answer->text, step->user_data ? step->user_data : capacity,
						&answer->length);
		break;
	case FIRST_ROWS:
	case NEXT_ROWS:
		next_rows(play, step, answer);
		break;
	default:
		answer->status = ntns_next_entry(ns, process, handle, &answer->context, answer->text, capacity, &answer->length,
						 &answer->type);
		break;
	}
}

struct answer play_call(struct play *play, const struct step *step, char *text, size_t capacity)
{
	ntns *ns = &play->ns;
	uint32_t process = play->processes[(int)step->process], handle = handle_of(play, step);
	struct answer answer = { .text = text };

	switch (step->call) {
	case CREATE_DIRECTORY:
	case CREATE_SHADOWED:
	case CREATE_LINK:
	case CREATE_OBJECT:
	case OPEN_DIRECTORY:
	case OPEN_LINK:
	case OPEN_OBJECT:
	case BEGIN_OPEN:
		memset(&answer.number, STALE, sizeof answer.number);
		call_by_name(play, step, &answer, capacity);
		break;
	case END_OPEN:
		memset(&answer.number, STALE, sizeof answer.number);
		answer.status = ntns_end_open(ns, play->tickets[(int)step->ticket], &answer.number);
		break;
	case CANCEL_OPEN:
		answer.status = ntns_cancel_open(ns, play->tickets[(int)step->ticket]);
		break;
	case CLOSE_HANDLE:
		answer.status = ntns_close_handle(ns, process, handle);
		break;
	case DUPLICATE_HANDLE:
		memset(&answer.number, STALE, sizeof answer.number);
		answer.status = ntns_duplicate(ns, process, handle, play->processes[(int)step->to], step->inherit, &answer.number);
		break;
	case SET_INHERIT:
		answer.status = ntns_set_inherit(ns, process, handle, step->inherit);
		break;
	case MAKE_TEMPORARY:
		answer.status = ntns_make_temporary(ns, process, handle);
		break;
	case MAKE_PERMANENT:
		answer.status = ntns_make_permanent(ns, process, handle);
		break;
	case SET_DEVICE_MAP:
		answer.status = ntns_set_device_map(ns, process, handle);
		break;
	case NEW_PROCESS:
		memset(&answer.number, STALE, sizeof answer.number);
		answer.status = ntns_new_process(ns, process, step->inherit, &answer.number);
		break;
	case EXIT_PROCESS:
		answer.status = ntns_exit_process(ns, process);
		break;
	default:
		memset(&answer.type, STALE, sizeof answer.type);
		memset(&answer.user_data, STALE, sizeof answer.user_data);
		memset(&answer.length, STALE, sizeof answer.length);
		query(play, step, &answer, capacity);
		break;
	}
	return answer;
}

void play_keep(struct play *play, const struct step *step, const struct answer *answer)
{
	int process = step->process, kept = step->kept;

	switch (step->call) {
	case CLOSE_HANDLE:
		if (answer->status == S(SUCCESS))
			play->handles[process][(int)step->handle] = 0;
		break;
	case EXIT_PROCESS:
		if (answer->status == S(SUCCESS))
			memset(play->handles[process], 0, sizeof play->handles[process]);
		break;
	case NEW_PROCESS:
		play->processes[kept] = answer->number;
		memset(play->handles[kept], 0, sizeof play->handles[kept]);
		memset(play->contexts[kept], 0, sizeof play->contexts[kept]);
		if (step->inherit)
			memcpy(play->handles[kept], play->handles[process], sizeof play->handles[kept]);
		break;
	case DUPLICATE_HANDLE:
		play->handles[(int)step->to][kept] = answer->number;
		break;
	case FIRST_ENTRY:
	case NEXT_ENTRY:
	case FIRST_PAGE:
	case NEXT_PAGE:
	case FIRST_ROWS:
	case NEXT_ROWS:
		play->contexts[process][(int)step->handle] = answer->context;
		break;
	default:
		if (answer->ticket)
			play->tickets[kept] = answer->ticket;
		else if (step->kept) {
			play->handles[process][kept] = answer->number;
			play->contexts[process][kept] = 0;
		}
		break;
	}
}

/* Whether a call tells a page or rows, where it succeeds. */
static bool tells_page(enum call call)
{
	return call >= FIRST_PAGE && call <= NEXT_ROWS;
}

/* Whether a call tells a text, where it succeeds. */
static bool tells_text(enum call call)
{
	return call == BEGIN_OPEN || call == QUERY_LINK || call == QUERY_NAME || call == QUERY_FILE || call == FIRST_ENTRY || call == NEXT_ENTRY;
}

/* Writes the text that a step tells, where it succeeds; its length. */
static size_t wanted_text(const struct step *step, char *full)
{
	size_t length = NTNS_SUCCEEDED(step->status) && step->text ? play_text(step->text, full) : 0;

	for (size_t place = 0; tells_page(step->call) && place < length; place++)
		if (full[place] == '|')
			full[place] = 0;
	return length;
}

/* Whether a call gives a handle or a process, where it succeeds. */
static bool gives_number(enum call call)
{
	return (call >= CREATE_DIRECTORY && call <= END_OPEN) || call == DUPLICATE_HANDLE || call == NEW_PROCESS;
}

/* What is wrong with what an answer tells of a pending open, or NULL. */
static const char *fault_of_pending(const struct step *step, const struct answer *answer)
{
	bool is_pending = step->status == S(PENDING);

	if (is_pending != (answer->ticket != 0) || is_pending != (answer->id != 0))
		return "a ticket or an id where no open is pending, or none where one is";
	if (answer->type != (is_pending ? step->met : 0) || answer->user_data != (is_pending ? step->user_data : 0))
		return "another object at which the open is pending";
	return NULL;
}

const char *play_fault(const struct step *step, const struct answer *answer)
{
	static char wanted[TEXT_ROOM];
	bool has_succeeded = NTNS_SUCCEEDED(step->status);
	bool is_entry = step->call == FIRST_ENTRY || step->call == NEXT_ENTRY;

	if (answer->status != step->status)
		return ntns_status_text(answer->status) ? ntns_status_text(answer->status) : "a status without a name";
	if (gives_number(step->call) && (has_succeeded && step->status != S(PENDING)) != (answer->number != 0))
		return "a number where nothing was given, or none where it was";
	if (gives_number(step->call) && step->call != NEW_PROCESS && answer->number % 4)
		return "a handle that is no multiple of four";
	if (tells_text(step->call) || tells_page(step->call)) {
		size_t length = wanted_text(step, wanted);
		if (answer->length != length)
			return "a text of another length";
		if (memcmp(answer->text, wanted, length))
			return "another text";
	}
	if ((is_entry || step->call == QUERY_OBJECT || step->call == NEXT_DELETION) && answer->type != (has_succeeded ? step->type : 0))
		return "another type";
	if ((step->call == QUERY_OBJECT || step->call == NEXT_DELETION) && answer->user_data != (has_succeeded ? step->user_data : 0))
		return "other user data";
	if (step->call == QUERY_OBJECT && has_succeeded != (answer->id != 0))
		return "an id where nothing was found, or none where it was";
	if (step->call == NEXT_DELETION && !has_succeeded && (answer->id || answer->parsed))
		return "something of a deletion where there is none";
	return step->call == BEGIN_OPEN ? fault_of_pending(step, answer) : NULL;
}

/* Whether so many bytes, and no others, were left as they were. */
static bool is_stale(const char *text, size_t from, size_t to)
{
	for (size_t place = from; place < to; place++)
		if (text[place] != STALE)
			return false;
	return true;
}

/* Asks for a text again, with just the room that it takes and with a byte less; what is wrong, or NULL. */
static const char *fault_of_rooms(struct play *play, const struct step *step, const struct answer *whole)
{
	static char text[TEXT_ROOM];

	memset(text, STALE, sizeof text);
	struct answer answer = play_call(play, step, text, whole->length);
	if (answer.status != whole->status || answer.length != whole->length || memcmp(text, whole->text, whole->length))
		return "another answer where there is just the room";
	if (answer.ticket && ntns_cancel_open(&play->ns, answer.ticket) != S(SUCCESS))
		return "an open that isn't pending where there is just the room";
	if (!is_stale(text, whole->length, sizeof text))
		return "a byte behind the room is written";
	if (whole->length == 0)
		return NULL;
	memset(text, STALE, sizeof text);
	answer = play_call(play, step, text, whole->length - 1);
	if (answer.status != S(BUFFER_TOO_SMALL) || answer.length != whole->length)
		return "another answer where a byte of room is missing";
	if (!is_stale(text, 0, sizeof text) || answer.ticket)
		return "a byte is written, or an open pending, where room is missing";
	if (step->call == NEXT_ENTRY && answer.context != play->contexts[(int)step->process][(int)step->handle])
		return "the context moves where room is missing";
	return NULL;
}

/* Keeps account of the object that a create or an open gave a handle to; what is wrong with its id, or NULL. */
static const char *fault_of_object(struct play *play, const struct step *step, uint32_t handle)
{
	uint32_t type;
	uint64_t user_data, id;

	if (ntns_query_object(&play->ns, play->processes[(int)step->process], handle, &type, &user_data, &id) != S(SUCCESS))
		return "an object that isn't there";
	if ((id >> 63) != (type == T(DIRECTORY) || type == T(SYMBOLIC_LINK)))
		return "an id of another type";
	if (id >= IDS)
		return NULL;
	struct known *known = &play->known[id];
	if (known->type && (known->type != type || known->user_data != user_data))
		return "an id of another object";
	if (!known->type)
		known->parsed = step->call == OPEN_OBJECT || step->call == END_OPEN;
	known->type = type;
	known->user_data = user_data;
	return NULL;
}

/* Strikes a deleted object off; what is wrong with its deletion, or NULL. */
static const char *fault_of_deletion(struct play *play, const struct answer *answer)
{
	if (answer->id >= IDS)
		return NULL;
	struct known *known = &play->known[answer->id];
	if (answer->id == 0)
		return answer->parsed ? NULL : "an object that had no handle, and that no parse made";
	if (known->type != answer->type || known->user_data != answer->user_data)
		return "the deletion of another object";
	if (known->parsed != answer->parsed)
		return "the deletion of an object that was made otherwise";
	known->type = 0;
	return NULL;
}

/* Keeps account of the caller's objects; what is wrong with them, or NULL. */
static const char *fault_of_account(struct play *play, const struct step *step, const struct answer *answer)
{
	if (answer->ticket && answer->id < IDS && play->known[answer->id].type != answer->type)
		return "the id of an object at which no open is pending";
	if (step->call >= CREATE_DIRECTORY && step->call <= END_OPEN && answer->number)
		return fault_of_object(play, step, answer->number);
	if (step->call == NEXT_DELETION && answer->status == S(SUCCESS))
		return fault_of_deletion(play, answer);
	return NULL;
}

const char *play_step(struct play *play, const struct step *step)
{
	static char text[TEXT_ROOM];
	const char *fault = NULL;

	for (uint32_t time = 0; !fault && time < (step->times ? step->times : 1); time++) {
		struct answer answer = play_call(play, step, text, sizeof text);
		fault = play_fault(step, &answer);
		bool is_told = answer.status == (step->call == BEGIN_OPEN ? S(PENDING) : S(SUCCESS));
		if (!fault && tells_text(step->call) && is_told)
			fault = fault_of_rooms(play, step, &answer);
		if (!fault)
			fault = fault_of_account(play, step, &answer);
		play_keep(play, step, &answer);
	}
	return fault;
}
