/*
 * Plays a sequence of calls of every kind, again and again, and in each run refuses one request for memory of one call, or that one and all behind it, until
 * each was refused. A call that finds no memory has to answer NO_MEMORY and to leave all as it was; made again it has to answer what it answers in a run
 * in which nothing is refused, and so has each call behind it. What is there is compared through queries of every handle of every process; nothing may be told as
 * deleted but what a parse made, where its open is refused behind it (the sequence leaves nothing to be told before an open). A call may also answer as ever, where it
 * finds other memory than it asked for first. At the end of each run nothing may be left that the library was given. Calls that give back or only look take no
 * memory at all. In one more run a copy is made before each call, in which the rest of the sequence answers as ever; what was copied stays as it is.
 *
 * The requests are those that the library makes of malloc, calloc and realloc; a linker that knows --wrap hands them to the functions below.
 *
 *     cc -std=c11 -I out clients/refusals.c clients/play.c out/libntns.a -Wl,--wrap=malloc,--wrap=calloc,--wrap=realloc,--wrap=free
 *
 * The last line is 'N passed, M failed'; the exit status is 0 where none failed.
 */
#include "play.h"

#include <inttypes.h>
#include <stdarg.h>
#include <stdio.h>
#include <string.h>

enum { I = NTNS_OBJ_INHERIT, P = NTNS_OBJ_PERMANENT, E = NTNS_OBJ_EXCLUSIVE, C = NTNS_OBJ_CASE_INSENSITIVE, O = NTNS_OBJ_OPENIF, L = NTNS_OBJ_OPENLINK };

static const struct step steps[] = {
	{ NEW('p', true, 'q', SUCCESS) },
	{ DIRECTORY('p', 0, "\\A", P | C, 'a', SUCCESS) },
	{ DIRECTORY('p', 'a', "B", I, 'b', SUCCESS) },
	{ DIRECTORY('p', 0, "\\A", O, 'c', OBJECT_NAME_EXISTS) },
	{ DIRECTORY('p', 0, "\\A", 0, 'c', OBJECT_NAME_COLLISION) },
	{ DIRECTORY('p', 0, NULL, 0, 'n', SUCCESS) },
	{ DIRECTORY('p', 'a', "a name of more than a few bytes {200:x}", 0, 'm', SUCCESS) },
	{ LINK('p', 'a', "L", 0, "\\A\\B", 'l', SUCCESS) },
	{ LINK('p', 0, "\\To", 0, "\\A\\a name of more than a few bytes {200:x}", 't', SUCCESS) },
	{ LINK('p', 0, NULL, 0, "{300:y}", 'u', SUCCESS) },
	{ OBJECT('p', DEVICE, 0, "\\D", P, 1, 'd', SUCCESS) },
	{ OBJECT('p', KEY, 0, "\\K", 0, 2, 'k', SUCCESS) },
	{ OBJECT('p', EVENT, 'b', "E", I, 3, 'e', SUCCESS) },
	{ OBJECT('p', MUTANT, 0, "\\A\\L\\M", E, 4, 'x', SUCCESS) },
	{ OBJECT('p', SECTION, 0, NULL, 0, 5, 's', SUCCESS) },
	{ OBJECT('p', EVENT, 0, "\\A\\B\\E", O, 6, 'o', OBJECT_NAME_EXISTS) },
	{ OBJECT('p', EVENT, 0, "\\To\\T", 0, 7, 'w', SUCCESS) },
	{ SHADOWED('p', 'a', 'b', "H", P, 'B', SUCCESS) },
	{ SHADOWED('p', 'b', 0, NULL, 0, 'D', SUCCESS) },
	{ SHADOWED('p', 'b', 0, "\\A\\B\\H", O, 'F', OBJECT_NAME_EXISTS) },
	{ SHADOWED('p', 'B', 0, NULL, 0, 'G', INVALID_PARAMETER) },
	{ OPEN('p', EVENT, 'D', "E", 0, 'H', SUCCESS) },
	{ NAME('p', 'H', "\\A\\B\\E", SUCCESS) },
	{ OPEN('p', EVENT, 0, "\\A\\B\\H\\L\\E", 0, 'I', SUCCESS) },
	{ CLOSE('p', 'D', SUCCESS) },
	{ CLOSE('p', 'H', SUCCESS) },
	{ CLOSE('p', 'I', SUCCESS) },
	{ OPENDIR('p', 0, "\\A\\L", 0, 'v', SUCCESS) },
	{ OPENDIR('p', 'a', "b", C, 'w', SUCCESS) },
	{ OPENDIR('p', 0, "\\To", 0, 'z', SUCCESS) },
	{ OPENDIR('p', 0, "\\To\\No", 0, 'y', OBJECT_NAME_NOT_FOUND) },
	{ OPENLINK('p', 0, "\\A\\L", L, 'y', SUCCESS) },
	{ OPEN('p', EVENT, 0, "\\A\\L\\E", 0, 'f', SUCCESS) },
	{ OPEN('p', ANY, 'b', "E", I, 'g', SUCCESS) },
	{ OPEN('p', FILE, 0, "\\D\\x", 0, 'h', SUCCESS) },
	{ OPEN('p', FILE, 'd', "{300:y}", 0, 'i', SUCCESS) },
	{ OPEN('p', DEVICE, 0, "\\D", 0, 'j', OBJECT_TYPE_MISMATCH) },
	{ DELETED(FILE, 1) },
	{ OPEN('p', FILE, 0, "\\D\\x", E, 'j', INVALID_PARAMETER) },
	{ DELETED(FILE, 1) },
	{ PENDS('p', FILE, 0, "\\D\\{300:y}", 0, 'a', DEVICE, 1, "\\{300:y}") },
	{ PENDS('p', ANY, 'd', "y", 0, 'b', DEVICE, 1, "y") },
	{ PENDS('p', DEVICE, 0, "\\D\\z", 0, 'c', DEVICE, 1, "\\z") },
	{ PENDS('p', KEY, 0, "\\K", 0, 'd', KEY, 2, "") },
	{ BEGINS('p', EVENT, 0, "\\A\\L\\E", 0, 'J', SUCCESS) },
	{ BEGINS('p', EVENT, 0, "\\A\\L\\F", 0, 'L', OBJECT_NAME_NOT_FOUND) },
	{ CLOSE('p', 'J', SUCCESS) },
	{ ENDS('p', 'a', 'K', SUCCESS) },
	{ CANCELS('b', SUCCESS) },
	{ ENDS('p', 'c', 'L', OBJECT_TYPE_MISMATCH) },
	{ DELETED(FILE, 1) },
	{ ENDS('p', 'd', 'L', SUCCESS) },
	{ CLOSE('p', 'L', SUCCESS) },
	{ REST('p', 'K', "\\{300:y}", SUCCESS) },
	{ OPEN('p', KEY, 0, "\\K", 0, 'j', SUCCESS) },
	{ OPEN('p', KEY, 0, "\\K\\S", 0, 'q', SUCCESS) },
	{ OPEN('p', KEY, 'q', "X", 0, 'r', SUCCESS) },
	{ NOT_DELETED },
	{ IS('p', 'r', KEY, 2, SUCCESS) },
	{ REST('p', 'r', "\\S\\X", SUCCESS) },
	{ REST('p', 'i', "{300:y}", SUCCESS) },
	{ NAME('p', 'e', "\\A\\B\\E", SUCCESS) },
	{ NAME('p', 'm', "\\A\\a name of more than a few bytes {200:x}", SUCCESS) },
	{ TARGET('p', 'u', "{300:y}", SUCCESS) },
	{ FIRST('p', 'a', "B", DIRECTORY, SUCCESS) },
	{ NEXT('p', 'a', "a name of more than a few bytes {200:x}", DIRECTORY, SUCCESS) },
	{ NEXT('p', 'a', "L", SYMBOLIC_LINK, SUCCESS) },
	{ LAST('p', 'a') },
	{ PAGE('p', 'a', 0, "B|Directory|a name of more than a few bytes {200:x}|Directory|L|SymbolicLink|", SUCCESS) },
	{ ROWS('p', 'a', 0, "B|Directory|a name of more than a few bytes {200:x}|Directory|L|SymbolicLink|", SUCCESS) },
	{ ROWS('p', 'a', 2, "B|Directory|a name of more than a few bytes {200:x}|Directory|", MORE_ENTRIES) },
	{ MAP('p', 'a', SUCCESS) },
	{ OPENLINK('p', 0, "\\??\\L", 0, 'y', SUCCESS) },
	{ MAP('p', 'm', SUCCESS) },
	{ DIRECTORY('p', 0, "\\??\\N", 0, 'A', SUCCESS) },
	{ PERMANENT('p', 'e', SUCCESS) },
	{ TEMPORARY('p', 'e', SUCCESS) },
	{ DUPLICATE('p', 'e', 'q', false, 'e', SUCCESS) },
	{ DUPLICATE('p', 'e', 'q', true, 'f', SUCCESS) },
	{ DUPLICATE('p', 'x', 'q', false, 'x', ACCESS_DENIED) },
	{ INHERITS('p', 'm', true, SUCCESS) },
	{ INHERITS('p', 'm', true, SUCCESS) },
	{ INHERITS('p', 'K', true, SUCCESS) },
	{ INHERITS('q', 'f', false, SUCCESS) },
	{ INHERITS('q', 'f', true, SUCCESS) },
	{ INHERITS('p', 'x', true, INVALID_PARAMETER) },
	{ NEW('p', true, 'r', SUCCESS) },
	{ NAME('r', 'm', "\\A\\a name of more than a few bytes {200:x}", SUCCESS) },
	{ REST('r', 'K', "\\{300:y}", SUCCESS) },
	{ INHERITS('p', 'K', false, SUCCESS) },
	{ NEW('q', true, 's', SUCCESS) },
	{ NAME('r', 'g', "\\A\\B\\E", SUCCESS) },
	{ EXIT('r', SUCCESS) },
	{ OBJECT('q', TIMER, 0, "\\A\\one of many timers {30:t}", 0, 9, 't', SUCCESS) },
	{ OBJECT('q', TIMER, 0, NULL, 0, 10, 't', SUCCESS), .times = 40 },
	{ OPENDIR('q', 0, "\\Device", I, 'd', SUCCESS), .times = 40 },
	{ NEW('q', true, 't', SUCCESS), .times = 12 },
	{ EXIT('t', SUCCESS) },
	{ CLOSE('p', 'k', SUCCESS) },
	{ CLOSE('p', 'j', SUCCESS) },
	{ DELETED(KEY, 2) },
	{ NOT_DELETED },
	{ CLOSE('p', 'h', SUCCESS) },
	{ DELETED(FILE, 1) },
	{ EXIT('q', SUCCESS) },
	{ DELETED(TIMER, 10), .times = 40 },
	{ DELETED(TIMER, 9) },
	{ NOT_DELETED },
	{ EXIT('p', SUCCESS) },
};

static const size_t step_count = sizeof steps / sizeof *steps;

/* Requests for memory: they are counted while a call is made, and of these one, or one and all behind it, can be refused. */
static bool is_counted, refuses_all;
static unsigned long requests, refused, refused_at;
static long blocks;

void *__real_malloc(size_t size);
void *__real_calloc(size_t count, size_t size);
void *__real_realloc(void *old, size_t size);
void __real_free(void *block);
void *__wrap_malloc(size_t size);
void *__wrap_calloc(size_t count, size_t size);
void *__wrap_realloc(void *old, size_t size);
void __wrap_free(void *block);

static bool is_refused(void)
{
	if (!is_counted)
		return false;
	requests++;
	bool is_it = refused_at && (requests == refused_at || (refuses_all && requests > refused_at));
	refused += is_it;
	return is_it;
}

void *__wrap_malloc(size_t size)
{
	void *block = is_refused() ? NULL : __real_malloc(size);
	blocks += block != NULL;
	return block;
}

void *__wrap_calloc(size_t count, size_t size)
{
	void *block = is_refused() ? NULL : __real_calloc(count, size);
	blocks += block != NULL;
	return block;
}

void *__wrap_realloc(void *old, size_t size)
{
	void *block = is_refused() ? NULL : __real_realloc(old, size);
	blocks += !old && block;
	return block;
}

void __wrap_free(void *block)
{
	blocks -= block != NULL;
	__real_free(block);
}

static int passed, failed;

/* Tells what is wrong, and counts it. */
static void fail(const char *format, ...)
{
	va_list arguments;

	va_start(arguments, format);
	printf("refusals: ");
	vprintf(format, arguments);
	printf("\n");
	va_end(arguments);
	failed++;
}

static const char *name_of(ntns_status status)
{
	const char *name = ntns_status_text(status);
	return name ? name : "a status without a name";
}

/* Whether a call can take memory. */
static bool takes_memory(enum call call)
{
	return call != CANCEL_OPEN && call != CLOSE_HANDLE && call != MAKE_TEMPORARY && call != MAKE_PERMANENT && call != EXIT_PROCESS && call != QUERY_FILE &&
	       call != QUERY_OBJECT && call != NEXT_DELETION;
}

/* What is there, as text: what each handle of each process leads to, and what is said of it. Values are gone through until so many in turn are no handles. */
enum { PROCESSES = 24, UNUSED = 8, STATE_ROOM = 1 << 20 };

struct state {
	size_t length;
	char text[STATE_ROOM];
};

static void add(struct state *state, const char *format, ...)
{
	va_list arguments;

	va_start(arguments, format);
	int length = vsnprintf(state->text + state->length, sizeof state->text - state->length, format, arguments);
	va_end(arguments);
	state->length += (size_t)length;
}

/* Adds what is said of a handle; whether there is one. */
static bool add_handle(struct state *state, ntns *ns, uint32_t process, uint32_t handle)
{
	static char text[TEXT_ROOM];
	uint32_t type;
	uint64_t user_data, id, context = 0;
	size_t length;
	struct ntns_handle opened;
	ntns_status status = ntns_query_object(ns, process, handle, &type, &user_data, &id);

	if (status == S(INVALID_HANDLE))
		return false;
	ntns_query_handle(ns, process, handle, &opened);
	add(state, "%d %d %d %" PRIu32 "; ", opened.inherit, opened.permanent, opened.exclusive, opened.handles);
	add(state, "%" PRIu32 " %" PRIu32 ": %s %" PRIu32 " %" PRIu64 " %" PRIu64, process, handle, name_of(status), type, user_data, id);
	status = ntns_query_name(ns, process, handle, text, sizeof text, &length);
	add(state, "; %s %.*s", name_of(status), (int)length, text);
	status = ntns_query_link(ns, process, handle, text, sizeof text, &length);
	add(state, "; %s %.*s", name_of(status), (int)length, text);
	status = ntns_query_file(ns, process, handle, text, sizeof text, &length);
	add(state, "; %s %.*s", name_of(status), (int)length, text);
	while ((status = ntns_next_entry(ns, process, handle, &context, text, sizeof text, &length, &type)) == S(SUCCESS))
		add(state, "; %" PRIu64 " %.*s %" PRIu32, context, (int)length, text, type);
	add(state, "; %s\n", name_of(status));
	return true;
}

static void take_state(struct state *state, ntns *ns)
{
	struct ntns_handle opened;
	uint64_t context;
	size_t length;

	state->length = 0;
	for (uint32_t process = 1; process <= PROCESSES; process++) {
		if (ntns_query_name(ns, process, 0, NULL, 0, &length) == S(PROCESS_GONE))
			continue;
		add(state, "process %" PRIu32 "\n", process);
		for (uint32_t handle = 4, unused = 0; unused < UNUSED; handle += 4)
			unused = add_handle(state, ns, process, handle) ? 0 : unused + 1;
		for (context = 0; ntns_next_handle(ns, process, &context, &opened) == S(SUCCESS);)
			add(state, "%" PRIu32 " at %" PRIu64 "\n", opened.value, context);
	}
}

/* Makes a call with its requests counted, and refused from this one on, or this one alone; 0 is none. */
static struct answer counted_call(struct play *play, const struct step *step, char *text, unsigned long at)
{
	requests = refused = 0;
	refused_at = at;
	is_counted = true;
	struct answer answer = play_call(play, step, text, TEXT_ROOM);
	is_counted = false;
	return answer;
}

/* The steps as they are made, those that are made several times one by one, and what each answers where nothing is refused. */
enum { MADE = 400 };

static const struct step *made[MADE];
static struct answer whole[MADE];
static size_t made_count;

static void lay_out(void)
{
	for (size_t place = 0; place < step_count; place++)
		for (uint32_t time = 0; time < (steps[place].times ? steps[place].times : 1); time++)
			made[made_count++] = &steps[place];
}

/* Begins a run. */
static void begin(struct play *play)
{
	play_begin(play);
	if (ntns_open(&play->ns) != S(SUCCESS))
		fail("a namespace isn't opened");
}

/* Ends a run, behind which nothing may be left. */
static void end(struct play *play)
{
	ntns_close(&play->ns);
	if (blocks)
		fail("%ld blocks are left", blocks);
}

/* Plays the sequence unrefused, and keeps what is answered. */
static void play_whole(void)
{
	static struct play play;
	static char text[TEXT_ROOM];

	begin(&play);
	for (size_t number = 0; number < made_count; number++) {
		whole[number] = counted_call(&play, made[number], text, 0);
		const char *fault = play_fault(made[number], &whole[number]);
		if (fault)
			fail("call %zu, with nothing refused: %s", number, fault);
		if (requests && !takes_memory(made[number]->call))
			fail("call %zu asks for memory", number);
		play_keep(&play, made[number], &whole[number]);
	}
	end(&play);
}

/* Whether a call that is made again answers as in the whole run. */
static bool is_same(const struct answer *one, const struct answer *other)
{
	return one->status == other->status && one->number == other->number && one->type == other->type && one->user_data == other->user_data &&
	       one->id == other->id && one->parsed == other->parsed && one->context == other->context && one->length == other->length;
}

/* Whether nothing is told as deleted behind a call that was refused memory, or what a parse made for its open. */
static bool is_nothing_deleted(ntns *ns, const struct step *step)
{
	struct ntns_deletion deletion;
	int reported = 0;

	while (ntns_next_deletion(ns, &deletion) == S(SUCCESS)) {
		reported++;
		if ((step->call != OPEN_OBJECT && step->call != END_OPEN) || (deletion.type != NTNS_TYPE_FILE && deletion.type != NTNS_TYPE_KEY) || deletion.id || !deletion.parsed)
			return false;
	}
	return reported <= 1;
}

/* What is wrong with the answer to a call that was refused memory, or NULL. */
static const char *fault_of_refused(const struct step *step, const struct answer *answer, const struct state *before, const struct state *after)
{
	struct step wanted = *step;

	wanted.status = S(NO_MEMORY);
	const char *fault = play_fault(&wanted, answer);
	if (!fault && strcmp(before->text, after->text))
		fault = "something changed";
	return fault;
}

/* Makes a call that is to answer as in the whole run, and keeps the answer; whether it does. */
static bool answers_as_ever(struct play *play, size_t number)
{
	static char text[TEXT_ROOM];
	struct answer answer = play_call(play, made[number], text, sizeof text);
	bool is_well = is_same(&answer, &whole[number]) && !play_fault(made[number], &answer);

	play_keep(play, made[number], &answer);
	return is_well;
}

/* Begins anew the open that a call ended, which was refused memory and gave it up; whether that is as ever. */
static bool begins_again(struct play *play, size_t number)
{
	size_t before = number;

	if (ntns_cancel_open(&play->ns, play->tickets[(int)made[number]->ticket]) != S(INVALID_PARAMETER))
		return false;
	while (before && (made[before]->call != BEGIN_OPEN || made[before]->kept != made[number]->ticket))
		before--;
	return answers_as_ever(play, before);
}

/* Makes a call with a request refused; what is wrong with what it answers and leaves, or NULL. Where nothing was refused `refused` is 0. */
static const char *fault_of_call(struct play *play, size_t number, unsigned long at)
{
	static char text[TEXT_ROOM];
	static struct state before, after;

	take_state(&before, &play->ns);
	struct answer answer = counted_call(play, made[number], text, at);
	if (answer.status != S(NO_MEMORY)) {
		play_keep(play, made[number], &answer);
		return is_same(&answer, &whole[number]) ? NULL : name_of(answer.status);
	}
	take_state(&after, &play->ns);
	const char *fault = fault_of_refused(made[number], &answer, &before, &after);
	if (!fault && !is_nothing_deleted(&play->ns, made[number]))
		fault = "something is told as deleted";
	if (!fault && made[number]->call == END_OPEN && !begins_again(play, number))
		fault = "an open that isn't given up";
	if (!fault && !answers_as_ever(play, number))
		fault = "another answer when it is made again";
	return fault;
}

/* Plays the sequence with a request of a call refused; whether there was such a request. */
static bool play_refused(size_t refused_number, unsigned long at)
{
	static struct play play;
	const char *fault = NULL;

	begin(&play);
	for (size_t number = 0; number < refused_number; number++)
		answers_as_ever(&play, number);
	fault = fault_of_call(&play, refused_number, at);
	bool was_refused = refused != 0;
	for (size_t number = refused_number + 1; !fault && was_refused && number < made_count; number++)
		if (!answers_as_ever(&play, number))
			fault = "a call behind it answers another thing";
	end(&play);
	if (fault)
		fail("call %zu, request %lu refused%s: %s", refused_number, at, refuses_all ? ", and all behind it" : "", fault);
	else
		passed += was_refused;
	return was_refused;
}

/* Opens a namespace, with each of its requests refused in turn and then none. */
static void open_refused(ntns *ns)
{
	for (unsigned long at = 1;; at++) {
		requests = refused = 0;
		refused_at = at;
		is_counted = true;
		ntns_status status = ntns_open(ns);
		is_counted = false;
		if (!refused) {
			if (status != S(SUCCESS))
				fail("the open, made again: %s", name_of(status));
			return;
		}
		if (status != S(NO_MEMORY) || ns->words[0] || ns->words[1] || blocks)
			fail("the open, request %lu refused: %s, and %ld blocks are left", at, name_of(status), blocks);
		passed++;
	}
}

/* Plays the sequence with each request of each call refused in turn. */
static void play_all_refused(void)
{
	ntns ns = NTNS_CLOSED;

	open_refused(&ns);
	ntns_close(&ns);
	for (size_t number = 0; number < made_count; number++)
		for (unsigned long at = 1; play_refused(number, at);)
			at++;
}

/* Copies the namespace of a play; whether the copy has the same state. */
static bool is_copied(struct play *play, ntns *copy)
{
	static struct state one, other;

	if (ntns_copy(&play->ns, copy) != S(SUCCESS))
		return false;
	take_state(&one, &play->ns);
	take_state(&other, copy);
	return !strcmp(one.text, other.text);
}

/* Copies the namespace of a play before a call, with each request of the copy refused in turn, which leaves the copy closed. */
static void copy_refused(struct play *play, size_t number)
{
	ntns copy = NTNS_CLOSED;
	long had = blocks;

	for (unsigned long at = 1;; at++) {
		requests = refused = 0;
		refused_at = at;
		is_counted = true;
		ntns_status status = ntns_copy(&play->ns, &copy);
		is_counted = false;
		if (!refused)
			break;
		if (status != S(NO_MEMORY) || copy.words[0] || copy.words[1] || blocks != had)
			fail("a copy before call %zu, request %lu refused: %s, and %ld blocks are left", number, at, name_of(status), blocks - had);
		passed++;
	}
	ntns_close(&copy);
	if (blocks != had)
		fail("a copy before call %zu leaves %ld blocks", number, blocks - had);
}

/* Goes on from a call in a copy of the namespace: each call answers there as ever, and what was copied stays as it is. */
static void play_on_in_copy(struct play *play, size_t number)
{
	static struct play copy;
	static struct state before, after;

	take_state(&before, &play->ns);
	copy = *play;
	copy.ns = (ntns)NTNS_CLOSED;
	bool is_well = is_copied(play, &copy.ns);
	for (size_t next = number; is_well && next < made_count; next++)
		is_well = answers_as_ever(&copy, next);
	ntns_close(&copy.ns);
	take_state(&after, &play->ns);
	if (is_well && !strcmp(before.text, after.text))
		passed++;
	else
		fail("a copy before call %zu %s", number, is_well ? "changes what was copied" : "answers another thing");
}

/* Plays the sequence, and goes on in a copy before each call too; before one of forty each request for memory of a copy is refused in turn. */
static void play_copied(void)
{
	static struct play play;

	begin(&play);
	for (size_t number = 0; number < made_count; number++) {
		if (number % 40 == 39)
			copy_refused(&play, number);
		play_on_in_copy(&play, number);
		if (!answers_as_ever(&play, number))
			fail("call %zu answers another thing after a copy", number);
	}
	end(&play);
}

int main(void)
{
	lay_out();
	play_whole();
	play_all_refused();
	play_copied();
	refuses_all = true;
	play_all_refused();
	printf("%d passed, %d failed\n", passed, failed);
	return failed != 0;
}
