/*
 * Times operations of a namespace by calls from C: `bench ROUNDS` makes so many rounds of each, in a namespace of its own, and prints how many are made a
 * second. A round before these isn't timed. Each call has to be answered as it should be; the exit status is 1 where one wasn't.
 *
 *     cc -std=c11 -O2 -I out clients/bench.c out/libntns.a
 */
#include <ntns.h>

#include <stdio.h>
#include <stdlib.h>
#include <string.h>
#include <time.h>

/* What is asked for. Process 1 asks, and its last child for its own exit. */
enum ask {
	END,
	DIRECTORY, /* to make a directory */
	NESTED,    /* to make a permanent directory of each front of a name that ends before a backslash, and of the name, where there is none yet */
	EVENT,     /* to make an event */
	NUMBERED,  /* to make a permanent event, under a name that ends with the number of the round in five digits */
	DEVICE,    /* to make a device */
	KEY,       /* to make a key */
	OPEN,      /* to open an object */
	MISS,      /* to open a name that no object has */
	CLOSE,     /* to close the handle that was given last */
	TEMPORARY, /* to make its object temporary */
	ENTRY,     /* to list the first entry of the directory of that handle */
	PAGE,      /* to list it in a page of 4,096 bytes */
	COPY,      /* to copy the namespace, and close the copy */
	FLAG,      /* to set the inherit flag of the handle that was given last, as these attributes have it */
	CHILD,     /* to begin a child, which inherits handles */
	EXIT       /* to end the last child */
};

struct asked {
	enum ask ask;
	const char *name;
	uint32_t attributes;
};

/* What is asked for in turn, so many times over. */
struct rounds {
	uint32_t times;
	struct asked asks[6];
};

/* What a round of an operation does, what is made before, and what a round asks for. */
struct operation {
	const char *name;
	struct rounds before[4];
	struct asked round[6];
};

#define MANY { 20000, { { NUMBERED, "\\Many\\E", 0 }, { CLOSE, NULL, 0 } } }
#define THOUSAND { 1000, { { NUMBERED, "\\Many\\E", 0 }, { CLOSE, NULL, 0 } } }
#define FEW { 100, { { NUMBERED, "\\Many\\E", 0 }, { CLOSE, NULL, 0 } } }
#define ONE(ask, name, attributes) { 1, { { ask, name, attributes } } }

/* Fifteen directories, one in another, the last of which has a neighbour, and an event in each of these two. */
#define LETTERS "\\a\\b\\c\\d\\e\\f\\g\\h\\i\\j\\k\\l\\m\\n"
#define WORDS "\\Device00\\Harddisk\\Volume01\\Sessions\\BaseName\\Objects0\\Restrict\\Windows0\\Stations\\Service0\\DosNames\\Global00\\KnownDll\\Security"
#define DEEP(front) ONE(NESTED, front "\\Userdata", 0), ONE(NESTED, front "\\Machines", 0), ONE(EVENT, front "\\Userdata\\E", 0), ONE(EVENT, front "\\Machines\\E", 0)
#define BOTH(front) { OPEN, front "\\Userdata\\E", 0 }, { CLOSE, NULL, 0 }, { OPEN, front "\\Machines\\E", 0 }, { CLOSE, NULL, 0 }

static const struct operation operations[] = {
	{ "open and close a directory three components deep",
	  { ONE(DIRECTORY, "\\A", 0), ONE(DIRECTORY, "\\A\\B", 0), ONE(DIRECTORY, "\\A\\B\\C", 0) },
	  { { OPEN, "\\A\\B\\C", 0 }, { CLOSE, NULL, 0 } } },
	{ "open a name that no object has",
	  { ONE(DIRECTORY, "\\A", 0), ONE(DIRECTORY, "\\A\\B", 0) },
	  { { MISS, "\\A\\B\\C", 0 } } },
	{ "create and close a temporary event",
	  { { 0 } },
	  { { EVENT, "\\E", 0 }, { CLOSE, NULL, 0 } } },
	{ "create a permanent event, make it temporary and close it",
	  { { 0 } },
	  { { EVENT, "\\E", NTNS_OBJ_PERMANENT }, { TEMPORARY, NULL, 0 }, { CLOSE, NULL, 0 } } },
	{ "open and close beside 20,000 objects of another directory",
	  { ONE(DIRECTORY, "\\Many", 0), MANY, ONE(EVENT, "\\E", 0) },
	  { { OPEN, "\\E", 0 }, { CLOSE, NULL, 0 } } },
	{ "open and close the last of 20,000 entries",
	  { ONE(DIRECTORY, "\\Many", 0), MANY },
	  { { OPEN, "\\Many\\E19999", 0 }, { CLOSE, NULL, 0 } } },
	{ "open and close the last of 20,000 entries in another case",
	  { ONE(DIRECTORY, "\\Many", 0), MANY },
	  { { OPEN, "\\many\\e19999", NTNS_OBJ_CASE_INSENSITIVE }, { CLOSE, NULL, 0 } } },
	{ "open and close beside 60,000 handles",
	  { { 60000, { { OPEN, "\\", 0 } } } },
	  { { OPEN, "\\", 0 }, { CLOSE, NULL, 0 } } },
	{ "copy a namespace of 1,000 events, and close the copy",
	  { ONE(DIRECTORY, "\\Many", 0), THOUSAND },
	  { { COPY, NULL, 0 } } },
	{ "set the inherit flag of a handle in a namespace of 1,000 events, and take it back",
	  { ONE(DIRECTORY, "\\Many", 0), THOUSAND, ONE(OPEN, "\\Many", 0) },
	  { { FLAG, NULL, NTNS_OBJ_INHERIT }, { FLAG, NULL, 0 } } },
	{ "begin a child that inherits ten handles, and end it",
	  { { 10, { { OPEN, "\\", NTNS_OBJ_INHERIT } } } },
	  { { CHILD, NULL, 0 }, { EXIT, NULL, 0 } } },
	{ "open a file behind a device, and close it",
	  { ONE(DEVICE, "\\Device\\D", 0) },
	  { { OPEN, "\\Device\\D\\x", 0 }, { CLOSE, NULL, 0 } } },
	{ "open a key four components deep, and close it",
	  { ONE(KEY, "\\K", 0) },
	  { { OPEN, "\\K\\a\\b\\c", 0 }, { CLOSE, NULL, 0 } } },
	{ "list an entry of 100",
	  { ONE(DIRECTORY, "\\Many", 0), FEW, ONE(OPEN, "\\Many", 0) },
	  { { ENTRY, NULL, 0 } } },
	{ "list a page of 100 entries",
	  { ONE(DIRECTORY, "\\Many", 0), FEW, ONE(OPEN, "\\Many", 0) },
	  { { PAGE, NULL, 0 } } },
	{ "open and close two events sixteen components deep, most of a letter", { DEEP(LETTERS) }, { BOTH(LETTERS) } },
	{ "open and close two events sixteen components deep, most of eight letters", { DEEP(WORDS) }, { BOTH(WORDS) } },
	{ "the same, and create and close an event elsewhere", { DEEP(WORDS) }, { BOTH(WORDS), { EVENT, "\\E", 0 }, { CLOSE, NULL, 0 } } },
};

/* A namespace, with the handle and the child that were given last. */
struct hand {
	ntns ns;
	uint32_t handle, child;
};

/* Lists the first entry of a directory. */
static ntns_status first_entry(struct hand *hand)
{
	char name[256];
	uint64_t context = 0;
	size_t length;
	uint32_t type;

	return ntns_next_entry(&hand->ns, 1, hand->handle, &context, name, sizeof name, &length, &type);
}

/* Lists a directory in a page. */
static ntns_status first_page(struct hand *hand)
{
	char page[4096];
	uint64_t context = 0;
	size_t length;

	return ntns_next_page(&hand->ns, 1, hand->handle, &context, page, sizeof page, &length);
}

/* Copies the namespace, and closes the copy. */
static bool copy(const struct hand *hand)
{
	ntns made = NTNS_CLOSED;
	ntns_status status = ntns_copy(&hand->ns, &made);

	ntns_close(&made);
	return status == NTNS_STATUS_SUCCESS;
}

/* Asks for an object to be made. */
static ntns_status make(struct hand *hand, const char *name, uint32_t attributes, uint32_t type)
{
	return ntns_create_object(&hand->ns, 1, 0, name, strlen(name), attributes, type, 1, &hand->handle);
}

/* Makes the directories of a name that are not there yet. */
static bool nest(struct hand *hand, const char *name)
{
	bool is_well = true;

	for (size_t length = 1; is_well && name[length - 1]; length++) {
		if (name[length] && name[length] != '\\')
			continue;
		ntns_status status = ntns_create_directory(&hand->ns, 1, 0, name, length, NTNS_OBJ_PERMANENT | NTNS_OBJ_OPENIF, &hand->handle);
		is_well = status == NTNS_STATUS_SUCCESS || status == NTNS_STATUS_OBJECT_NAME_EXISTS;
		is_well = is_well && ntns_close_handle(&hand->ns, 1, hand->handle) == NTNS_STATUS_SUCCESS;
	}
	return is_well;
}

/* Asks for it, in a round of this number; whether it was answered as it should be. */
static bool is_answered(struct hand *hand, const struct asked *asked, uint32_t number)
{
	const char *name = asked->name;
	char numbered[32];

	switch (asked->ask) {
	case DIRECTORY:
		return ntns_create_directory(&hand->ns, 1, 0, name, strlen(name), asked->attributes, &hand->handle) == NTNS_STATUS_SUCCESS;
	case NESTED:
		return nest(hand, name);
	case EVENT:
		return make(hand, name, asked->attributes, NTNS_TYPE_EVENT) == NTNS_STATUS_SUCCESS;
	case NUMBERED:
		snprintf(numbered, sizeof numbered, "%s%05u", name, (unsigned)number);
		return make(hand, numbered, NTNS_OBJ_PERMANENT, NTNS_TYPE_EVENT) == NTNS_STATUS_SUCCESS;
	case DEVICE:
		return make(hand, name, asked->attributes, NTNS_TYPE_DEVICE) == NTNS_STATUS_SUCCESS;
	case KEY:
		return make(hand, name, asked->attributes, NTNS_TYPE_KEY) == NTNS_STATUS_SUCCESS;
	case OPEN:
		return ntns_open_object(&hand->ns, 1, 0, name, strlen(name), asked->attributes, NTNS_TYPE_ANY, &hand->handle) == NTNS_STATUS_SUCCESS;
	case MISS:
		return ntns_open_object(&hand->ns, 1, 0, name, strlen(name), 0, NTNS_TYPE_ANY, &hand->handle) == NTNS_STATUS_OBJECT_NAME_NOT_FOUND;
	case CLOSE:
		return ntns_close_handle(&hand->ns, 1, hand->handle) == NTNS_STATUS_SUCCESS;
	case TEMPORARY:
		return ntns_make_temporary(&hand->ns, 1, hand->handle) == NTNS_STATUS_SUCCESS;
	case ENTRY:
		return first_entry(hand) == NTNS_STATUS_SUCCESS;
	case PAGE:
		return first_page(hand) == NTNS_STATUS_SUCCESS;
	case COPY:
		return copy(hand);
	case FLAG:
		return ntns_set_inherit(&hand->ns, 1, hand->handle, asked->attributes & NTNS_OBJ_INHERIT) == NTNS_STATUS_SUCCESS;
	case CHILD:
		return ntns_new_process(&hand->ns, 1, true, &hand->child) == NTNS_STATUS_SUCCESS;
	case EXIT:
		return ntns_exit_process(&hand->ns, hand->child) == NTNS_STATUS_SUCCESS;
	default:
		return false;
	}
}

/* Makes rounds; whether all was answered as it should be. */
static bool are_made(struct hand *hand, const struct asked *asks, uint32_t times)
{
	bool is_well = true;

	for (uint32_t number = 0; is_well && number < times; number++)
		for (int place = 0; is_well && place < 6 && asks[place].ask != END; place++)
			is_well = is_answered(hand, &asks[place], number);
	return is_well;
}

static double now(void)
{
	struct timespec time;

	timespec_get(&time, TIME_UTC);
	return (double)time.tv_sec + (double)time.tv_nsec / 1e9;
}

/* Times an operation, and prints its rate; whether all was answered as it should be. */
static bool time_it(const struct operation *operation, uint32_t times)
{
	struct hand hand = { NTNS_CLOSED, 0, 0 };
	bool is_well = ntns_open(&hand.ns) == NTNS_STATUS_SUCCESS;

	for (int place = 0; place < 4; place++)
		is_well = is_well && are_made(&hand, operation->before[place].asks, operation->before[place].times);
	is_well = is_well && are_made(&hand, operation->round, 1);
	double start = now();
	is_well = is_well && are_made(&hand, operation->round, times);
	double took = now() - start;
	if (is_well)
		printf("%s: %.0f a second\n", operation->name, times / took);
	else
		printf("%s: a call was refused\n", operation->name);
	fflush(stdout);
	ntns_close(&hand.ns);
	return is_well;
}

int main(int count, char **words)
{
	unsigned long times = count == 2 ? strtoul(words[1], NULL, 10) : 0;

	if (times == 0 || times > UINT32_MAX) {
		printf("bench ROUNDS\n");
		return 2;
	}
	bool is_well = true;
	for (size_t place = 0; place < sizeof operations / sizeof *operations; place++)
		is_well = time_it(&operations[place], (uint32_t)times) && is_well;
	return !is_well;
}
