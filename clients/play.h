/*
 * Plays tables of calls on a namespace. A step says who calls, with what, and what has to be answered; processes and handles have letters in
 * it, so that a table doesn't depend on their values. 'p' is process 1, and 0 is none.
 */
#ifndef PLAY_H
#define PLAY_H

#include <ntns.h>

enum call {
	BEGIN,
	CREATE_DIRECTORY,
	CREATE_SHADOWED,
	CREATE_LINK,
	CREATE_OBJECT,
	OPEN_DIRECTORY,
	OPEN_LINK,
	OPEN_OBJECT,
	BEGIN_OPEN,
	END_OPEN,
	CANCEL_OPEN,
	CLOSE_HANDLE,
	DUPLICATE_HANDLE,
	SET_INHERIT,
	MAKE_TEMPORARY,
	MAKE_PERMANENT,
	QUERY_LINK,
	QUERY_NAME,
	QUERY_FILE,
	FIRST_ENTRY,
	NEXT_ENTRY,
	FIRST_PAGE,
	NEXT_PAGE,
	FIRST_ROWS,
	NEXT_ROWS,
	SET_DEVICE_MAP,
	NEW_PROCESS,
	EXIT_PROCESS,
	QUERY_OBJECT,
	NEXT_DELETION
};

struct step {
	enum call call;
	char process;        /* who calls */
	char handle;         /* the letter of the handle that is used, of a create or an open as its root */
	char shadow;         /* the letter of the handle of a shadow */
	uint32_t more;       /* what is added to the values of these handles */
	const char *name;    /* the name; NULL for none; {N:c} in it is N times the character c */
	uint32_t attributes;
	uint32_t type;       /* the type that is made, wanted or told */
	uint32_t met;        /* the type of the object at which an open is pending */
	uint64_t user_data;  /* the user data that is given or reported, or the room of a page, or the places for rows; 0 is all */
	const char *text;    /* a link's target, or the text that is told; in a page '|' stands for the 0 behind each name, as in rows, which are told as a page */
	bool inherit;
	char to;             /* the process that gets a duplicate */
	char kept;           /* the letter that the handle, the process, or the ticket of a pending open is kept under */
	char ticket;         /* the letter of the ticket that is ended or cancelled */
	uint32_t times;      /* how often the step is made; 0 is once */
	ntns_status status;  /* what is answered */
};

#define S(status) NTNS_STATUS_##status
#define T(type) NTNS_TYPE_##type

/* what a case shows; each begins with a new namespace */
#define CASE(shows) { .call = BEGIN, .name = shows }

#define DIRECTORY(p, root, n, a, k, s) .call = CREATE_DIRECTORY, .process = p, .handle = root, .name = n, .attributes = a, .kept = k, .status = S(s)
#define SHADOWED(p, d, root, n, a, k, s) .call = CREATE_SHADOWED, .process = p, .shadow = d, .handle = root, .name = n, .attributes = a, .kept = k, .status = S(s)
#define LINK(p, root, n, a, t, k, s) .call = CREATE_LINK, .process = p, .handle = root, .name = n, .attributes = a, .text = t, .kept = k, .status = S(s)
#define OBJECT(p, t, root, n, a, w, k, s) .call = CREATE_OBJECT, .process = p, .type = T(t), .handle = root, .name = n, .attributes = a, .user_data = w, .kept = k, .status = S(s)
#define OPENDIR(p, root, n, a, k, s) .call = OPEN_DIRECTORY, .process = p, .handle = root, .name = n, .attributes = a, .kept = k, .status = S(s)
#define OPENLINK(p, root, n, a, k, s) .call = OPEN_LINK, .process = p, .handle = root, .name = n, .attributes = a, .kept = k, .status = S(s)
#define OPEN(p, t, root, n, a, k, s) .call = OPEN_OBJECT, .process = p, .type = T(t), .handle = root, .name = n, .attributes = a, .kept = k, .status = S(s)
#define BEGINS(p, t, root, n, a, k, s) .call = BEGIN_OPEN, .process = p, .type = T(t), .handle = root, .name = n, .attributes = a, .kept = k, .status = S(s)
#define PENDS(p, t, root, n, a, k, m, w, r) .call = BEGIN_OPEN, .process = p, .type = T(t), .handle = root, .name = n, .attributes = a, .kept = k, .met = T(m), .user_data = w, .text = r, .status = S(PENDING)
#define ENDS(p, n, k, s) .call = END_OPEN, .process = p, .ticket = n, .kept = k, .status = S(s)
#define CANCELS(n, s) .call = CANCEL_OPEN, .ticket = n, .status = S(s)
#define CLOSE(p, h, s) .call = CLOSE_HANDLE, .process = p, .handle = h, .status = S(s)
#define DUPLICATE(p, h, q, i, k, s) .call = DUPLICATE_HANDLE, .process = p, .handle = h, .to = q, .inherit = i, .kept = k, .status = S(s)
#define INHERITS(p, h, i, s) .call = SET_INHERIT, .process = p, .handle = h, .inherit = i, .status = S(s)
#define TEMPORARY(p, h, s) .call = MAKE_TEMPORARY, .process = p, .handle = h, .status = S(s)
#define PERMANENT(p, h, s) .call = MAKE_PERMANENT, .process = p, .handle = h, .status = S(s)
#define TARGET(p, h, t, s) .call = QUERY_LINK, .process = p, .handle = h, .text = t, .status = S(s)
#define NAME(p, h, t, s) .call = QUERY_NAME, .process = p, .handle = h, .text = t, .status = S(s)
#define REST(p, h, t, s) .call = QUERY_FILE, .process = p, .handle = h, .text = t, .status = S(s)
#define FIRST(p, h, n, t, s) .call = FIRST_ENTRY, .process = p, .handle = h, .text = n, .type = T(t), .status = S(s)
#define NEXT(p, h, n, t, s) .call = NEXT_ENTRY, .process = p, .handle = h, .text = n, .type = T(t), .status = S(s)
#define LAST(p, h) .call = NEXT_ENTRY, .process = p, .handle = h, .status = S(NO_MORE_ENTRIES)
#define PAGE(p, h, room, t, s) .call = FIRST_PAGE, .process = p, .handle = h, .user_data = room, .text = t, .status = S(s)
#define MORE(p, h, room, t, s) .call = NEXT_PAGE, .process = p, .handle = h, .user_data = room, .text = t, .status = S(s)
#define ROWS(p, h, places, t, s) .call = FIRST_ROWS, .process = p, .handle = h, .user_data = places, .text = t, .status = S(s)
#define MOREROWS(p, h, places, t, s) .call = NEXT_ROWS, .process = p, .handle = h, .user_data = places, .text = t, .status = S(s)
#define MAP(p, h, s) .call = SET_DEVICE_MAP, .process = p, .handle = h, .status = S(s)
#define NEW(p, i, k, s) .call = NEW_PROCESS, .process = p, .inherit = i, .kept = k, .status = S(s)
#define EXIT(p, s) .call = EXIT_PROCESS, .process = p, .status = S(s)
#define IS(p, h, t, w, s) .call = QUERY_OBJECT, .process = p, .handle = h, .type = T(t), .user_data = w, .status = S(s)
#define DELETED(t, w) .call = NEXT_DELETION, .type = T(t), .user_data = w, .status = S(SUCCESS)
#define NOT_DELETED .call = NEXT_DELETION, .status = S(NO_MORE_ENTRIES)

/* the most bytes of a text that a step names */
enum { TEXT_ROOM = 40000 };

/* the most rows that are asked for */
enum { ROW_ROOM = 64 };

/* the objects of the caller's that a play keeps account of, by their ids from 1 on */
enum { IDS = 1 << 12 };

/* What a play knows of an object: its type, which is 0 where it isn't known, or was deleted. */
struct known {
	uint64_t user_data;
	uint32_t type;
	bool parsed;
};

/* What a play of a table knows: what each process's letters stand for. */
struct play {
	ntns ns;
	uint32_t processes[128];
	uint32_t handles[128][128];
	uint64_t contexts[128][128];
	uint64_t tickets[128];
	struct known known[IDS];
};

/* What a call answered. What it doesn't write stays 0. */
struct answer {
	ntns_status status;
	uint32_t number; /* a handle, or a process */
	uint32_t type;
	uint64_t user_data, id, context, ticket;
	bool parsed;
	size_t length;
	char *text;      /* TEXT_ROOM bytes, of the play's */
};

/* The state before the first step. */
void play_begin(struct play *play);

/* Makes the call of a step, with room for so many bytes of a text; `text` has TEXT_ROOM bytes. Nothing is kept of the answer. */
struct answer play_call(struct play *play, const struct step *step, char *text, size_t capacity);

/* Keeps what the call of a step answered under the step's letters. */
void play_keep(struct play *play, const struct step *step, const struct answer *answer);

/* What is wrong with an answer, or NULL. */
const char *play_fault(const struct step *step, const struct answer *answer);

/* Makes a step, as often as it says, and its queries also with rooms that are just enough and just too small; what is wrong, or NULL. */
const char *play_step(struct play *play, const struct step *step);

/* Writes a text in full, with its {N:c} written out; its length. */
size_t play_text(const char *text, char *full);

#endif
