/*
 * A library to preload: it refuses requests for memory, and lets reads and writes fail, as variables of the environment say.
 * What the C library asks for before `main` and behind it is neither counted nor refused.
 *
 *   REFUSE_REQUEST=N   the Nth request for memory is refused (malloc, calloc, realloc); the next ones are served
 *   REFUSE_FROM=N      the Nth request is refused, and each one behind it
 *   REFUSE_BEHIND=K    for these two, requests are counted from the Kth write to standard output on, up to the next one
 *   FAIL_READ=K        the Kth read fails, once
 *   FAIL_WRITE=K       the Kth write fails, once, whatever it writes to
 *   FAIL_INTERRUPTED=1 these fail with EINTR, and else with EIO
 *   ONE_BYTE=1         each read gives, and each write takes, one byte at most
 *   TELL=D             at the end this is written to the descriptor D: `requests R refused F reads I writes O`, and then how many
 *                      requests came before the first write to standard output, behind it, behind the second, and so on
 *
 * Numbers begin with 1. Each realloc counts, whatever it asks for.
 *
 *   cc -std=c11 -shared -fPIC -O2 -Wall -Wextra -Werror -o refuse.so hostile/refuse.c -ldl
 */
#define _GNU_SOURCE
#include <dlfcn.h>
#include <errno.h>
#include <stdatomic.h>
#include <stdbool.h>
#include <stddef.h>
#include <stdio.h>
#include <stdlib.h>
#include <sys/uio.h>
#include <unistd.h>

/* the C library's own, which a preloaded library can't hide from itself */
extern void *__libc_malloc(size_t size);
extern void *__libc_calloc(size_t count, size_t size);
extern void *__libc_realloc(void *old, size_t size);
extern ssize_t __read(int from, void *bytes, size_t count);
extern ssize_t __write(int to, const void *bytes, size_t count);

/* how many writes to standard output have counts of their own; what comes behind more is counted with the last */
enum { PLACES = 65536 };

static long refuse_request, refuse_from, refuse_behind = -1, fail_read, fail_write, tell = -1;
static bool one_byte;
static int fault = EIO;

static atomic_bool is_running;
static atomic_long requests, refused, reads, writes, shown;
static atomic_long asked[PLACES];

static long number_of(const char *name, long other)
{
	const char *text = getenv(name);
	return text ? strtol(text, NULL, 10) : other;
}

/* Whether a request is refused, which is counted. */
static bool is_refused(void)
{
	if (!atomic_load(&is_running))
		return false;
	long place = atomic_load(&shown);
	long of_all = atomic_fetch_add(&requests, 1) + 1;
	long of_place = atomic_fetch_add(&asked[place < PLACES ? place : PLACES - 1], 1) + 1;
	if (refuse_behind >= 0 && place != refuse_behind)
		return false;
	long number = refuse_behind >= 0 ? of_place : of_all;
	if (number != refuse_request && !(refuse_from && number >= refuse_from))
		return false;
	atomic_fetch_add(&refused, 1);
	errno = ENOMEM;
	return true;
}

void *malloc(size_t size)
{
	return is_refused() ? NULL : __libc_malloc(size);
}

void *calloc(size_t count, size_t size)
{
	return is_refused() ? NULL : __libc_calloc(count, size);
}

void *realloc(void *old, size_t size)
{
	return is_refused() ? NULL : __libc_realloc(old, size);
}

/* Counts a read or a write; whether it fails. */
static bool fails(atomic_long *made, long failing)
{
	if (!atomic_load(&is_running) || atomic_fetch_add(made, 1) + 1 != failing)
		return false;
	errno = fault;
	return true;
}

/* How many bytes a read or a write may move. */
static size_t moved(size_t count)
{
	return one_byte && count > 1 && atomic_load(&is_running) ? 1 : count;
}

ssize_t read(int from, void *bytes, size_t count)
{
	return fails(&reads, fail_read) ? -1 : __read(from, bytes, moved(count));
}

ssize_t write(int to, const void *bytes, size_t count)
{
	bool is_failing = fails(&writes, fail_write);
	if (to == STDOUT_FILENO && atomic_load(&is_running))
		atomic_fetch_add(&shown, 1);
	return is_failing ? -1 : __write(to, bytes, moved(count));
}

/* Tells what was counted. */
static void tell_counts(void)
{
	char text[128];
	int length = snprintf(text, sizeof text, "requests %ld refused %ld reads %ld writes %ld", atomic_load(&requests),
			      atomic_load(&refused), atomic_load(&reads), atomic_load(&writes));
	if (__write((int)tell, text, (size_t)length) < 0)
		return;
	long last = atomic_load(&shown);
	for (long place = 0; place <= last && place < PLACES; place++) {
		length = snprintf(text, sizeof text, " %ld", atomic_load(&asked[place]));
		if (__write((int)tell, text, (size_t)length) < 0)
			return;
	}
	(void)!__write((int)tell, "\n", 1);
}

static int (*its_main)(int, char **, char **);

/* Ends what is counted, also where the program ends itself. */
static void stop(void)
{
	if (atomic_exchange(&is_running, false) && tell >= 0)
		tell_counts();
}

/* A program may end so in place of a return from `main`. */
void _exit(int status)
{
	stop();
	_Exit(status);
}

static int counted_main(int count, char **words, char **variables)
{
	refuse_request = number_of("REFUSE_REQUEST", 0);
	refuse_from = number_of("REFUSE_FROM", 0);
	refuse_behind = number_of("REFUSE_BEHIND", -1);
	fail_read = number_of("FAIL_READ", 0);
	fail_write = number_of("FAIL_WRITE", 0);
	tell = number_of("TELL", -1);
	one_byte = number_of("ONE_BYTE", 0) != 0;
	fault = number_of("FAIL_INTERRUPTED", 0) ? EINTR : EIO;
	atexit(stop);
	atomic_store(&is_running, true);
	int status = its_main(count, words, variables);
	stop();
	return status;
}

typedef int start_function(int (*)(int, char **, char **), int, char **, void (*)(void), void (*)(void), void (*)(void), void *);

/* The program's start calls this with its `main`; the C library's own is called with the one above. */
int __libc_start_main(int (*main)(int, char **, char **), int count, char **words, void (*init)(void), void (*fini)(void),
		      void (*rtld_fini)(void), void *stack_end)
{
	start_function *start = NULL;
	*(void **)&start = dlsym(RTLD_NEXT, "__libc_start_main");
	its_main = main;
	return start(counted_main, count, words, init, fini, rtld_fini, stack_end);
}
