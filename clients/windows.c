/*
 * Tries ntns_windows.h: each unit of UTF-16 and each byte alone, with every escape, and texts of them in rooms that are just enough and
 * just too small; attributes bit by bit; the statuses; and names that a namespace keeps.
 *
 *     cc -std=c99 -I out clients/windows.c out/libntns.a
 *
 * The last line is 'N passed, M failed'; the exit status is 0 where none failed.
 */
#include <ntns_windows.h>

#include <stdio.h>
#include <stdlib.h>
#include <string.h>

#define S(status) NTNS_STATUS_##status

/* what stands where a call has to write something else, and nothing where it hasn't */
enum { STALE = 0x5A };

/* the characters of ASCII that may be an escape */
static const char ESCAPES[] = "!\"#$%&'()*+,-./:;<=>?@[]^_`{|}~";

static int passed, failed;

/* Counts what has to hold, and tells what doesn't. */
static void hold(bool holds, const char *shows, unsigned long at)
{
	passed += holds;
	failed += !holds;
	if (!holds)
		printf("windows: %s (%lu)\n", shows, at);
}

/* Whether a unit or a byte is one of a name. */
static bool is_of_names(unsigned value)
{
	return value >= 0x20 && value <= 0x7E;
}

/* A block of so many bytes, each of them stale: a sanitizer sees what is written or read behind it. */
static void *stale(size_t bytes)
{
	void *block = malloc(bytes ? bytes : 1);

	if (!block)
		exit(3);
	memset(block, STALE, bytes ? bytes : 1);
	return block;
}

/* Whether a block is stale. */
static bool is_stale(const void *block, size_t bytes)
{
	const unsigned char *byte = (const unsigned char *)block;

	for (size_t place = 0; place < bytes; place++)
		if (byte[place] != STALE)
			return false;
	return true;
}

static void escapes(void)
{
	static const uint16_t text[] = { 'a' };
	char byte;
	uint16_t unit;
	size_t length;

	for (int value = 0; value < 256; value++) {
		bool may_be = value == 0 || (value < 128 && strchr(ESCAPES, value));
		ntns_status wanted = may_be ? S(SUCCESS) : S(INVALID_PARAMETER);

		length = 7;
		hold(ntns_from_utf16(text, 1, (char)value, &byte, 1, &length) == wanted && length == may_be, "an escape is judged", (unsigned long)value);
		length = 7;
		hold(ntns_to_utf16("a", 1, (char)value, &unit, 1, &length) == wanted && length == may_be, "so it is on the way back", (unsigned long)value);
	}
	hold(ntns_from_utf16(text, 1, 'A', NULL, 0, &length) == S(INVALID_PARAMETER), "an escape is judged before the room", 0);
	hold(ntns_to_utf16("\x7F", 1, 'A', NULL, 0, &length) == S(INVALID_PARAMETER), "and before the bytes", 0);
}

/* Whether a unit is written with this escape as it should be, or refused, and comes back. */
static bool comes_back(uint16_t unit, char escape)
{
	bool is_plain = is_of_names(unit) && unit != (unsigned)escape;
	size_t wanted = is_plain ? 1 : escape ? 5 : 0, length, count = 7;
	char bytes[8], spelled[8];
	uint16_t back[2];

	snprintf(spelled, sizeof spelled, is_plain ? "%c" : "%c%04X", is_plain ? (int)unit : escape, (unsigned)unit);
	memset(bytes, STALE, sizeof bytes);
	memset(back, STALE, sizeof back);
	ntns_status status = ntns_from_utf16(&unit, 1, escape, bytes, sizeof bytes, &length);
	if (length != wanted || memcmp(bytes, spelled, wanted) || !is_stale(bytes + wanted, sizeof bytes - wanted))
		return false;
	if (wanted == 0)
		return status == S(OBJECT_NAME_INVALID);
	return status == S(SUCCESS) && ntns_to_utf16(bytes, length, escape, back, 2, &count) == S(SUCCESS) && count == 1 && back[0] == unit &&
	       is_stale(&back[1], sizeof back[1]);
}

/* Each unit, without an escape and with this one, there and back. */
static void units_with(char escape)
{
	unsigned unit = 0;

	while (unit <= 0xFFFF && comes_back((uint16_t)unit, escape))
		unit++;
	hold(unit == 0x10000, "each unit is written or refused, and comes back", unit);
}

/* Bytes that are no text of names, and escapes that are never written. */
static void refused_bytes(void)
{
	static const char *const wrong[] = { "%", "%0", "%00", "%00E", "%00e9", "%00G9", "%00:9", "%00@9", "%00/9", "%00 9", "%0041", "%005C", "%0020", "%007E", "%%", "%00%9", "a%00E" };
	uint16_t units[16];
	size_t length;

	for (unsigned value = 0; value < 256; value++) {
		char byte = (char)value;
		ntns_status wanted = is_of_names(value) ? S(SUCCESS) : S(OBJECT_NAME_INVALID);

		hold(ntns_to_utf16(&byte, 1, 0, units, 16, &length) == wanted && length == (wanted == S(SUCCESS)), "a byte is one of names, or refused", value);
	}
	for (size_t place = 0; place < sizeof wrong / sizeof *wrong; place++) {
		size_t bytes = strlen(wrong[place]);
		char *text = (char *)stale(bytes);

		memcpy(text, wrong[place], bytes);
		memset(units, STALE, sizeof units);
		length = 7;
		hold(ntns_to_utf16(text, bytes, '%', units, 16, &length) == S(OBJECT_NAME_INVALID) && length == 0, "no such escape is written", place);
		hold(is_stale(units, sizeof units), "and nothing is read from it", place);
		hold(ntns_to_utf16(text, bytes, 0, units, 16, &length) == S(SUCCESS) && length == bytes, "without an escape it is a text", place);
		free(text);
	}
}

/* A text in rooms from none to more than enough, there and back. */
static void rooms_of(const uint16_t *text, size_t count, const char *spelled)
{
	size_t bytes = strlen(spelled), length;

	for (size_t room = 0; room <= bytes + 2; room++) {
		char *buffer = (char *)stale(room);
		ntns_status status = ntns_from_utf16(text, count, '%', buffer, room, &length);

		hold(length == bytes && status == (room < bytes ? S(BUFFER_TOO_SMALL) : S(SUCCESS)), "a text needs its room", room);
		size_t written = room < bytes ? 0 : bytes;
		hold(!memcmp(buffer, spelled, written) && is_stale(buffer + written, room - written), "it is written where it fits, and no more", room);
		free(buffer);
	}
	for (size_t room = 0; room <= count + 2; room++) {
		uint16_t *buffer = (uint16_t *)stale(room * sizeof *buffer);
		ntns_status status = ntns_to_utf16(spelled, bytes, '%', buffer, room, &length);

		hold(length == count && status == (room < count ? S(BUFFER_TOO_SMALL) : S(SUCCESS)), "and so it is on the way back", room);
		size_t written = room < count ? 0 : count;
		hold(!memcmp(buffer, text, written * sizeof *text) && is_stale(buffer + written, (room - written) * sizeof *text), "of units", room);
		free(buffer);
	}
}

static void texts(void)
{
	static const uint16_t nothing[] = { 0 }, plain[] = { '\\', 'a', ' ', '~' }, coffee[] = { 'c', 'a', 'f', 0xE9 };
	static const uint16_t mixed[] = { 0xD83D, 0xDE00, '%', 0, '%', '0', '0', '4', '1', 0xFFFF, 'Z' };
	size_t length = 7;

	rooms_of(nothing, 0, "");
	rooms_of(plain, 4, "\\a ~");
	rooms_of(coffee, 4, "caf%00E9");
	rooms_of(mixed, 11, "%D83D%DE00%0025%0000%00250041%FFFFZ");
	hold(ntns_from_utf16(NULL, 0, 0, NULL, 0, &length) == S(SUCCESS) && length == 0, "no text needs no room", 0);
	hold(ntns_to_utf16(NULL, 0, 0, NULL, 0, &length) == S(SUCCESS) && length == 0, "nor on the way back", 0);
	hold(ntns_from_utf16(coffee, 4, 0, NULL, 0, &length) == S(OBJECT_NAME_INVALID) && length == 0, "a unit is judged before the room", 0);
	hold(ntns_to_utf16("abc\x7F", 4, 0, NULL, 0, &length) == S(OBJECT_NAME_INVALID) && length == 0, "and a byte", 0);
}

static void attributes_and_statuses(void)
{
	static const uint32_t cleared = 0x200 | 0x400 | 0x800 | 0x1000;
	static const ntns_status statuses[] = { S(SUCCESS), S(MORE_ENTRIES), S(OBJECT_NAME_EXISTS), S(NO_MORE_ENTRIES), S(INVALID_HANDLE), S(INVALID_PARAMETER), S(NO_MEMORY), S(ACCESS_DENIED), S(BUFFER_TOO_SMALL), S(OBJECT_TYPE_MISMATCH), S(OBJECT_NAME_INVALID), S(OBJECT_NAME_NOT_FOUND), S(OBJECT_NAME_COLLISION), S(OBJECT_PATH_NOT_FOUND), S(OBJECT_PATH_SYNTAX_BAD), S(INSUFFICIENT_RESOURCES), S(NAME_TOO_LONG) };

	for (unsigned bit = 0; bit < 32; bit++)
		hold(NTNS_ATTRIBUTES(1u << bit) == (cleared & 1u << bit ? 0 : 1u << bit), "a flag is cleared, or stays", bit);
	hold(NTNS_ATTRIBUTES(0x1FF2 | NTNS_OBJ_INHERIT) == 0x1F2, "the flags of Windows become those of ntns.h", 0);
	for (size_t place = 0; place < sizeof statuses / sizeof *statuses; place++)
		hold(ntns_guest_status(statuses[place]) == statuses[place], "a status of Windows stays", place);
	hold(ntns_guest_status(S(REPARSE_LIMIT)) == 0xC0000034u, "too many links lead to no name", 0);
	hold(ntns_guest_status(S(PROCESS_GONE)) == 0xC000010Au, "a process that is gone is terminating", 0);
}

/* A name that isn't in the profile makes an object, is listed, and comes back. */
static void names(void)
{
	static const uint16_t name[] = { '\\', 0xC4, '%', 'a' };
	char bytes[64], entry[64];
	uint16_t back[64];
	uint32_t made, root, type;
	uint64_t context = 0;
	size_t length, listed;
	ntns ns = NTNS_CLOSED;

	hold(ntns_open(&ns) == S(SUCCESS), "a namespace is opened", 0);
	hold(ntns_from_utf16(name, 4, '%', bytes, sizeof bytes, &length) == S(SUCCESS) && length == 12, "a name is written", 0);
	hold(ntns_create_directory(&ns, 1, 0, bytes, length, NTNS_ATTRIBUTES(0x240), &made) == S(SUCCESS), "an object has it", 0);
	hold(ntns_query_name(&ns, 1, made, entry, sizeof entry, &listed) == S(SUCCESS) && listed == length, "its path has it", 0);
	hold(ntns_to_utf16(entry, listed, '%', back, 64, &length) == S(SUCCESS) && length == 4 && !memcmp(back, name, sizeof name), "and it comes back", 0);
	hold(ntns_open_directory(&ns, 1, 0, "\\", 1, 0, &root) == S(SUCCESS), "the root is opened", 0);
	do
		hold(ntns_next_entry(&ns, 1, root, &context, entry, sizeof entry, &listed, &type) == S(SUCCESS), "an entry is listed", 0);
	while (!failed && entry[0] != '%');
	hold(ntns_to_utf16(entry, listed, '%', back, 64, &length) == S(SUCCESS) && length == 3 && !memcmp(back, name + 1, 6), "the entry comes back", 0);
	ntns_close(&ns);
}

int main(void)
{
	escapes();
	units_with(0);
	for (const char *escape = ESCAPES; *escape; escape++)
		units_with(*escape);
	refused_bytes();
	texts();
	attributes_and_statuses();
	names();
	printf("%d passed, %d failed\n", passed, failed);
	return failed != 0;
}
