/*
 * ntns_windows: between the calls of ntns.h and a program for Windows, for a host that runs one. Header only, in C99 and in C++.
 *
 * Names, targets and types' names are UTF-16 in such a program, and bytes from 0x20 to 0x7E in ntns.h. The two functions for texts
 * go from one to the other. A unit (16 bits, one half of a surrogate pair too) that isn't such a byte is refused, or written as an
 * escape: the character `escape`, which the host chooses, and the unit in four hexadecimal digits, 0 to 9 and A to F. The character
 * itself is written so too, so that each UTF-16 text comes back as it was, and two of them never become one:
 *
 *     L"caf\u00E9"    with '%'    caf%00E9        0: OBJECT_NAME_INVALID
 *     L"100%"         with '%'    100%0025        0: 100%
 *
 * A host keeps to one escape for a namespace. An escape takes five bytes of the 32,767 of a name, and NTNS_OBJ_CASE_INSENSITIVE
 * finds no letters alike but those of ASCII.
 *
 * Pointers are as ntns.h has them: valid, not overlapping, and NULL only where the length or capacity is 0.
 */
#ifndef NTNS_WINDOWS_H
#define NTNS_WINDOWS_H

#include <ntns.h>

/*
 * The attributes of an OBJECT_ATTRIBUTES for a call of ntns.h: without OBJ_KERNEL_HANDLE, OBJ_FORCE_ACCESS_CHECK,
 * OBJ_IGNORE_IMPERSONATED_DEVICEMAP and OBJ_DONT_REPARSE, which the calls don't know. Other unknown bits stay, and are refused there.
 */
#define NTNS_ATTRIBUTES(attributes) ((uint32_t)(attributes) & ~(uint32_t)0x1E00u)

#define NTNS_STATUS_PROCESS_IS_TERMINATING ((ntns_status)0xC000010Au)

/*
 * A status as a program for Windows knows it: REPARSE_LIMIT becomes OBJECT_NAME_NOT_FOUND, and PROCESS_GONE becomes
 * PROCESS_IS_TERMINATING. Any other is an NTSTATUS, and stays.
 */
static inline ntns_status ntns_guest_status(ntns_status status)
{
	if (status == NTNS_STATUS_REPARSE_LIMIT)
		return NTNS_STATUS_OBJECT_NAME_NOT_FOUND;
	if (status == NTNS_STATUS_PROCESS_GONE)
		return NTNS_STATUS_PROCESS_IS_TERMINATING;
	return status;
}

/* the bytes of an escape */
enum { NTNS_ESCAPE_BYTES = 5 };

/* Whether a host may choose this escape: 0, or a character of ASCII that is no letter, digit, backslash or space. */
static inline bool ntns_is_escape(char escape)
{
	bool is_letter = (escape >= 'A' && escape <= 'Z') || (escape >= 'a' && escape <= 'z');
	bool is_digit = escape >= '0' && escape <= '9';

	return escape == 0 || (escape > 0x20 && escape < 0x7F && escape != '\\' && !is_letter && !is_digit);
}

/* Whether a unit is written as the byte that it is. */
static inline bool ntns_is_plain_unit(uint16_t unit, char escape)
{
	return unit >= 0x20 && unit <= 0x7E && unit != (unsigned char)escape;
}

/* How many bytes a unit takes: 0 if it can't be written. */
static inline size_t ntns_unit_bytes(uint16_t unit, char escape)
{
	if (ntns_is_plain_unit(unit, escape))
		return 1;
	return escape ? NTNS_ESCAPE_BYTES : 0;
}

/* Writes a unit that can be written; how many bytes it takes. */
static inline size_t ntns_put_unit(uint16_t unit, char escape, char *place)
{
	static const char digits[] = "0123456789ABCDEF";

	if (ntns_is_plain_unit(unit, escape)) {
		place[0] = (char)unit;
		return 1;
	}
	place[0] = escape;
	place[1] = digits[unit >> 12];
	place[2] = digits[unit >> 8 & 15];
	place[3] = digits[unit >> 4 & 15];
	place[4] = digits[unit & 15];
	return NTNS_ESCAPE_BYTES;
}

/* The value of a digit of an escape; 16 where the character is none. */
static inline unsigned ntns_digit_value(char digit)
{
	if (digit >= '0' && digit <= '9')
		return (unsigned)(digit - '0');
	if (digit >= 'A' && digit <= 'F')
		return (unsigned)(digit - 'A') + 10;
	return 16;
}

/* Reads the unit at the beginning of a text that isn't empty; how many bytes it takes, 0 if none is written so. */
static inline size_t ntns_get_unit(const char *text, size_t bytes, char escape, uint16_t *unit)
{
	unsigned value = 0;

	*unit = (unsigned char)text[0];
	if (ntns_is_plain_unit(*unit, escape))
		return 1;
	if (escape == 0 || text[0] != escape || bytes < NTNS_ESCAPE_BYTES)
		return 0;
	for (int place = 1; place < NTNS_ESCAPE_BYTES; place++) {
		unsigned digit = ntns_digit_value(text[place]);
		if (digit > 15)
			return 0;
		value = value << 4 | digit;
	}
	*unit = (uint16_t)value;
	return ntns_is_plain_unit(*unit, escape) ? 0 : NTNS_ESCAPE_BYTES;
}

/*
 * The bytes of `units` units of UTF-16, as of a UNICODE_STRING with twice that Length. `escape` is 0 for none.
 *
 * On success `length` is how many bytes are in `buffer`; if it is too small nothing is written into it, and `length` is what is
 * needed; on any other refusal it is 0. The rest of the buffer stays as it was.
 *
 * INVALID_PARAMETER (an escape that ntns_is_escape refuses), OBJECT_NAME_INVALID (without an escape: a unit outside 0x20 to 0x7E),
 * BUFFER_TOO_SMALL.
 */
static inline ntns_status ntns_from_utf16(const uint16_t *text, size_t units, char escape, char *buffer, size_t capacity, size_t *length)
{
	size_t needed = 0, written = 0;

	*length = 0;
	if (!ntns_is_escape(escape))
		return NTNS_STATUS_INVALID_PARAMETER;
	for (size_t place = 0; place < units; place++) {
		size_t bytes = ntns_unit_bytes(text[place], escape);
		if (bytes == 0)
			return NTNS_STATUS_OBJECT_NAME_INVALID;
		needed += bytes;
	}
	*length = needed;
	if (needed > capacity)
		return NTNS_STATUS_BUFFER_TOO_SMALL;
	for (size_t place = 0; place < units; place++)
		written += ntns_put_unit(text[place], escape, buffer + written);
	return NTNS_STATUS_SUCCESS;
}

/*
 * The units of UTF-16 of `bytes` bytes, as ntns_from_utf16 writes them with the same escape. Capacity and length count units, and
 * are otherwise as there.
 *
 * INVALID_PARAMETER (an escape that ntns_is_escape refuses), OBJECT_NAME_INVALID (bytes that ntns_from_utf16 never writes),
 * BUFFER_TOO_SMALL.
 */
static inline ntns_status ntns_to_utf16(const char *text, size_t bytes, char escape, uint16_t *buffer, size_t capacity, size_t *length)
{
	size_t needed = 0, written = 0;
	uint16_t unit;

	*length = 0;
	if (!ntns_is_escape(escape))
		return NTNS_STATUS_INVALID_PARAMETER;
	for (size_t place = 0; place < bytes; needed++) {
		size_t taken = ntns_get_unit(text + place, bytes - place, escape, &unit);
		if (taken == 0)
			return NTNS_STATUS_OBJECT_NAME_INVALID;
		place += taken;
	}
	*length = needed;
	if (needed > capacity)
		return NTNS_STATUS_BUFFER_TOO_SMALL;
	for (size_t place = 0; written < needed; written++)
		place += ntns_get_unit(text + place, bytes - place, escape, &buffer[written]);
	return NTNS_STATUS_SUCCESS;
}

#endif
