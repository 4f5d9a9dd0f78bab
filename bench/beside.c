/*
 * The same operations on libntns and on a namespace written by hand, to count instructions: `beside ntns|hand open|miss|create ROUNDS`. The exit
 * status is 1 where a call was answered otherwise than it should be.
 *
 * The one by hand is what an emulator's author might write in an afternoon: one table of names by directory and folded component, one array of
 * handles. It has no links, device maps, shadows, parses, types, inheritance, listings or limits, one process, and no reply but a handle.
 *
 *     cc -std=c11 -O2 -I out bench/beside.c out/libntns.a
 */
#include <ntns.h>

#include <stdbool.h>
#include <stdio.h>
#include <stdlib.h>
#include <string.h>

enum { BUCKETS = 1 << 16, HANDLES = 1 << 12, NAME_ROOM = 32 };

/* An object with a name, in the list of its bucket. */
struct node {
	struct node *next, *parent;
	uint32_t handles, children;
	bool permanent;
	size_t length;
	char name[NAME_ROOM];
};

/* A namespace: its root, the buckets of all other names, the objects of handles, and the values of handles that were closed. */
struct hand {
	struct node root, *buckets[BUCKETS], *objects[HANDLES];
	uint32_t used, free[HANDLES], free_count;
};

static unsigned char folded(char byte)
{
	return byte >= 'a' && byte <= 'z' ? (unsigned char)(byte - 32) : (unsigned char)byte;
}

static struct node **bucket_of(struct hand *hand, const struct node *parent, const char *name, size_t length)
{
	uint64_t hash = 14695981039346656037u ^ (uintptr_t)parent;

	for (size_t at = 0; at < length; at++)
		hash = (hash ^ folded(name[at])) * 1099511628211u;
	return &hand->buckets[(hash ^ hash >> 32) % BUCKETS];
}

static bool is_same(const char *one, const char *other, size_t length, bool fold)
{
	for (size_t at = 0; at < length; at++)
		if (fold ? folded(one[at]) != folded(other[at]) : one[at] != other[at])
			return false;
	return true;
}

static struct node *child_of(struct hand *hand, const struct node *parent, const char *name, size_t length, bool fold)
{
	for (struct node *node = *bucket_of(hand, parent, name, length); node; node = node->next)
		if (node->parent == parent && node->length == length && is_same(node->name, name, length, fold))
			return node;
	return NULL;
}

static bool is_name(const char *name, size_t length)
{
	for (size_t at = 0; at < length; at++)
		if (name[at] < ' ' || name[at] > '~')
			return false;
	return length > 1 && *name == '\\';
}

/* The directory of the last component of a name, which is left in `last`; NULL where a component before it leads nowhere. */
static struct node *directory_of(struct hand *hand, const char **last, size_t *length, bool fold)
{
	struct node *directory = &hand->root;
	const char *slash;

	while (directory && (slash = memchr(*last, '\\', *length))) {
		size_t front = (size_t)(slash - *last);
		directory = child_of(hand, directory, *last, front, fold);
		*last = slash + 1;
		*length -= front + 1;
	}
	return directory;
}

static uint32_t grant(struct hand *hand, struct node *node)
{
	uint32_t value = hand->free_count ? hand->free[--hand->free_count] : ++hand->used;

	hand->objects[value] = node;
	node->handles++;
	return value * 4;
}

/* An object that is there, and a handle to it; 0 where it isn't. */
static uint32_t hand_open(struct hand *hand, const char *name, size_t length, bool fold)
{
	const char *last = name + 1;
	size_t rest = length - 1;
	struct node *directory = is_name(name, length) ? directory_of(hand, &last, &rest, fold) : NULL;
	struct node *node = directory ? child_of(hand, directory, last, rest, fold) : NULL;

	return node ? grant(hand, node) : 0;
}

/* A new object, and a handle to it; 0 where its name is taken, too long, or in no directory, or where memory runs out. */
static uint32_t hand_create(struct hand *hand, const char *name, size_t length, bool permanent)
{
	const char *last = name + 1;
	size_t rest = length - 1;
	struct node *directory = is_name(name, length) ? directory_of(hand, &last, &rest, false) : NULL, *node;

	if (!directory || rest > NAME_ROOM || child_of(hand, directory, last, rest, false) || !(node = malloc(sizeof *node)))
		return 0;
	struct node **bucket = bucket_of(hand, directory, last, rest);
	*node = (struct node) { *bucket, directory, 0, 0, permanent, rest, "" };
	memcpy(node->name, last, rest);
	*bucket = node;
	directory->children++;
	return grant(hand, node);
}

/* Closes a handle; a temporary object without handles and children goes with its name. */
static bool hand_close(struct hand *hand, uint32_t value)
{
	struct node *node = value / 4 < HANDLES ? hand->objects[value / 4] : NULL;

	if (!node)
		return false;
	hand->objects[value / 4] = NULL;
	hand->free[hand->free_count++] = value / 4;
	if (--node->handles || node->permanent || node->children)
		return true;
	struct node **link = bucket_of(hand, node->parent, node->name, node->length);
	while (*link != node)
		link = &(*link)->next;
	*link = node->next;
	node->parent->children--;
	free(node);
	return true;
}

#define TEXT(text) text, sizeof(text) - 1

/* Three directories, one in another, and then so many rounds of an operation by hand. */
static bool by_hand(const char *operation, unsigned long rounds)
{
	struct hand *hand = calloc(1, sizeof *hand);
	bool is_well = hand && hand_create(hand, TEXT("\\A"), true) && hand_create(hand, TEXT("\\A\\B"), true) && hand_create(hand, TEXT("\\A\\B\\C"), true);

	for (; is_well && rounds; rounds--) {
		if (*operation == 'o')
			is_well = hand_close(hand, hand_open(hand, TEXT("\\A\\B\\C"), false));
		else if (*operation == 'm')
			is_well = !hand_open(hand, TEXT("\\A\\B\\X"), false);
		else
			is_well = hand_close(hand, hand_create(hand, TEXT("\\A\\B\\E"), false));
	}
	free(hand);
	return is_well;
}

static bool is_opened(ntns *ns, const char *name, size_t length, uint32_t *handle)
{
	return ntns_open_object(ns, 1, 0, name, length, 0, NTNS_TYPE_ANY, handle) == NTNS_STATUS_SUCCESS;
}

static bool is_made(ntns *ns, const char *name, size_t length, uint32_t *handle)
{
	return ntns_create_directory(ns, 1, 0, name, length, 0, handle) == NTNS_STATUS_SUCCESS;
}

/* The same by libntns. */
static bool by_library(const char *operation, unsigned long rounds)
{
	ntns ns = NTNS_CLOSED;
	uint32_t handle;
	bool is_well = ntns_open(&ns) == NTNS_STATUS_SUCCESS && is_made(&ns, TEXT("\\A"), &handle) && is_made(&ns, TEXT("\\A\\B"), &handle) && is_made(&ns, TEXT("\\A\\B\\C"), &handle);

	for (; is_well && rounds; rounds--) {
		if (*operation == 'o')
			is_well = is_opened(&ns, TEXT("\\A\\B\\C"), &handle) && ntns_close_handle(&ns, 1, handle) == NTNS_STATUS_SUCCESS;
		else if (*operation == 'm')
			is_well = ntns_open_object(&ns, 1, 0, TEXT("\\A\\B\\X"), 0, NTNS_TYPE_ANY, &handle) == NTNS_STATUS_OBJECT_NAME_NOT_FOUND;
		else
			is_well = ntns_create_object(&ns, 1, 0, TEXT("\\A\\B\\E"), 0, NTNS_TYPE_EVENT, 1, &handle) == NTNS_STATUS_SUCCESS && ntns_close_handle(&ns, 1, handle) == NTNS_STATUS_SUCCESS;
	}
	ntns_close(&ns);
	return is_well;
}

int main(int count, char **words)
{
	if (count != 4 || !strchr("omc", *words[2]) || !strchr("nh", *words[1]))
		return 2;
	return (*words[1] == 'h' ? by_hand : by_library)(words[2], strtoul(words[3], NULL, 10)) ? 0 : 1;
}
