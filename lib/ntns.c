/*
 * The calls of ntns.h that the proved part of the library can't export under their own names, since an export takes no NULL and no const namespace, and
 * returns no pointer: each passes its arguments on, with an empty text in the place of NULL. The other calls are exported as they are.
 */
#include "raw.h"

/* An empty text stands in for NULL; what its length was said to be doesn't count then. */
#define TEXT(text, length) (text) ? (text) : "", (text) ? (length) : 0

/* The export takes the struct of `from` apart and puts it together again, so it is lent another of the same words; the memory behind them stays where it is. */
ntns_status ntns_copy(const ntns *from, ntns *to)
{
	ntns lent = *from;
	return ntns_copy_raw(&lent, to);
}

ntns_status ntns_create_directory(ntns *ns, uint32_t process, uint32_t root, const char *name, size_t name_len, uint32_t attributes,
				  uint32_t *handle)
{
	return ntns_create_directory_raw(ns, process, root, name != NULL, TEXT(name, name_len), attributes, handle);
}

ntns_status ntns_create_shadowed(ntns *ns, uint32_t process, uint32_t root, const char *name, size_t name_len, uint32_t attributes,
				 uint32_t shadow, uint32_t *handle)
{
	return ntns_create_shadowed_raw(ns, process, root, name != NULL, TEXT(name, name_len), attributes, shadow, handle);
}

ntns_status ntns_create_link(ntns *ns, uint32_t process, uint32_t root, const char *name, size_t name_len, uint32_t attributes,
			     const char *target, size_t target_len, uint32_t *handle)
{
	return ntns_create_link_raw(ns, process, root, name != NULL, TEXT(name, name_len), attributes, TEXT(target, target_len), handle);
}

ntns_status ntns_create_object(ntns *ns, uint32_t process, uint32_t root, const char *name, size_t name_len, uint32_t attributes,
			       uint32_t type, uint64_t user_data, uint32_t *handle)
{
	return ntns_create_object_raw(ns, process, root, name != NULL, TEXT(name, name_len), attributes, type, user_data, handle);
}

ntns_status ntns_open_directory(ntns *ns, uint32_t process, uint32_t root, const char *name, size_t name_len, uint32_t attributes,
				uint32_t *handle)
{
	return ntns_open_directory_raw(ns, process, root, TEXT(name, name_len), attributes, handle);
}

ntns_status ntns_open_link(ntns *ns, uint32_t process, uint32_t root, const char *name, size_t name_len, uint32_t attributes,
			   uint32_t *handle)
{
	return ntns_open_link_raw(ns, process, root, TEXT(name, name_len), attributes, handle);
}

ntns_status ntns_open_object(ntns *ns, uint32_t process, uint32_t root, const char *name, size_t name_len, uint32_t attributes,
			     uint32_t type, uint32_t *handle)
{
	return ntns_open_object_raw(ns, process, root, TEXT(name, name_len), attributes, type, handle);
}

ntns_status ntns_begin_open(ntns *ns, uint32_t process, uint32_t root, const char *name, size_t name_len, uint32_t attributes,
			    uint32_t type, uint32_t *handle, struct ntns_pending *pending, char *rest, size_t capacity, size_t *length)
{
	char none;
	return ntns_begin_open_raw(ns, process, root, TEXT(name, name_len), attributes, type, handle, pending, rest ? rest : &none,
				   rest ? capacity : 0, length);
}

ntns_status ntns_query_link(ntns *ns, uint32_t process, uint32_t handle, char *buffer, size_t capacity, size_t *length)
{
	char none;
	return ntns_query_link_raw(ns, process, handle, buffer ? buffer : &none, buffer ? capacity : 0, length);
}

ntns_status ntns_query_name(ntns *ns, uint32_t process, uint32_t handle, char *buffer, size_t capacity, size_t *length)
{
	char none;
	return ntns_query_name_raw(ns, process, handle, buffer ? buffer : &none, buffer ? capacity : 0, length);
}

ntns_status ntns_query_file(ntns *ns, uint32_t process, uint32_t handle, char *buffer, size_t capacity, size_t *length)
{
	char none;
	return ntns_query_file_raw(ns, process, handle, buffer ? buffer : &none, buffer ? capacity : 0, length);
}

ntns_status ntns_next_entry(ntns *ns, uint32_t process, uint32_t handle, uint64_t *context, char *buffer, size_t capacity, size_t *length,
			    uint32_t *type)
{
	char none;
	return ntns_next_entry_raw(ns, process, handle, context, buffer ? buffer : &none, buffer ? capacity : 0, length, type);
}

ntns_status ntns_next_page(ntns *ns, uint32_t process, uint32_t handle, uint64_t *context, char *buffer, size_t capacity, size_t *length)
{
	char none;
	return ntns_next_page_raw(ns, process, handle, context, buffer ? buffer : &none, buffer ? capacity : 0, length);
}

ntns_status ntns_next_rows(ntns *ns, uint32_t process, uint32_t handle, uint64_t *context, struct ntns_row *rows, size_t *count, char *buffer,
			   size_t capacity)
{
	struct ntns_row no_row;
	char none;
	return ntns_next_rows_raw(ns, process, handle, context, rows ? rows : &no_row, rows ? *count : 0, buffer ? buffer : &none,
				  buffer ? capacity : 0, count);
}

const char *ntns_status_text(ntns_status status)
{
	const char *text;
	ntns_status_text_raw(status, &text);
	return text;
}

const char *ntns_type_name(uint32_t type)
{
	const char *name;
	ntns_type_name_raw(type, &name);
	return name;
}
