/*
 * What the proved part of the library exports under names of its own. It differs from ntns.h in this: no pointer is NULL, a name says beside it whether
 * there is one, a text is written through a pointer, NULL where there is none, and the namespace that is copied isn't const.
 */
#ifndef RAW_H
#define RAW_H

#include "ntns.h"

ntns_status ntns_copy_raw(ntns *from, ntns *to);
ntns_status ntns_create_directory_raw(ntns *ns, uint32_t process, uint32_t root, bool named, const char *name, size_t name_len,
				      uint32_t attributes, uint32_t *handle);
ntns_status ntns_create_shadowed_raw(ntns *ns, uint32_t process, uint32_t root, bool named, const char *name, size_t name_len,
				     uint32_t attributes, uint32_t shadow, uint32_t *handle);
ntns_status ntns_create_link_raw(ntns *ns, uint32_t process, uint32_t root, bool named, const char *name, size_t name_len,
				 uint32_t attributes, const char *target, size_t target_len, uint32_t *handle);
ntns_status ntns_create_object_raw(ntns *ns, uint32_t process, uint32_t root, bool named, const char *name, size_t name_len,
				   uint32_t attributes, uint32_t type, uint64_t user_data, uint32_t *handle);
ntns_status ntns_open_directory_raw(ntns *ns, uint32_t process, uint32_t root, const char *name, size_t name_len, uint32_t attributes,
				    uint32_t *handle);
ntns_status ntns_open_link_raw(ntns *ns, uint32_t process, uint32_t root, const char *name, size_t name_len, uint32_t attributes,
			       uint32_t *handle);
ntns_status ntns_open_object_raw(ntns *ns, uint32_t process, uint32_t root, const char *name, size_t name_len, uint32_t attributes,
				 uint32_t type, uint32_t *handle);
ntns_status ntns_begin_open_raw(ntns *ns, uint32_t process, uint32_t root, const char *name, size_t name_len, uint32_t attributes,
				uint32_t type, uint32_t *handle, struct ntns_pending *pending, char *rest, size_t capacity,
				size_t *length);
ntns_status ntns_query_link_raw(ntns *ns, uint32_t process, uint32_t handle, char *buffer, size_t capacity, size_t *length);
ntns_status ntns_query_name_raw(ntns *ns, uint32_t process, uint32_t handle, char *buffer, size_t capacity, size_t *length);
ntns_status ntns_query_file_raw(ntns *ns, uint32_t process, uint32_t handle, char *buffer, size_t capacity, size_t *length);
ntns_status ntns_next_entry_raw(ntns *ns, uint32_t process, uint32_t handle, uint64_t *context, char *buffer, size_t capacity,
				size_t *length, uint32_t *type);
ntns_status ntns_next_page_raw(ntns *ns, uint32_t process, uint32_t handle, uint64_t *context, char *buffer, size_t capacity, size_t *length);
ntns_status ntns_next_rows_raw(ntns *ns, uint32_t process, uint32_t handle, uint64_t *context, struct ntns_row *rows, size_t places,
			       char *buffer, size_t capacity, size_t *filled);
void ntns_status_text_raw(ntns_status status, const char **text);
void ntns_type_name_raw(uint32_t type, const char **name);

#endif
