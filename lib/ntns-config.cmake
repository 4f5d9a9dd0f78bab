# find_package(ntns 1): ntns::ntns is the shared library, and ntns::static the archive, both as they are installed beside this file.
get_filename_component(ntns_prefix "${CMAKE_CURRENT_LIST_DIR}/../../.." ABSOLUTE)

if(NOT TARGET ntns::ntns)
  add_library(ntns::ntns SHARED IMPORTED)
  set_target_properties(ntns::ntns PROPERTIES
    IMPORTED_LOCATION "${ntns_prefix}/lib/libntns.so.1"
    IMPORTED_SONAME libntns.so.1
    INTERFACE_INCLUDE_DIRECTORIES "${ntns_prefix}/include")
  add_library(ntns::static STATIC IMPORTED)
  set_target_properties(ntns::static PROPERTIES
    IMPORTED_LOCATION "${ntns_prefix}/lib/libntns.a"
    INTERFACE_INCLUDE_DIRECTORIES "${ntns_prefix}/include")
endif()

unset(ntns_prefix)
