# Wargnifla for CMake: find_package(wargnifla) gives wargnifla::wargnifla, the archive, and wargnifla::shared, the shared library. Both stand where this
# file does, wherever that is.
get_filename_component(_wargnifla_prefix "${CMAKE_CURRENT_LIST_DIR}/../../.." ABSOLUTE)

if(NOT TARGET wargnifla::wargnifla)
  add_library(wargnifla::wargnifla STATIC IMPORTED)
  set_target_properties(wargnifla::wargnifla PROPERTIES
    IMPORTED_LOCATION "${_wargnifla_prefix}/lib/libwargnifla.a"
    IMPORTED_LINK_INTERFACE_LANGUAGES C
    INTERFACE_INCLUDE_DIRECTORIES "${_wargnifla_prefix}/include")
endif()

if(NOT TARGET wargnifla::shared)
  add_library(wargnifla::shared SHARED IMPORTED)
  set_target_properties(wargnifla::shared PROPERTIES
    IMPORTED_LOCATION "${_wargnifla_prefix}/lib/libwargnifla.so"
    INTERFACE_INCLUDE_DIRECTORIES "${_wargnifla_prefix}/include")
endif()

unset(_wargnifla_prefix)
