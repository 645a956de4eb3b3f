# find_package(thymebarrel): the targets thymebarrel::thymebarrel (shared) and thymebarrel::static, wherever this folder was put.
get_filename_component(_thymebarrel_lib "${CMAKE_CURRENT_LIST_DIR}/../.." ABSOLUTE)
get_filename_component(_thymebarrel_prefix "${_thymebarrel_lib}/.." ABSOLUTE)
foreach(_thymebarrel_kind IN ITEMS thymebarrel static)
  if(NOT TARGET thymebarrel::${_thymebarrel_kind})
    if(_thymebarrel_kind STREQUAL "static")
      add_library(thymebarrel::static STATIC IMPORTED)
      set(_thymebarrel_file "${_thymebarrel_lib}/libthymebarrel.a")
    else()
      add_library(thymebarrel::thymebarrel SHARED IMPORTED)
      set(_thymebarrel_file "${_thymebarrel_lib}/libthymebarrel.so")
    endif()
    set_target_properties(thymebarrel::${_thymebarrel_kind} PROPERTIES
      IMPORTED_LOCATION "${_thymebarrel_file}"
      INTERFACE_INCLUDE_DIRECTORIES "${_thymebarrel_prefix}/include")
  endif()
endforeach()
