# find_package(ceromby) gives the target ceromby::ceromby. The files lie in lib/cmake/ceromby of the prefix, wherever that is.
get_filename_component(_ceromby_prefix "${CMAKE_CURRENT_LIST_DIR}/../../.." ABSOLUTE)
if(NOT TARGET ceromby::ceromby)
  add_library(ceromby::ceromby STATIC IMPORTED)
  set_target_properties(ceromby::ceromby PROPERTIES
    IMPORTED_LOCATION "${_ceromby_prefix}/lib/libceromby.a"
    INTERFACE_INCLUDE_DIRECTORIES "${_ceromby_prefix}/include")
endif()
unset(_ceromby_prefix)
