# find_package(mcsim) makes the targets mcsim::mcsim, the shared library, and mcsim::static.
get_filename_component(_mcsim_prefix "${CMAKE_CURRENT_LIST_DIR}/../../.." ABSOLUTE)

if(NOT TARGET mcsim::mcsim)
  add_library(mcsim::mcsim SHARED IMPORTED)
  set_target_properties(mcsim::mcsim PROPERTIES
    IMPORTED_LOCATION "${_mcsim_prefix}/lib/libmcs.so.1"
    IMPORTED_SONAME "libmcs.so.1"
    INTERFACE_INCLUDE_DIRECTORIES "${_mcsim_prefix}/include")
endif()

if(NOT TARGET mcsim::static)
  add_library(mcsim::static STATIC IMPORTED)
  set_target_properties(mcsim::static PROPERTIES
    IMPORTED_LOCATION "${_mcsim_prefix}/lib/libmcs_c.a"
    INTERFACE_INCLUDE_DIRECTORIES "${_mcsim_prefix}/include")
endif()

unset(_mcsim_prefix)
