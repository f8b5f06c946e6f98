# The library of AtomFS, for find_package(atomfs): the target atomfs::atomfs is the shared object, atomfs::static the archive.
get_filename_component(_atomfs_prefix "${CMAKE_CURRENT_LIST_DIR}/../../.." ABSOLUTE)

if(NOT TARGET atomfs::atomfs)
  add_library(atomfs::atomfs SHARED IMPORTED)
  set_target_properties(atomfs::atomfs PROPERTIES
    IMPORTED_LOCATION "${_atomfs_prefix}/lib/libatomfs.so.@SERIES@"
    IMPORTED_SONAME "libatomfs.so.@SERIES@"
    INTERFACE_INCLUDE_DIRECTORIES "${_atomfs_prefix}/include")
endif()

if(NOT TARGET atomfs::static)
  add_library(atomfs::static STATIC IMPORTED)
  set_target_properties(atomfs::static PROPERTIES
    IMPORTED_LOCATION "${_atomfs_prefix}/lib/libatomfs.a"
    INTERFACE_LINK_LIBRARIES "-pthread"
    INTERFACE_INCLUDE_DIRECTORIES "${_atomfs_prefix}/include")
endif()

unset(_atomfs_prefix)
