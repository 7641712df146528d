# find_package(Sigdorf), or find_package(sigdorf), gives two targets: Sigdorf::sigdorf, the shared object, and Sigdorf::archive, which needs nothing when it runs. The folder may be
# moved: all places are told from this file's own.
get_filename_component(_sigdorf_prefix "${CMAKE_CURRENT_LIST_DIR}/../../.." ABSOLUTE)
if(NOT TARGET Sigdorf::sigdorf)
  add_library(Sigdorf::sigdorf SHARED IMPORTED)
  set_target_properties(Sigdorf::sigdorf PROPERTIES
    IMPORTED_LOCATION "${_sigdorf_prefix}/lib/libsigdorf.so"
    IMPORTED_SONAME "libsigdorf.so.${${CMAKE_FIND_PACKAGE_NAME}_VERSION_MAJOR}"
    INTERFACE_INCLUDE_DIRECTORIES "${_sigdorf_prefix}/include")
  add_library(Sigdorf::archive STATIC IMPORTED)
  set_target_properties(Sigdorf::archive PROPERTIES
    IMPORTED_LOCATION "${_sigdorf_prefix}/lib/libsigdorf.a"
    INTERFACE_INCLUDE_DIRECTORIES "${_sigdorf_prefix}/include")
endif()
unset(_sigdorf_prefix)
