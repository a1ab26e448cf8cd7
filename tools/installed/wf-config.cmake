# find_package(wf) provides wf::wf, the shared library, and wf::wf_static, the static one. Both are found from the place of this file, so the
# prefix may be moved. They need only the C library. wf_PROVED says whether the library is proved: yes or no.
set(wf_PROVED @PROVED@)
get_filename_component(_wf_prefix "${CMAKE_CURRENT_LIST_DIR}/../../.." ABSOLUTE)

foreach(_wf_file "lib/libwf.so.@VERSION@" "lib/libwf.a" "include/wf.h")
  if(NOT EXISTS "${_wf_prefix}/${_wf_file}")
    set(wf_FOUND FALSE)
    set(wf_NOT_FOUND_MESSAGE "there is no ${_wf_prefix}/${_wf_file}")
    return()
  endif()
endforeach()

if(NOT TARGET wf::wf)
  add_library(wf::wf SHARED IMPORTED)
  set_target_properties(wf::wf PROPERTIES
    IMPORTED_LOCATION "${_wf_prefix}/lib/libwf.so.@VERSION@"
    IMPORTED_SONAME "libwf.so.@MAJOR@"
    INTERFACE_INCLUDE_DIRECTORIES "${_wf_prefix}/include")
endif()

if(NOT TARGET wf::wf_static)
  add_library(wf::wf_static STATIC IMPORTED)
  set_target_properties(wf::wf_static PROPERTIES
    IMPORTED_LOCATION "${_wf_prefix}/lib/libwf.a"
    IMPORTED_LINK_INTERFACE_LANGUAGES "C"
    INTERFACE_INCLUDE_DIRECTORIES "${_wf_prefix}/include")
endif()

unset(_wf_file)
unset(_wf_prefix)
