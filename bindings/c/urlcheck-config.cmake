# The library for CMake: find_package(urlcheck) gives the targets urlcheck::urlcheck, the shared library, and
# urlcheck::static, the archive. All is found from this file's own folder, which is LIB/cmake/urlcheck.
get_filename_component(urlcheck_LIBRARY_DIR "${CMAKE_CURRENT_LIST_DIR}/../.." ABSOLUTE)
find_path(urlcheck_INCLUDE_DIR urlcheck.h
    PATHS "${urlcheck_LIBRARY_DIR}/../include" "${urlcheck_LIBRARY_DIR}/../../include" NO_DEFAULT_PATH NO_CACHE REQUIRED)

if(NOT TARGET urlcheck::urlcheck)
    add_library(urlcheck::urlcheck SHARED IMPORTED)
    add_library(urlcheck::static STATIC IMPORTED)
    set_target_properties(urlcheck::urlcheck PROPERTIES IMPORTED_LOCATION "${urlcheck_LIBRARY_DIR}/liburlcheck.so")
    set_target_properties(urlcheck::static PROPERTIES IMPORTED_LOCATION "${urlcheck_LIBRARY_DIR}/liburlcheck.a")
    set_target_properties(urlcheck::urlcheck urlcheck::static PROPERTIES
        INTERFACE_INCLUDE_DIRECTORIES "${urlcheck_INCLUDE_DIR}")
endif()
