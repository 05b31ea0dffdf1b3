# Finds the library and its headers where this file is installed:
#
#     find_package(kozhvadi REQUIRED)
#     target_link_libraries(program PRIVATE kozhvadi::fluent)
#
# kozhvadi::fluent is the shared library, and kozhvadi::fluent_static the static one. Both bring the folder of fluent_c.h,
# fluent.h and fluent.hpp. In C++ the header needs C++17.
get_filename_component(_kozhvadi_prefix "${CMAKE_CURRENT_LIST_DIR}/../../.." ABSOLUTE)
find_package(Threads QUIET)

foreach(_kozhvadi_kind IN ITEMS SHARED STATIC)
    if(_kozhvadi_kind STREQUAL SHARED)
        set(_kozhvadi_target kozhvadi::fluent)
        set(_kozhvadi_file libfluent_c.so)
    else()
        set(_kozhvadi_target kozhvadi::fluent_static)
        set(_kozhvadi_file libfluent_c.a)
    endif()
    if(NOT TARGET ${_kozhvadi_target})
        add_library(${_kozhvadi_target} ${_kozhvadi_kind} IMPORTED)
        set_target_properties(${_kozhvadi_target} PROPERTIES
            IMPORTED_LOCATION "${_kozhvadi_prefix}/lib/${_kozhvadi_file}"
            IMPORTED_SONAME libfluent_c.so.0
            INTERFACE_INCLUDE_DIRECTORIES "${_kozhvadi_prefix}/include")
        # A compiler of C alone has no C++17.
        if(CMAKE_CXX_COMPILER)
            set_property(TARGET ${_kozhvadi_target} PROPERTY INTERFACE_COMPILE_FEATURES cxx_std_17)
        endif()
        if(TARGET Threads::Threads)
            set_property(TARGET ${_kozhvadi_target} PROPERTY INTERFACE_LINK_LIBRARIES Threads::Threads)
        endif()
    endif()
endforeach()
unset(_kozhvadi_prefix)
unset(_kozhvadi_kind)
unset(_kozhvadi_target)
unset(_kozhvadi_file)
