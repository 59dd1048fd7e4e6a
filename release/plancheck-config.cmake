# Gives the library as plancheck::plancheck. PLANCHECK_TARGET names the folder of lib to take, such as
# thumbv7em-none-eabihf; without it, that of x86-64.
get_filename_component(plancheck_root "${CMAKE_CURRENT_LIST_DIR}/../../.." ABSOLUTE)
if(NOT PLANCHECK_TARGET)
    if(NOT CMAKE_SYSTEM_NAME STREQUAL "Linux" OR NOT CMAKE_SYSTEM_PROCESSOR STREQUAL "x86_64")
        set(plancheck_FOUND FALSE)
        set(plancheck_NOT_FOUND_MESSAGE "PLANCHECK_TARGET must name a folder of ${plancheck_root}/lib for this processor")
        return()
    endif()
    set(PLANCHECK_TARGET x86_64-unknown-linux-gnu)
endif()
set(plancheck_library "${plancheck_root}/lib/${PLANCHECK_TARGET}/libplancheck.a")
if(NOT EXISTS "${plancheck_library}")
    set(plancheck_FOUND FALSE)
    set(plancheck_NOT_FOUND_MESSAGE "there is no ${plancheck_library}")
    return()
endif()
if(NOT TARGET plancheck::plancheck)
    add_library(plancheck::plancheck STATIC IMPORTED)
    set_target_properties(plancheck::plancheck PROPERTIES
        IMPORTED_LOCATION "${plancheck_library}"
        INTERFACE_INCLUDE_DIRECTORIES "${plancheck_root}/include")
endif()
