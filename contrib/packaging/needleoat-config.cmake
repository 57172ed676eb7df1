# find_package(needleoat) gives two targets:
#
#   needleoat::wire         the codecs, records and frames: libneedleoat_wire_c.a
#   needleoat::needleoat    both ends, and what is above: libneedleoat_c.a; the program links the three functions of
#                           memory of needleoat.h, as examples/heap.c has them
#
# NEEDLEOAT_PROCESSOR names the folder of lib/needleoat that is taken, as cortex-m4. Where it is not set, it is that of
# CMAKE_SYSTEM_PROCESSOR on Linux.
get_filename_component(_needleoat_prefix "${CMAKE_CURRENT_LIST_DIR}/../../.." ABSOLUTE)

set(_needleoat_processor "${NEEDLEOAT_PROCESSOR}")
if(NOT _needleoat_processor)
    if(CMAKE_SYSTEM_PROCESSOR MATCHES "^(x86_64|AMD64)$")
        set(_needleoat_processor x86-64)
    elseif(CMAKE_SYSTEM_PROCESSOR MATCHES "^(aarch64|arm64)$")
        set(_needleoat_processor aarch64)
    elseif(CMAKE_SYSTEM_PROCESSOR MATCHES "^armv7")
        set(_needleoat_processor armv7)
    endif()
endif()

set(_needleoat_folder "${_needleoat_prefix}/lib/needleoat/${_needleoat_processor}")
if(NOT _needleoat_processor OR NOT EXISTS "${_needleoat_folder}/libneedleoat_c.a")
    set(needleoat_FOUND FALSE)
    set(needleoat_NOT_FOUND_MESSAGE
        "NEEDLEOAT_PROCESSOR is '${_needleoat_processor}', and no folder of ${_needleoat_prefix}/lib/needleoat")
    return()
endif()

if(NOT TARGET needleoat::wire)
    add_library(needleoat::wire STATIC IMPORTED)
    set_target_properties(needleoat::wire PROPERTIES
        IMPORTED_LOCATION "${_needleoat_folder}/libneedleoat_wire_c.a"
        INTERFACE_INCLUDE_DIRECTORIES "${_needleoat_prefix}/include")
    add_library(needleoat::needleoat STATIC IMPORTED)
    set_target_properties(needleoat::needleoat PROPERTIES
        IMPORTED_LOCATION "${_needleoat_folder}/libneedleoat_c.a"
        INTERFACE_INCLUDE_DIRECTORIES "${_needleoat_prefix}/include"
        INTERFACE_LINK_LIBRARIES needleoat::wire)
endif()
