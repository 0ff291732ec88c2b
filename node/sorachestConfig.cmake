# find_package(sorachest) gives the target sorachest::node.
get_filename_component(_sorachest_prefix "${CMAKE_CURRENT_LIST_DIR}/../../.." ABSOLUTE)
if(NOT TARGET sorachest::node)
    add_library(sorachest::node STATIC IMPORTED)
    set_target_properties(sorachest::node PROPERTIES
        IMPORTED_LOCATION "${_sorachest_prefix}/lib/libsorachest_node.a"
        INTERFACE_INCLUDE_DIRECTORIES "${_sorachest_prefix}/include")
endif()
unset(_sorachest_prefix)
