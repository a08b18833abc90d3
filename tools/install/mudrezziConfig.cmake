# The library for C and C++ as a target of CMake:
#
#     find_package(mudrezzi REQUIRED)
#     target_link_libraries(NAME PRIVATE mudrezzi::modbus_c)
get_filename_component(MUDREZZI_PREFIX "${CMAKE_CURRENT_LIST_DIR}/../../.." ABSOLUTE)

if(NOT TARGET mudrezzi::modbus_c)
    add_library(mudrezzi::modbus_c STATIC IMPORTED)
    set_target_properties(mudrezzi::modbus_c PROPERTIES
        IMPORTED_LOCATION "${MUDREZZI_PREFIX}/lib/libmodbus_c.a"
        INTERFACE_INCLUDE_DIRECTORIES "${MUDREZZI_PREFIX}/include;${MUDREZZI_PREFIX}/include/mudrezzi"
        INTERFACE_LINK_LIBRARIES "${MUDREZZI_PREFIX}/lib/libmodbus_c_malloc.a")
endif()
