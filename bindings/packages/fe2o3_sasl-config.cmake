# find_package(fe2o3_sasl): the targets fe2o3_sasl::fe2o3_sasl, the shared library, and fe2o3_sasl::fe2o3_sasl_static. The
# libraries are two folders above this file, wherever that is.
get_filename_component(fe2o3_sasl_libraries "${CMAKE_CURRENT_LIST_DIR}" REALPATH)
get_filename_component(fe2o3_sasl_libraries "${fe2o3_sasl_libraries}/../.." ABSOLUTE)
get_filename_component(fe2o3_sasl_headers "${fe2o3_sasl_libraries}/@INCLUDE@" ABSOLUTE)
if(NOT TARGET fe2o3_sasl::fe2o3_sasl)
    add_library(fe2o3_sasl::fe2o3_sasl SHARED IMPORTED)
    set_target_properties(fe2o3_sasl::fe2o3_sasl PROPERTIES
        IMPORTED_LOCATION "${fe2o3_sasl_libraries}/@SONAME@" IMPORTED_SONAME @SONAME@
        INTERFACE_INCLUDE_DIRECTORIES "${fe2o3_sasl_headers}")
    add_library(fe2o3_sasl::fe2o3_sasl_static STATIC IMPORTED)
    set_target_properties(fe2o3_sasl::fe2o3_sasl_static PROPERTIES
        IMPORTED_LOCATION "${fe2o3_sasl_libraries}/libfe2o3_sasl.a"
        INTERFACE_INCLUDE_DIRECTORIES "${fe2o3_sasl_headers}")
endif()
unset(fe2o3_sasl_libraries)
unset(fe2o3_sasl_headers)
