# Which versions this one can take the place of: before 1.0 those of one minor version, up to it.
set(PACKAGE_VERSION @VERSION@)
string(REGEX MATCH "^[0-9]+\\.[0-9]+" fe2o3_sasl_minor ${PACKAGE_VERSION})
if(NOT PACKAGE_FIND_VERSION VERSION_GREATER PACKAGE_VERSION
   AND "${PACKAGE_FIND_VERSION}." MATCHES "^${fe2o3_sasl_minor}\\.")
    set(PACKAGE_VERSION_COMPATIBLE TRUE)
endif()
if(PACKAGE_FIND_VERSION VERSION_EQUAL PACKAGE_VERSION)
    set(PACKAGE_VERSION_EXACT TRUE)
endif()
if(NOT CMAKE_SIZEOF_VOID_P EQUAL 8 OR NOT CMAKE_SYSTEM_NAME STREQUAL "Linux")
    set(PACKAGE_VERSION_UNSUITABLE TRUE)
endif()
unset(fe2o3_sasl_minor)
