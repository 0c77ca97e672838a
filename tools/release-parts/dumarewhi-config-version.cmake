# Calls may change in a MINOR version while MAJOR is 0, and else in a MAJOR version.
set(PACKAGE_VERSION "@VERSION@")
string(REGEX MATCH "^(0[.][0-9]+|[0-9]+)[.]" same "${PACKAGE_VERSION}")
string(FIND "${PACKAGE_FIND_VERSION}." "${same}" at)
if(at EQUAL 0 AND NOT PACKAGE_VERSION VERSION_LESS PACKAGE_FIND_VERSION)
  set(PACKAGE_VERSION_COMPATIBLE TRUE)
endif()
