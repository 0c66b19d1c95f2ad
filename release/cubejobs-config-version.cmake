# A program that asks for a version takes one with the same first two parts, not earlier. A version with -dev counts as
# earlier than the one that it leads to: ./install writes it above so.
if(PACKAGE_FIND_VERSION)
  string(FIND "${PACKAGE_FIND_VERSION}." "${CUBEJOBS_INTERFACE}." CUBEJOBS_AT)
  if(CUBEJOBS_AT EQUAL 0 AND NOT PACKAGE_VERSION VERSION_LESS PACKAGE_FIND_VERSION)
    set(PACKAGE_VERSION_COMPATIBLE TRUE)
  endif()
  if(PACKAGE_VERSION VERSION_EQUAL PACKAGE_FIND_VERSION)
    set(PACKAGE_VERSION_EXACT TRUE)
  endif()
endif()
