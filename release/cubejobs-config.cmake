# Defines cubejobs::fit, cubejobs::plan, cubejobs::sched, cubejobs::regions, cubejobs::lanes and cubejobs::rounds, the
# shared objects, and the same names with _static for the archives. The components are these names without cubejobs::. The
# lines above are of the installation: CUBEJOBS_WAY leads from this file to the headers, so all of it may be moved.
find_package(Threads REQUIRED)
get_filename_component(CUBEJOBS_LIBRARIES "${CMAKE_CURRENT_LIST_DIR}/../.." ABSOLUTE)
get_filename_component(CUBEJOBS_INCLUDE "${CMAKE_CURRENT_LIST_DIR}/${CUBEJOBS_WAY}" ABSOLUTE)
if(NOT EXISTS "${CUBEJOBS_INCLUDE}/cubejobs.h")
  # CMake came here by a symbolic link, such as /lib to /usr/lib.
  get_filename_component(CUBEJOBS_INCLUDE "${CMAKE_CURRENT_LIST_DIR}" REALPATH)
  get_filename_component(CUBEJOBS_INCLUDE "${CUBEJOBS_INCLUDE}/${CUBEJOBS_WAY}" ABSOLUTE)
endif()
if(NOT EXISTS "${CUBEJOBS_INCLUDE}/cubejobs.h")
  set(cubejobs_FOUND FALSE)
  set(cubejobs_NOT_FOUND_MESSAGE "The headers of cubejobs are not where ./install put them: ${CUBEJOBS_INCLUDE}")
  return()
endif()
foreach(name fit plan sched regions lanes rounds)
  if(NOT TARGET cubejobs::${name})
    add_library(cubejobs::${name} SHARED IMPORTED)
    set_target_properties(cubejobs::${name} PROPERTIES
      IMPORTED_LOCATION "${CUBEJOBS_LIBRARIES}/libcubejobs_${name}.so"
      IMPORTED_SONAME "libcubejobs_${name}.so.${CUBEJOBS_INTERFACE}"
      INTERFACE_INCLUDE_DIRECTORIES "${CUBEJOBS_INCLUDE}"
      INTERFACE_LINK_LIBRARIES Threads::Threads)
    add_library(cubejobs::${name}_static STATIC IMPORTED)
    set_target_properties(cubejobs::${name}_static PROPERTIES
      IMPORTED_LOCATION "${CUBEJOBS_LIBRARIES}/libcubejobs_${name}.a"
      INTERFACE_INCLUDE_DIRECTORIES "${CUBEJOBS_INCLUDE}"
      INTERFACE_LINK_LIBRARIES Threads::Threads)
  endif()
endforeach()
foreach(component IN LISTS cubejobs_FIND_COMPONENTS)
  if(TARGET cubejobs::${component})
    set(cubejobs_${component}_FOUND TRUE)
  else()
    set(cubejobs_${component}_FOUND FALSE)
    if(cubejobs_FIND_REQUIRED_${component})
      set(cubejobs_FOUND FALSE)
      set(cubejobs_NOT_FOUND_MESSAGE "cubejobs has no component ${component}, but fit, plan, sched, regions, lanes and rounds")
    endif()
  endif()
endforeach()
