# Targets: prep::static and prep::shared; prep::prep is the shared one if BUILD_SHARED_LIBS is on, else the static one.
get_filename_component(PREP_PREFIX "${CMAKE_CURRENT_LIST_DIR}/../../.." ABSOLUTE)

if(NOT TARGET prep::prep)
  add_library(prep::static STATIC IMPORTED)
  set_target_properties(prep::static PROPERTIES
    IMPORTED_LOCATION "${PREP_PREFIX}/lib/libprep.a"
    INTERFACE_INCLUDE_DIRECTORIES "${PREP_PREFIX}/include")

  add_library(prep::shared SHARED IMPORTED)
  set_target_properties(prep::shared PROPERTIES
    IMPORTED_LOCATION "${PREP_PREFIX}/lib/libprep.so.@VERSION@"
    IMPORTED_SONAME "libprep.so.@MAJOR@"
    INTERFACE_INCLUDE_DIRECTORIES "${PREP_PREFIX}/include")

  add_library(prep::prep INTERFACE IMPORTED)
  if(BUILD_SHARED_LIBS)
    set_property(TARGET prep::prep PROPERTY INTERFACE_LINK_LIBRARIES prep::shared)
  else()
    set_property(TARGET prep::prep PROPERTY INTERFACE_LINK_LIBRARIES prep::static)
  endif()
endif()
