# The shared library, dumarewhi::dumarewhi, and the static one, dumarewhi::static.
if(NOT TARGET dumarewhi::dumarewhi)
  get_filename_component(DUMAREWHI_PREFIX "${CMAKE_CURRENT_LIST_DIR}/../../.." ABSOLUTE)
  add_library(dumarewhi::dumarewhi SHARED IMPORTED)
  set_target_properties(dumarewhi::dumarewhi PROPERTIES
    IMPORTED_LOCATION "${DUMAREWHI_PREFIX}/lib/libdumarewhi.so"
    INTERFACE_INCLUDE_DIRECTORIES "${DUMAREWHI_PREFIX}/include")
  add_library(dumarewhi::static STATIC IMPORTED)
  set_target_properties(dumarewhi::static PROPERTIES
    IMPORTED_LOCATION "${DUMAREWHI_PREFIX}/lib/libdumarewhi.a"
    INTERFACE_INCLUDE_DIRECTORIES "${DUMAREWHI_PREFIX}/include")
endif()
