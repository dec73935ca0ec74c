# find_package(rtp_wire) of what bindings/package.sh packs for Windows: rtp_wire::rtp_wire, which is the DLL, or the static
# library where rtp_wire_USE_STATIC_LIBS is set before; and rtp_wire::static. For MSVC, clang and MinGW on x86-64.
if(NOT TARGET rtp_wire::rtp_wire)
  get_filename_component(_rtp_wire "${CMAKE_CURRENT_LIST_DIR}/../../.." ABSOLUTE)
  add_library(rtp_wire::static STATIC IMPORTED)
  set_target_properties(rtp_wire::static PROPERTIES
    IMPORTED_LOCATION "${_rtp_wire}/lib/rtp_wire_static.lib"
    INTERFACE_INCLUDE_DIRECTORIES "${_rtp_wire}/include")
  if(rtp_wire_USE_STATIC_LIBS)
    add_library(rtp_wire::rtp_wire INTERFACE IMPORTED)
    set_target_properties(rtp_wire::rtp_wire PROPERTIES INTERFACE_LINK_LIBRARIES rtp_wire::static)
  else()
    add_library(rtp_wire::rtp_wire SHARED IMPORTED)
    set_target_properties(rtp_wire::rtp_wire PROPERTIES
      IMPORTED_LOCATION "${_rtp_wire}/bin/rtp_wire.dll"
      IMPORTED_IMPLIB "${_rtp_wire}/lib/rtp_wire.lib"
      INTERFACE_INCLUDE_DIRECTORIES "${_rtp_wire}/include")
  endif()
  unset(_rtp_wire)
endif()
