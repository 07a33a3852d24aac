# SPDX-License-Identifier: Apache-2.0
# SPDX-FileCopyrightText: Copyright the Vortex contributors

# The targets vortex_logical_types::shared and vortex_logical_types::static, wherever the archive was unpacked.
get_filename_component(vortex_logical_types_PREFIX "${CMAKE_CURRENT_LIST_DIR}/../../.." ABSOLUTE)

if(NOT TARGET vortex_logical_types::shared)
  add_library(vortex_logical_types::shared SHARED IMPORTED)
  set_target_properties(vortex_logical_types::shared PROPERTIES
    IMPORTED_LOCATION "${vortex_logical_types_PREFIX}/lib/@SONAME@"
    IMPORTED_SONAME "@SONAME@"
    INTERFACE_INCLUDE_DIRECTORIES "${vortex_logical_types_PREFIX}/include")
endif()

if(NOT TARGET vortex_logical_types::static)
  add_library(vortex_logical_types::static STATIC IMPORTED)
  set_target_properties(vortex_logical_types::static PROPERTIES
    IMPORTED_LOCATION "${vortex_logical_types_PREFIX}/lib/libvortex_logical_types.a"
    INTERFACE_INCLUDE_DIRECTORIES "${vortex_logical_types_PREFIX}/include")
endif()
