# SPDX-License-Identifier: Apache-2.0
# The targets of libhll. HLL_INCLUDE is the folder of the headers and HLL_LIBRARIES that of the libraries.
#
#   hll::hll           the shared library, or the static one if BUILD_SHARED_LIBS is set to OFF
#   hll::hll_shared    libhll.so, on macOS libhll.dylib, on Windows hll.dll
#   hll::hll_static    libhll.a
if(APPLE)
  set(HLL_SHARED libhll.0.dylib)
  set(HLL_SONAME "@rpath/libhll.0.dylib")
elseif(WIN32)
  set(HLL_SHARED hll.dll)
else()
  set(HLL_SHARED libhll.so.0)
  set(HLL_SONAME libhll.so.0)
endif()
if(NOT TARGET hll::hll)
  add_library(hll::hll_shared SHARED IMPORTED GLOBAL)
  set_target_properties(hll::hll_shared PROPERTIES IMPORTED_LOCATION "${HLL_LIBRARIES}/${HLL_SHARED}"
    INTERFACE_INCLUDE_DIRECTORIES "${HLL_INCLUDE}")
  if(WIN32)
    set_target_properties(hll::hll_shared PROPERTIES IMPORTED_IMPLIB "${HLL_LIBRARIES}/libhll.dll.a")
  else()
    set_target_properties(hll::hll_shared PROPERTIES IMPORTED_SONAME "${HLL_SONAME}")
  endif()
  add_library(hll::hll_static STATIC IMPORTED GLOBAL)
  set_target_properties(hll::hll_static PROPERTIES IMPORTED_LOCATION "${HLL_LIBRARIES}/libhll.a"
    INTERFACE_INCLUDE_DIRECTORIES "${HLL_INCLUDE}")
  add_library(hll::hll INTERFACE IMPORTED GLOBAL)
  if(DEFINED BUILD_SHARED_LIBS AND NOT BUILD_SHARED_LIBS)
    set_target_properties(hll::hll PROPERTIES INTERFACE_LINK_LIBRARIES hll::hll_static)
  else()
    set_target_properties(hll::hll PROPERTIES INTERFACE_LINK_LIBRARIES hll::hll_shared)
  endif()
endif()
