# SPDX-License-Identifier: Apache-2.0
# For find_package(hll). The libraries are two folders above this file, and the headers are in the folder include of the prefix.
get_filename_component(HLL_LIBRARIES "${CMAKE_CURRENT_LIST_FILE}" REALPATH)
get_filename_component(HLL_LIBRARIES "${HLL_LIBRARIES}" DIRECTORY)
get_filename_component(HLL_LIBRARIES "${HLL_LIBRARIES}/../.." ABSOLUTE)
get_filename_component(HLL_INCLUDE "${HLL_LIBRARIES}/../include" ABSOLUTE)
if(NOT EXISTS "${HLL_INCLUDE}/hll/hll.h") # the libraries are in a folder for the processor, such as lib/x86_64-linux-gnu
  get_filename_component(HLL_INCLUDE "${HLL_LIBRARIES}/../../include" ABSOLUTE)
endif()
include("${CMAKE_CURRENT_LIST_DIR}/hllTargets.cmake")
