# Defines bumivondra::bumivondra, the library of one target with its headers. It is the target that BUMIVONDRA_TARGET names.
# Where that is not set, under Linux the compiler is asked which it is; a bare board's has to be named. lib/TARGETS lists
# all. The folder may be moved.
# usage: find_package(bumivondra REQUIRED)
#        target_link_libraries(my_board PRIVATE bumivondra::bumivondra)
cmake_policy(VERSION 3.10...3.25)

# Sets the variable to the target that the compiler works for, or to nothing if there is none for it.
function(_bumivondra_ask result)
  set(${result} "" PARENT_SCOPE)
  if(CMAKE_C_COMPILER_LOADED)
    set(file "${CMAKE_BINARY_DIR}/CMakeFiles/bumivondra/target.c")
  elseif(CMAKE_CXX_COMPILER_LOADED)
    set(file "${CMAKE_BINARY_DIR}/CMakeFiles/bumivondra/target.cpp")
  endif()
  if(NOT CMAKE_SYSTEM_NAME STREQUAL "Linux" OR NOT file)
    return()
  endif()
  # No compiler takes this file. Why not, it says with the target's name.
  file(WRITE "${file}" [[
#if !defined __linux__ || !defined __BYTE_ORDER__ || __BYTE_ORDER__ != __ORDER_LITTLE_ENDIAN__ || defined __ILP32__
#error bumivondra_target()
#elif defined __x86_64__
#error bumivondra_target(x86_64-linux-gnu)
#elif defined __aarch64__
#error bumivondra_target(aarch64-linux-gnu)
#elif defined __arm__ && defined __ARM_PCS_VFP && __ARM_ARCH >= 7
#error bumivondra_target(arm-linux-gnueabihf)
#elif defined __riscv && __riscv_xlen == 64 && defined __riscv_float_abi_double
#error bumivondra_target(riscv64-linux-gnu)
#else
#error bumivondra_target()
#endif
]])
  set(CMAKE_TRY_COMPILE_TARGET_TYPE STATIC_LIBRARY)
  try_compile(_bumivondra_taken "${CMAKE_BINARY_DIR}/CMakeFiles/bumivondra" SOURCES "${file}" OUTPUT_VARIABLE said)
  unset(_bumivondra_taken CACHE)
  if(said MATCHES "bumivondra_target\\(([a-z0-9_-]*)\\)")
    set(${result} "${CMAKE_MATCH_1}" PARENT_SCOPE)
  endif()
endfunction()

get_filename_component(_bumivondra_folder "${CMAKE_CURRENT_LIST_DIR}/.." ABSOLUTE)
if(NOT "${BUMIVONDRA_TARGET}" STREQUAL "")
  set(_bumivondra_target "${BUMIVONDRA_TARGET}")
  set(_bumivondra_why "BUMIVONDRA_TARGET is \"${BUMIVONDRA_TARGET}\", which is no target.")
else()
  _bumivondra_ask(_bumivondra_target)
  set(_bumivondra_why "BUMIVONDRA_TARGET is not set, and the target does not follow from the compiler.")
endif()

# Look for the target among those that there are.
set(_bumivondra_known FALSE)
set(_bumivondra_list "")
file(STRINGS "${_bumivondra_folder}/lib/TARGETS" _bumivondra_lines)
foreach(_bumivondra_line IN LISTS _bumivondra_lines)
  string(REGEX MATCH "^[^ ]+" _bumivondra_name "${_bumivondra_line}")
  if(_bumivondra_name STREQUAL _bumivondra_target)
    set(_bumivondra_known TRUE)
  endif()
  set(_bumivondra_list "${_bumivondra_list}\n  ${_bumivondra_line}")
endforeach()

if(_bumivondra_known)
  if(NOT TARGET bumivondra::bumivondra)
    add_library(bumivondra::bumivondra STATIC IMPORTED)
  endif()
  set_target_properties(bumivondra::bumivondra PROPERTIES
    IMPORTED_LOCATION "${_bumivondra_folder}/lib/${_bumivondra_target}/libbumivondra.a"
    IMPORTED_LINK_INTERFACE_LANGUAGES C
    INTERFACE_INCLUDE_DIRECTORIES "${_bumivondra_folder}/include")
  if(NOT ${CMAKE_FIND_PACKAGE_NAME}_FIND_QUIETLY)
    message(STATUS "bumivondra: the library for ${_bumivondra_target}")
  endif()
else()
  set(${CMAKE_FIND_PACKAGE_NAME}_FOUND FALSE)
  set(${CMAKE_FIND_PACKAGE_NAME}_NOT_FOUND_MESSAGE
    "bumivondra: ${_bumivondra_why} Set BUMIVONDRA_TARGET to one of these:${_bumivondra_list}")
endif()

foreach(_bumivondra_name IN ITEMS folder target why known list lines line)
  unset(_bumivondra_${_bumivondra_name})
endforeach()
unset(_bumivondra_name)
