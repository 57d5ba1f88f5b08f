# What `cmake --install BUILD --prefix PREFIX` writes: headers, archive, the command, documents, and the files that let CMake and pkg-config find them.
# These files use relative paths, so the prefix may be chosen, or everything moved, after the build.
include(CMakePackageConfigHelpers)

# From the folder of the pkg-config file to the headers; an absolute path stays absolute.
if(IS_ABSOLUTE "${CMAKE_INSTALL_LIBDIR}" OR IS_ABSOLUTE "${CMAKE_INSTALL_INCLUDEDIR}")
  set(pc_includedir "${CMAKE_INSTALL_FULL_INCLUDEDIR}")
else()
  file(RELATIVE_PATH pc_includedir "/${CMAKE_INSTALL_LIBDIR}/pkgconfig" "/${CMAKE_INSTALL_INCLUDEDIR}")
  set(pc_includedir "\${pcfiledir}/${pc_includedir}")
endif()
set(pc_libs "-L\${libdir} -l:libhmcs.a -Wl,--exclude-libs,libhmcs.a")
configure_file(hmcs.pc.in hmcs.pc @ONLY)
set(pc_libs "-L\${libdir} -lhmcs")
configure_file(hmcs.pc.in hmcs-shared.pc @ONLY)
write_basic_package_version_file(hmcsConfigVersion.cmake COMPATIBILITY SameMajorVersion)

set(package "${CMAKE_INSTALL_LIBDIR}/cmake/hmcs")
install(FILES include/hmcs.h include/hmcs.hpp include/hmcs_trace.hpp include/hmcs_lock.hpp DESTINATION "${CMAKE_INSTALL_INCLUDEDIR}")
install(FILES "${CMAKE_CURRENT_BINARY_DIR}/libhmcs.a" DESTINATION "${CMAKE_INSTALL_LIBDIR}")
install(TARGETS hmcs_tool RUNTIME DESTINATION "${CMAKE_INSTALL_BINDIR}")
install(FILES ../docs/hmcs.1 DESTINATION "${CMAKE_INSTALL_MANDIR}/man1")
install(FILES ../docs/SPECIFICATION.md ../docs/RATE.md ../docs/CPP.md DESTINATION "${CMAKE_INSTALL_DOCDIR}")
install(FILES "${CMAKE_CURRENT_BINARY_DIR}/hmcs.pc" "${CMAKE_CURRENT_BINARY_DIR}/hmcs-shared.pc" DESTINATION "${CMAKE_INSTALL_LIBDIR}/pkgconfig")
install(FILES "${CMAKE_CURRENT_BINARY_DIR}/hmcsConfigVersion.cmake" DESTINATION "${package}")
install(TARGETS hmcs hmcs_shared EXPORT hmcs LIBRARY DESTINATION "${CMAKE_INSTALL_LIBDIR}")
install(EXPORT hmcs NAMESPACE hmcs:: FILE hmcsConfig.cmake DESTINATION "${package}")
# Python finds the library and the command relative to the package.
install(DIRECTORY python/hmcs DESTINATION "lib/python3/dist-packages" FILES_MATCHING PATTERN "*.py" PATTERN "py.typed")
