# The port of this repository, or of its archive of assembly, as a directory for vcpkg's option
# --overlay-ports. It builds the archive from asm/; the target is unix_path::static.
vcpkg_check_linkage(ONLY_STATIC_LIBRARY)
get_filename_component(SOURCE_PATH "${CURRENT_PORT_DIR}/../.." ABSOLUTE)
vcpkg_cmake_configure(SOURCE_PATH "${SOURCE_PATH}" OPTIONS -DUNIX_PATH_SHARED=OFF)
vcpkg_cmake_install()
vcpkg_cmake_config_fixup(PACKAGE_NAME unix_path CONFIG_PATH lib/cmake/unix_path)
# The file has moved to share/unix_path, from where it has to find the library.
vcpkg_replace_string("${CURRENT_PACKAGES_DIR}/share/unix_path/unix_path-config.cmake"
    "{CMAKE_CURRENT_LIST_DIR}/../.." "{CMAKE_CURRENT_LIST_DIR}/../../lib")
vcpkg_fixup_pkgconfig()
file(REMOVE_RECURSE "${CURRENT_PACKAGES_DIR}/debug/include" "${CURRENT_PACKAGES_DIR}/debug/share"
    "${CURRENT_PACKAGES_DIR}/share/doc")
vcpkg_install_copyright(FILE_LIST
    "${SOURCE_PATH}/LICENSE-APACHE" "${SOURCE_PATH}/LICENSE-MIT" "${SOURCE_PATH}/asm/NOTICES.txt")
