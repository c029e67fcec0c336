"""The recipe of this repository, or of its archive of assembly: `conan create packaging/conan`.

It builds the library from asm/. The target is unix_path::static, or unix_path::unix_path with the
option shared.
"""
import os
import re

from conan import ConanFile
from conan.errors import ConanInvalidConfiguration
from conan.tools.cmake import CMake, CMakeDeps, CMakeToolchain
from conan.tools.files import copy, load, rmdir


class UnixPath(ConanFile):
    """The library for C and C++."""
    name = "unix_path"
    description = "Unix paths as plain bytes, whose calls are proved"
    license = "MIT OR Apache-2.0"
    topics = ("path", "unix", "verified")
    package_type = "library"
    settings = "os", "arch", "compiler", "build_type"
    options = {"shared": [True, False]}
    default_options = {"shared": False}
    languages = "C"

    def set_version(self):
        text = load(self, os.path.join(self.recipe_folder, "../../include/unix_path.h"))
        self.version = re.search(r'define UNIX_PATH_VERSION "(.*)"', text)[1] + ".0"

    def export_sources(self):
        top = os.path.join(self.recipe_folder, "../..")
        for pattern in ("CMakeLists.txt", "LICENSE-*", "asm/*", "crates/unix_path_c/calls.map",
                        "include/*", "packaging/*.in"):
            copy(self, pattern, top, self.export_sources_folder)

    def validate(self):
        if self.settings.os != "Linux" or self.settings.arch not in ("x86_64", "armv8"):
            raise ConanInvalidConfiguration("asm/ has code for Linux on x86_64 and armv8")

    def generate(self):
        toolchain = CMakeToolchain(self)
        toolchain.cache_variables["UNIX_PATH_SHARED"] = bool(self.options.shared)
        toolchain.generate()
        CMakeDeps(self).generate()

    def build(self):
        cmake = CMake(self)
        cmake.configure()
        cmake.build()

    def package(self):
        CMake(self).install()
        for name in ("LICENSE-APACHE", "LICENSE-MIT", "asm/NOTICES.txt"):
            copy(self, name, self.source_folder, os.path.join(self.package_folder, "licenses"))
        if self.options.shared:
            os.remove(os.path.join(self.package_folder, "lib", "libunix_path.a"))
        for folder in ("share", "lib/cmake", "lib/pkgconfig"):
            rmdir(self, os.path.join(self.package_folder, folder))

    def package_info(self):
        self.cpp_info.libs = ["unix_path"]
        self.cpp_info.set_property("cmake_file_name", "unix_path")
        target = "unix_path" if self.options.shared else "static"
        self.cpp_info.set_property("cmake_target_name", f"unix_path::{target}")
        self.cpp_info.set_property("pkg_config_name", "unix_path")
