"""The packages for pkg-config and CMake, with which programs find the libraries. They are either for a folder, relative to which they find the
libraries, or for /usr.
"""
import os
import re

TOP = os.path.dirname(os.path.dirname(os.path.realpath(__file__)))


def read_version():
    """Returns the version that the program prints, by its specification."""
    with open(f"{TOP}/crates/tmw_command/specs/Version.antt", encoding="utf-8") as it:
        return re.search(r'"tmwatch ([0-9.]*), ', it.read())[1]


def wrap(kind):
    """Returns the words for the linker that wrap the names of this kind."""
    with open(f"{TOP}/packaging/wrapped.txt", encoding="ascii") as it:
        return ",".join(f"--wrap={name}" for line in it if line.startswith(f"{kind} ") for name in line.split()[1:])


# Each library: what it is, the words for the linker, and the one that it needs.
LIBRARIES = {
    "tmwatch": ("A watch that judges whether a transactional memory is opaque", "", ""),
    "tmwatch_bench": ("A bench that runs a transactional memory under such a watch", wrap("waits"), "tmwatch"),
    "tmwatch_steps": ("Steps of that bench at each access of a memory", f"-u,tmwatch_step_sees_free,{wrap('blocks')}", "tmwatch_bench"),
}
PACKAGE = """prefix={prefix}
includedir=${{prefix}}/include
libdir=${{prefix}}/{libraries}

Name: {name}
Description: {what}
Version: {version}
Cflags: -I${{includedir}}
Libs: -L${{libdir}} -l{linked}{words}
"""
# (pthread is in the C library, but the word is the compiler's too)
CMAKE = """# find_package(tmwatch): a program links tmwatch::tmwatch, tmwatch::tmwatch_bench or tmwatch::tmwatch_steps.
get_filename_component(tmwatch_libraries "${{CMAKE_CURRENT_LIST_DIR}}/../.." ABSOLUTE)
get_filename_component(tmwatch_include "${{tmwatch_libraries}}/{up}/include" ABSOLUTE)
if(NOT TARGET tmwatch::tmwatch)
{targets}endif()
"""
TARGET = """    add_library(tmwatch::{name} UNKNOWN IMPORTED)
    set_target_properties(tmwatch::{name} PROPERTIES
        IMPORTED_LOCATION "${{tmwatch_libraries}}/{file}"
        INTERFACE_INCLUDE_DIRECTORIES "${{tmwatch_include}}"
        INTERFACE_LINK_OPTIONS "{words}"
        INTERFACE_LINK_LIBRARIES "{needs}")
"""
CMAKE_VERSION = """set(PACKAGE_VERSION {version})
if(NOT PACKAGE_FIND_VERSION VERSION_GREATER PACKAGE_VERSION)
    set(PACKAGE_VERSION_COMPATIBLE TRUE)
endif()
if(PACKAGE_FIND_VERSION VERSION_EQUAL PACKAGE_VERSION)
    set(PACKAGE_VERSION_EXACT TRUE)
endif()
"""


def describe(name, prefix, libraries):
    """Returns a library's package for pkg-config. In a folder, which the system's loader doesn't know, what is proved is linked from its
    archive."""
    what, words, needs = LIBRARIES[name]
    linked = name if prefix or needs else f":lib{name}.a"
    words = (f" -pthread -Wl,{words}" if words else "") + (f"\nRequires: {needs}" if needs else "")
    where = prefix or "${pcfiledir}/../.."
    return PACKAGE.format(name=name, what=what, linked=linked, words=words, version=read_version(), prefix=where, libraries=libraries)


def describe_target(name, prefix):
    """Returns what CMake has to know of a library."""
    _, words, needs = LIBRARIES[name]
    file = f"lib{name}.a" if needs or not prefix else f"lib{name}.so"
    return TARGET.format(name=name, file=file, words=f"-pthread;LINKER:{words}" if words else "", needs=needs and f"tmwatch::{needs}")


def packages(prefix=None, libraries="lib"):
    """Yields each package's path below the folder of the libraries, and its text."""
    for name in LIBRARIES:
        yield f"pkgconfig/{name}.pc", describe(name, prefix, libraries)
    up = "/".join(".." for _ in libraries.split("/"))
    targets = "".join(describe_target(name, prefix) for name in LIBRARIES)
    yield "cmake/tmwatch/tmwatch-config.cmake", CMAKE.format(up=up, targets=targets)
    yield "cmake/tmwatch/tmwatch-config-version.cmake", CMAKE_VERSION.format(version=read_version())
