#!/usr/bin/env python3
"""Lays out the library for C in a folder, from its archive. Nothing is proved here: ./build proves the archive, and calls this.

    packaging/layout.py ARCHIVE FOLDER
    packaging/layout.py --bench FOLDER COMPILER..    only the bench's two archives, compiled with this command

The folder gets:

    lib/libtmwatch.a              the archive
    lib/libtmwatch.so.VERSION     the same as a shared library, which programs load as libtmwatch.so.0
    lib/libtmwatch.so.0           a link to it
    lib/libtmwatch.so             a link to that, for -ltmwatch; in this repository both are copies, because the kit's gate refuses links
    bin/tmwatch-bench             the bench for stores in any language
    lib/libtmwatch_bench.a        the bench for memories in C, which no proof covers
    lib/libtmwatch_steps.a        its steps for memories that are compiled with -fsanitize=thread
    lib/pkgconfig, lib/cmake      the packages for pkg-config and CMake (found.py)
    include                       the headers, and in tmwatch those of examples

Exit status: 0 if all files are there, 1 if a tool failed, 2 for other arguments.
Environment: CC (cc), which compiles the bench and links the shared library.
"""
import os
import shutil
import subprocess
import sys
import tempfile

from found import TOP, packages, read_version

# What a program that is linked against the library loads. The number goes up when a program that was linked before no longer runs.
SONAME = "libtmwatch.so.0"
# What the archives of the bench are made from, in bench-c.
ARCHIVES = {
    "libtmwatch_bench.a": ("tmwatch_bench", "instrumented/waits"),
    "libtmwatch_steps.a": ("instrumented/accesses", "instrumented/accesses_16", "instrumented/block_frees", "instrumented/orders"),
}


def put(one, to):
    """Copies a file or a link there by one step, so that no other call meets half of it. A link is copied as a file in this repository,
    where the kit's gate refuses links."""
    os.makedirs(os.path.dirname(to), exist_ok=True)
    if os.path.lexists(f"{to}.new"):
        os.remove(f"{to}.new")
    shutil.copy(one, f"{to}.new", follow_symlinks=os.path.realpath(os.path.dirname(to)).startswith(f"{TOP}/"))
    os.replace(f"{to}.new", to)


def link_shared(room, call):
    """Links the shared library from the archive in the room, and makes its links."""
    shared = f"libtmwatch.so.{read_version()}"
    with open(f"{room}/exports", "w", encoding="utf-8") as it:
        it.write("{ global: tmwatch_*; local: *; };\n")
    words = [f"-Wl,-soname,{SONAME}", "-Wl,--version-script=exports", "-Wl,--whole-archive", "lib/libtmwatch.a", "-Wl,--no-whole-archive"]
    call([os.environ.get("CC", "cc"), "-shared", "-o", f"lib/{shared}", *words], cwd=room)
    os.symlink(shared, f"{room}/lib/{SONAME}")
    os.symlink(SONAME, f"{room}/lib/libtmwatch.so")


def build_bench(compiler, to, room, call):
    """Compiles the bench for memories in C into archives of its own, so that the library's has nothing but what is proved."""
    for archive, files in ARCHIVES.items():
        objects = [f"{os.path.basename(name)}.o" for name in files]
        for name, to_object in zip(files, objects):
            call([*compiler, "-c", "-o", to_object, f"{TOP}/bench-c/{name}.c"], cwd=room)
        call(["ar", "rcs", archive, *objects], cwd=room)
        put(f"{room}/{archive}", f"{to}/{archive}")


def build_lines(room, call):
    """Compiles the bench by lines over the archives in the room."""
    os.makedirs(f"{room}/bin")
    sources = sorted(f"{TOP}/bench-lines/{name}" for name in os.listdir(f"{TOP}/bench-lines") if name.endswith(".c"))
    cc = [os.environ.get("CC", "cc"), "-std=gnu11", "-O2", "-pthread", f"-I{TOP}/include", *sources]
    call([*cc, "-s", "-o", "bin/tmwatch-bench", "lib/libtmwatch_bench.a", "lib/libtmwatch.a"], cwd=room)


def walk(folder):
    """Yields each file below a folder, by its path from there."""
    for at, _, files in os.walk(folder):
        yield from (os.path.relpath(f"{at}/{name}", folder) for name in files)


def lay_out(archive, to, call):
    """Puts the library of this archive, the bench, headers and packages into the folder. `call` runs a tool, by words and a folder."""
    with tempfile.TemporaryDirectory(prefix="tmwatch-layout-") as room:
        os.mkdir(f"{room}/lib")
        shutil.copyfile(archive, f"{room}/lib/libtmwatch.a")
        link_shared(room, call)
        version = f'-DTMWATCH_VERSION="{read_version()}"'
        compiler = [os.environ.get("CC", "cc"), "-std=c11", "-O2", "-fPIC", "-pthread", f"-I{TOP}/include", version]
        with tempfile.TemporaryDirectory(dir=room) as objects:
            build_bench(compiler, f"{room}/lib", objects, call)
        build_lines(room, call)
        for path, text in packages():
            os.makedirs(os.path.dirname(f"{room}/lib/{path}"), exist_ok=True)
            with open(f"{room}/lib/{path}", "w", encoding="utf-8") as it:
                it.write(text)
        for name in ("bin", "lib"):
            for path in walk(f"{room}/{name}"):
                put(f"{room}/{name}/{path}", f"{to}/{name}/{path}")
    for path in walk(f"{TOP}/include"):
        put(f"{TOP}/include/{path}", f"{to}/include/{path}")


def run(tool, cwd):
    subprocess.run(tool, cwd=cwd, check=True)


def main(words):
    if len(words) < 2 or (words[0] == "--bench") != (len(words) > 2):
        print(__doc__, end="", file=sys.stderr)
        return 2
    try:
        if words[0] == "--bench":
            with tempfile.TemporaryDirectory(prefix="tmwatch-layout-") as room:
                build_bench(words[2:], words[1], room, run)
        else:
            lay_out(*words, run)
    except (OSError, subprocess.CalledProcessError) as error:
        print(f"packaging/layout.py: {error}", file=sys.stderr)
        return 1
    return 0


if __name__ == "__main__":
    sys.exit(main(sys.argv[1:]))
