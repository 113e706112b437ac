"""The packages for Debian: their layout, their control files, and the archives themselves."""
import hashlib
import os
import re
import subprocess

import found
import layout
from tree import Tree

TOP = layout.TOP
# Where Debian has the libraries for this processor, below /usr.
LIBRARIES = "lib/x86_64-linux-gnu"
PROGRAM, LIBRARY, DEV = "tmwatch", layout.SONAME.replace(".so.", ""), "libtmwatch-dev"
MAINTAINER = "Valeearly maintainers <maintainers@users.noreply.valeearly.example>"
# What only one package has in its control file, and its description.
PACKAGES = {
    PROGRAM: (
        "Section: devel\nDepends: {libc}\n",
        "judges whether runs of transactional memories are opaque",
        """ The program reads the record of a run, every call and answer in order, and
 reports: opaque so far, violated or undecided. The pages and the examples, also
 those of the library, are here.
""",
    ),
    LIBRARY: (
        "Section: libs\nMulti-Arch: same\nDepends: {libc}\n",
        "watches whether a transactional memory is opaque",
        """ The library judges a memory in C or C++ within its own process, while its
 threads run.
""",
    ),
    DEV: (
        f"Section: libdevel\nMulti-Arch: same\nDepends: {LIBRARY} (= {{version}})\nRecommends: {PROGRAM}\n",
        "watches whether a transactional memory is opaque (development)",
        """ The headers and the static library are here, and a bench, which runs a memory
 in C or C++ in threads.
""",
    ),
}
CONTROL = """Package: {name}
Source: tmwatch
Version: {version}
Architecture: amd64
Maintainer: {maintainer}
Installed-Size: {size}
Priority: optional
{only}Description: {title}
 A transactional memory is opaque if every transaction, even one that aborts,
 sees only states that a one-at-a-time run could have shown it.
 .
{text}"""
CHANGES = """tmwatch ({version}) unstable; urgency=medium

  * /usr/share/tmwatch/CHANGELOG.md says what you can do.

 -- {maintainer}  {date}
"""
# The shared libraries of Debian's libc6.
LIBC = {"libc.so.6", "libm.so.6", "libpthread.so.0", "ld-linux-x86-64.so.2"}


class Unknown(Exception):
    """A library that no package is known to have."""


def place(path):
    """Returns the package that has a file of the archive, and its path there."""
    if path.startswith(("usr/lib/libtmwatch", "usr/lib/pkgconfig/", "usr/lib/cmake/")):
        return LIBRARY if ".so." in path else DEV, path.replace("usr/lib/", f"usr/{LIBRARIES}/")
    return DEV if path.startswith(("usr/include/", "usr/share/man/man3/")) else PROGRAM, path


def split(tree):
    """Returns the tree of each package."""
    trees = {name: Tree() for name in PACKAGES}
    for path, file in tree.files.items():
        name, to = place(path)
        trees[name].files[to] = file
    for path, link in tree.links.items():
        name, to = place(path)
        trees[name].links[to] = link
    for path, text in found.packages("/usr", LIBRARIES):
        trees[DEV].add(f"usr/{LIBRARIES}/{path}", text.encode())
    return trees


def read_libc(*binaries):
    """Returns the package of the C library, with the oldest version that has what these need."""
    said = "".join(subprocess.check_output(["readelf", "-W", "-d", "-V", it], text=True) for it in binaries)
    for name in re.findall(r"\(NEEDED\).*\[(.*)\]", said):
        if name not in LIBC:
            raise Unknown(f"no package is known to have {name}")
    least = max(tuple(map(int, it.split("."))) for it in re.findall(r"GLIBC_([0-9.]+)", said))
    return f"libc6 (>= {'.'.join(map(str, least))})"


def add_pages(tree, name, words):
    """Adds what each package has to have: its copyright and its changes, and what lintian is to pass over."""
    tree.add_file(f"usr/share/doc/{name}/copyright", f"{TOP}/packaging/copyright")
    tree.add_packed(f"usr/share/doc/{name}/changelog", CHANGES.format(**words).encode())
    with open(f"{TOP}/packaging/lintian-overrides", encoding="utf-8") as it:
        overrides = "".join(line for line in it if line.startswith(f"{name}: "))
    if overrides:
        tree.add(f"usr/share/lintian/overrides/{name}", overrides.encode())


def control_of(tree, name, words):
    """Returns the tree of a package's control archive."""
    only, title, text = PACKAGES[name]
    control, sums = Tree(), ((path, hashlib.md5(data).hexdigest()) for path, (_, data) in sorted(tree.files.items()))
    told = CONTROL.format(name=name, size=tree.size(), only=only.format(**words), title=title, text=text, **words)
    control.add("control", told.encode())
    control.add("md5sums", "".join(f"{total}  {path}\n" for path, total in sums).encode())
    if name == LIBRARY:
        control.add("shlibs", f"{layout.SONAME.replace('.so.', ' ')} {LIBRARY} (>= {words['version']})\n".encode())
        control.add("triggers", b"activate-noawait ldconfig\n")
    return control


def write_deb(path, members, seconds):
    """Writes a package: an archive, as ar(1) makes one, of these members."""
    with open(path, "wb") as it:
        it.write(b"!<arch>\n")
        for name, data in members:
            it.write(f"{name:<16}{seconds:<12}{0:<6}{0:<6}{0o100644:<8o}{len(data):<10}`\n".encode() + data + b"\n" * (len(data) % 2))


def write_debs(tree, to, binaries, seconds, date):
    """Writes all packages of the archive's tree into the folder."""
    words = {"version": found.read_version(), "maintainer": MAINTAINER, "date": date, "libc": read_libc(*binaries)}
    for name, own in split(tree).items():
        add_pages(own, name, words)
        control = control_of(own, name, words).pack(seconds)
        members = (("debian-binary", b"2.0\n"), ("control.tar.gz", control), ("data.tar.gz", own.pack(seconds)))
        write_deb(os.path.join(to, f"{name}_{words['version']}_amd64.deb"), members, seconds)
