#!/usr/bin/env python3
"""Makes the root of a slim image of Debian from this machine's own files: its essential packages, some others, and their dependencies.

    tests/slim.py FOLDER PACKAGE..

The files that slim images leave out are left out, and dpkg leaves them out there too. No package is configured; only /etc/alternatives and
root exist.
Exit status: 0 if all files are there; 1 if a package is missing on this machine, which a line names.
"""
import fnmatch
import os
import re
import shutil
import subprocess
import sys

# As debian:bookworm-slim has it.
RULE = """path-exclude /usr/share/doc/*
path-include /usr/share/doc/*/copyright
path-exclude /usr/share/info/*
path-exclude /usr/share/linda/*
path-exclude /usr/share/lintian/overrides/*
path-exclude /usr/share/locale/*
path-exclude /usr/share/man/*
"""
FIELDS = "${Package}\t${Essential}\t${Pre-Depends}, ${Depends}\t${Provides}\t${db:Status-Abbrev}\n"
ALTERNATIVES = "/var/lib/dpkg/alternatives"


class Missing(Exception):
    """A package that this machine has not."""


def is_left_out(path):
    rules = [line.split() for line in RULE.splitlines()]
    found = [word for word, pattern in rules if fnmatch.fnmatchcase(path, pattern)]
    return "path-exclude" in found and "path-include" not in found


def names_of(relation):
    """Returns the names in a field of packages: of each clause, the names of which one suffices."""
    clauses = [re.sub(r"\([^)]*\)|:\w+", "", clause) for clause in relation.split(",")]
    return [[name.strip() for name in clause.split("|")] for clause in clauses if clause.strip()]


def close(wanted):
    """Returns these packages, the essential ones, and what they depend on."""
    lines = subprocess.check_output(["dpkg-query", "-W", "-f", FIELDS], text=True).splitlines()
    packages = {line[0]: line for line in (line.split("\t") for line in lines) if line[4].startswith("ii")}
    providers = {names[0]: name for name, line in packages.items() for names in names_of(line[3])}
    found, left = set(), [[name] for name in wanted] + [[name] for name, line in packages.items() if line[1] == "yes"]
    while left:
        names = left.pop()
        name = next((it for it in names if it in packages), None) or next((providers[it] for it in names if it in providers), None)
        if name is None:
            raise Missing(f"no package {' or '.join(names)} is installed here")
        if name not in found:
            found.add(name)
            left += names_of(packages[name][2])
    return sorted(found)


def copy(root, path):
    to = root + path
    if os.path.islink(path):
        if not os.path.lexists(to):
            os.symlink(os.readlink(path), to)
    elif os.path.isdir(path):
        os.makedirs(to, exist_ok=True)
    elif os.path.isfile(path):
        os.makedirs(os.path.dirname(to), exist_ok=True)
        shutil.copy(path, to)


def add_alternatives(root):
    """Adds the links by which Debian chooses one of several programs, if that is in the root."""
    for name in sorted(os.listdir(ALTERNATIVES)):
        with open(f"{ALTERNATIVES}/{name}", encoding="utf-8") as it:
            link = it.read().split("\n")[1]
        if os.path.exists(root + os.path.realpath(link)) and not os.path.lexists(root + link):
            os.makedirs(f"{root}/etc/alternatives", exist_ok=True)
            os.symlink(f"/etc/alternatives/{name}", root + link)
            os.symlink(os.path.realpath(link), f"{root}/etc/alternatives/{name}")


def add_database(root, packages):
    """Tells dpkg of the root which packages it has."""
    info = f"{root}/var/lib/dpkg/info"
    for folder in (info, f"{root}/var/lib/dpkg/updates", f"{root}/etc/dpkg/dpkg.cfg.d"):
        os.makedirs(folder, exist_ok=True)
    with open(f"{root}/var/lib/dpkg/status", "w", encoding="utf-8") as it:
        it.write("\n".join(subprocess.check_output(["dpkg-query", "--status", name], text=True) for name in packages))
    for name in os.listdir("/var/lib/dpkg/info"):
        if name.endswith(".list") and re.sub(r":\w+$", "", name[:-5]) in packages:
            shutil.copy(f"/var/lib/dpkg/info/{name}", info)
    with open(f"{root}/etc/dpkg/dpkg.cfg.d/docker", "w", encoding="utf-8") as it:
        it.write(RULE)


def make(root, wanted):
    packages = close(wanted)
    for path in ("/bin", "/sbin", "/lib", "/lib32", "/lib64", "/libx32"):
        if os.path.islink(path):
            os.makedirs(f"{root}/{os.readlink(path)}", exist_ok=True)
            copy(root, path)
    paths = subprocess.check_output(["dpkg-query", "-L", *packages], text=True).splitlines()
    for path in sorted({it for it in paths if it.startswith("/") and not is_left_out(it)}):
        copy(root, path)
    add_alternatives(root)
    add_database(root, packages)
    for path in ("proc", "dev", "root", "tmp"):
        os.makedirs(f"{root}/{path}", exist_ok=True)
    with open(f"{root}/etc/passwd", "w", encoding="ascii") as it:
        it.write("root:x:0:0:root:/root:/bin/bash\n")


if __name__ == "__main__":
    try:
        make(os.path.abspath(sys.argv[1]), sys.argv[2:])
    except Missing as error:
        sys.exit(str(error))
