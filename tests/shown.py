#!/usr/bin/env python3
"""Extracts the commands of a page, in order, and compares their outputs with the page.

    tests/shown.py PAGE script            prints a script for bash, whose argument is a folder. It writes the output of command N to the
                                          file N there, and its exit status to N.status
    tests/shown.py PAGE compare FOLDER    compares these files with the page

A command begins with four spaces and `$ `, and continues after a line that ends with `\\`. The lines below it are its output. In an output,
digits may differ, ` ..` is the rest of a line, and a line `..` is any number of lines. Three kinds of commands are left out, which `script`
reports on standard error: those with ` .. `, because they are sketches; those of gdb, because they are typed; and those in examples/field,
because they need other systems.
The exit status of a command must be 0, or that of the verdict in its output. Any status is right if the output begins with `..`. If the
page shows no output of a `tmwatch`, or threads run at the same time, the run may be violated or not.
Exit status: 0, or 1 if a status or an output differs.
"""
import re
import sys

# The exit status of a command whose output has this text.
STATUS = {'"violated"': 1, "violated at": 1, "undecided": 2, "malformed": 3, "not ok": 1, '"fault"': 4}


def read(page):
    """Returns each command with the lines that it prints."""
    found, is_open = [], False
    with open(page, encoding="utf-8") as it:
        for line in it.read().split("\n"):
            if found and found[-1][0].endswith("\\") and not found[-1][1]:
                found[-1][0] += "\n" + line.strip()
            elif line.startswith("    $ "):
                found.append([line[6:], []])
                is_open = True
            elif is_open and line.startswith("    ") and not line.startswith("    ("):
                found[-1][1].append(line[4:])
            else:
                is_open = False
    return found


def is_left_out(command):
    return " .. " in command or command.startswith(("gdb ", "examples/field/"))


def script(page):
    print('out=$1\nmkdir -p "$out"')
    for number, (command, _) in enumerate(read(page), 1):
        if is_left_out(command):
            print(f"left out: {command}", file=sys.stderr)
        else:
            print(f'{{ {command}\n}} >"$out/{number}" 2>&1 </dev/null; echo $? >"$out/{number}.status"')


def pattern(lines):
    """Returns a regular expression for an output on a page."""
    words = [re.sub(r"\d+", "#", line) for line in lines]
    parts = [".*" if it == ".." else re.escape(it[:-3]) + "[^\\n]*\\n" if it.endswith(" ..") else re.escape(it) + "\\n" for it in words]
    return "".join(parts)


def statuses(command, lines):
    """Returns the exit statuses that a command may have."""
    if not lines and command.startswith("tmwatch ") or " bench " in command:
        return {0, 1}
    return range(256) if lines[:1] == [".."] else {next((STATUS[word] for word in STATUS if any(word in line for line in lines)), 0)}


def compare(page, folder):
    """Returns whether each command had the output and a status of the page."""
    is_right = True
    for number, (command, lines) in enumerate(read(page), 1):
        if is_left_out(command):
            continue
        with open(f"{folder}/{number}", encoding="utf-8") as it, open(f"{folder}/{number}.status", encoding="ascii") as status:
            printed, ended = it.read(), int(status.read())
        is_shown = not lines or " bench " in command and ended == 0 or re.fullmatch(pattern(lines), re.sub(r"\d+", "#", printed), re.S)
        if ended not in statuses(command, lines) or not is_shown:
            is_right = False
            print(f"$ {command}\nstatus {ended}, and this, which the page doesn't show:\n{printed}")
    return is_right


if __name__ == "__main__":
    if sys.argv[2] == "script":
        script(sys.argv[1])
    else:
        sys.exit(0 if compare(sys.argv[1], sys.argv[3]) else 1)
