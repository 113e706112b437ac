#!/usr/bin/env python3
"""Builds without a proof what ./build proves first: the program, the library for C, or only `judge`. Do not rely on the result.

    tests/unproved.py program PROGRAM
    tests/unproved.py library FOLDER         the library for C, in the layout of ./tmwatch-c (packaging/layout.py)
    tests/unproved.py judge PROGRAM [EDIT]   has --criterion, --first and --summary, and no checks, to count the instructions of mutants

EDIT is a file like those in edits/, whose `file:` is below crates/. `rt try` compiles the sources to LLVM code with checks, and then calls
the kit's clang. A script that replaces clang stores that code, and clang and rattle-link make the program from it. In the first two kinds,
a fault ends in a trap. For `judge`, the checks are removed, and functions get the inlining attributes of their sources, which `rt try`
drops. The kit does not guarantee how `rt try` calls clang. Takes one to three minutes.
Exit status: 0 if it is built; 1 if not, with the reason; 2 for other arguments.
"""
import glob
import os
import re
import shutil
import subprocess
import sys
import tempfile

TOP = os.path.dirname(os.path.dirname(os.path.realpath(__file__)))
KIT = os.path.dirname(subprocess.check_output(["rt", "doc"], text=True).strip())
TARGET = "x86_64-unknown-linux-gnu"
CLANG = [f"{KIT}/toolchain/bin/clang", f"--target={TARGET}", "--no-default-config", "-w", "-x", "ir"]
MAIN = """//! `judge` alone.
#![tactic(auto)]

use std::env;
use std::process::ExitCode;
use tmw_defs::Asked;
use tmw_judge::run_judge_with;
use tmw_monitor::Bounds;
use tmw_options::JudgeOptions;
use tmw_streams::{StdSink, StdSource};

fn main(rt: HostRuntime) -> ExitCode {
    let mut source = StdSource::new(rt.stdin());
    let mut sink = StdSink::new(rt.stdout());
    let mut errors = StdSink::new(rt.stderr());
    let Ok(bounds) = Bounds::new(8, 64) else {
        return ExitCode::from(4);
    };
    let mut options = JudgeOptions::plain(bounds, Asked::Opacity);
    let Ok(words) = env::args(&rt) else {
        return ExitCode::from(4);
    };
    for word in words {
        match word.as_str() {
            "strict" => options.asked = Asked::Strict,
            "both" => options.asked = Asked::Both,
            "--first" => options.first = true,
            "--summary" => options.summary = true,
            _ => {}
        }
    }
    ExitCode::from(run_judge_with(rt.alloc(), &mut source, &mut sink, &mut errors, options))
}
"""
# What calls each function that C programs call, since code that no `main` reaches is not made: values by the types of parameters.
LIBRARY_MAIN = """
use std::alloc::Global;
use tmw_handles::{{RecorderHandle, WatchHandle}};

fn main(rt: HostRuntime) {{
    let alloc = rt.alloc();
    let mut watch = WatchHandle::empty(alloc);
    let mut recorders = [RecorderHandle::empty(alloc)];
    let mut number = 0;
    {calls}
}}
"""
VALUES = {
    "Global": "alloc",
    "&mut WatchHandle": "&mut watch",
    "&mut [RecorderHandle]": "&mut recorders",
    "&mut RecorderHandle": "&mut recorders[0]",
    "&CSettings": "&crate::c_settings::CSettings { registers: 1, start: [0; 8], window: 8, states: 8, cells: 8, limit: 8 }",
    "&mut CVerdict": "&mut crate::c_verdict::CVerdict { events: 0, at: 0, verdict: 0, why: 0 }",
    "&mut CCounts": "&mut crate::c_counts::CCounts { aborted: 0, committed: 0, cuts: 0, live: 0, overlapping: 0, transactions: 0, "
    "unasked: 0, widest: 0, none_overlapped: 0 }",
    "&[Call]": "&[crate::c_turn::Call { letter: 82, register: 0, value: 0 }]",
    "&mut CTurn": "&mut crate::c_turn::CTurn { place: 0, phase: 0 }",
    "&mut u64": "&mut number",
    "u64": "0",
    "u32": "0",
}
EXPORT = re.compile(r'pub extern "C" fn (\w+)\(([^)]*)\)')
# What stands in the place of the kit's clang: it keeps the code of the run with checks, and ends that run.
KEEPER = """#!/bin/sh
case "$*" in *-fsanitize=address*) cp module.bc "$(dirname "$0")/../../../module.bc" && exit 1 ;; esac
exec {kit}/toolchain/bin/clang "$@"
"""
HINTS = {"#[inline(always)]": "alwaysinline", "#[inline(never)]": "noinline", "#[inline]": "inlinehint", "#[cold]": "cold"}
FUNCTION = re.compile(r"((?:[ \t]*(?:#\[[^\n]*\]|///[^\n]*)\n)+)([ \t]*)(?:pub(?:\([a-z]+\))? )?(?:const )?(?:unsafe )?fn (\w+)")
IMPL = re.compile(r"^impl(?:<[^\n]*?>)? (?:([\w:]+)(?:<[^\n]*>)? for )?([\w:]+)", re.M)


def crates_below(top):
    """Returns the lines of crates.txt for this crate and those that it stands on, by their names."""
    with open(f"{TOP}/crates.txt", encoding="utf-8") as it:
        lines = {re.match(r"\w+", line)[0]: line for line in it if re.match(r"\w", line)}
    found, left = set(), [top]
    while left:
        name = left.pop()
        if name in lines and name not in found:
            found.add(name)
            left += lines[name].partition(":")[2].split()
    return {name: lines[name] for name in lines if name in found}


def copy_crates(room, top):
    """Copies the sources of this crate and those below it into the room, as a repository."""
    crates = crates_below(top)
    for name in crates:
        shutil.copytree(f"{TOP}/crates/{name}/src", f"{room}/crates/{name}/src")
    with open(f"{room}/crates.txt", "w", encoding="utf-8") as it:
        it.writelines(line.replace(" staticlib", "") for line in crates.values())
    shutil.copyfile(f"{TOP}/HANDLES", f"{room}/HANDLES")
    os.mkdir(f"{room}/.git")


def add_judge(room):
    """Adds the program that is `judge` alone."""
    os.makedirs(f"{room}/crates/judge_alone/src")
    with open(f"{room}/crates/judge_alone/src/main.rt", "w", encoding="utf-8") as it:
        it.write(MAIN)
    with open(f"{room}/crates.txt", "a", encoding="utf-8") as it:
        it.write("judge_alone: tmw_streams tmw_defs tmw_judge tmw_monitor tmw_options\n")


def add_calls(folder):
    """Makes a program of the library's crate, which calls each function that C programs call."""
    calls = []
    for path in sorted(glob.glob(f"{folder}/*.rt")):
        with open(path, encoding="utf-8") as it:
            for name, parameters in EXPORT.findall(it.read()):
                values = [VALUES[it.partition(": ")[2]] for it in re.split(r",\s*", parameters.strip().rstrip(","))]
                calls.append(f"{os.path.basename(path)[:-3]}::{name}({', '.join(values)});")
    os.rename(f"{folder}/lib.rt", f"{folder}/main.rt")
    with open(f"{folder}/main.rt", "a", encoding="utf-8") as it:
        it.write(LIBRARY_MAIN.format(calls="\n    ".join(calls)))


def plant(room, edit):
    """Makes the edit in the room. Each old line has to stand once in its file."""
    with open(edit, encoding="utf-8") as it:
        lines = [line.rstrip("\n").partition(": ") for line in it if line.strip()]
    path = f"{room}/{lines[0][2]}"
    with open(path, encoding="utf-8") as it:
        text = it.read()
    for (_, _, old), (_, _, new) in zip(lines[1::2], lines[2::2]):
        if text.count(old) != 1:
            sys.exit(f"unproved.py: {edit}: {text.count(old)} times in its file: {old}")
        text = text.replace(old, new)
    with open(path, "w", encoding="utf-8") as it:
        it.write(text)


def lay_out_kit(room):
    """Makes a kit of links in the room, with a clang that keeps what it is to compile."""
    for path in glob.glob(f"{KIT}/*"):
        if os.path.basename(path) not in ("bin", "toolchain"):
            os.makedirs(f"{room}/kit", exist_ok=True)
            os.symlink(path, f"{room}/kit/{os.path.basename(path)}")
    os.makedirs(f"{room}/kit/toolchain/bin")
    os.symlink(f"{KIT}/toolchain/lib", f"{room}/kit/toolchain/lib")
    for path in glob.glob(f"{KIT}/toolchain/bin/*"):
        if os.path.basename(path) != "clang":
            os.symlink(path, f"{room}/kit/toolchain/bin/{os.path.basename(path)}")
    os.mkdir(f"{room}/kit/bin")
    for path in glob.glob(f"{KIT}/bin/*"):
        # (a script finds its kit by where it stands itself)
        put = shutil.copy if os.path.basename(path) in ("rt", "rtlib.py") else os.symlink
        put(path, f"{room}/kit/bin/{os.path.basename(path)}")
    # (beside a try the prover looks for names that a check refuses, for as long as the try takes)
    os.remove(f"{room}/kit/bin/rattle")
    for path, text in (("toolchain/bin/clang", KEEPER.format(kit=KIT)), ("bin/rattle", "#!/bin/sh\n")):
        with open(f"{room}/kit/{path}", "w", encoding="utf-8") as it:
            it.write(text)
        os.chmod(f"{room}/kit/{path}", 0o755)


def hints_of(top, crate):
    """Returns LLVM's words for the functions of a crate that have hints on inlining, by the beginnings and ends of their names."""
    found = {}
    for path in glob.glob(f"{top}/**/*.rt", recursive=True):
        modules = [it for it in os.path.relpath(path, top)[:-3].split("/") if it not in ("lib", "main", "mod")]
        with open(path, encoding="utf-8") as it:
            text = it.read()
        for function in FUNCTION.finditer(text):
            words = " ".join(word for hint, word in HINTS.items() if hint in function[1])
            impls = IMPL.findall(text[: function.start()]) if function[2] else []
            # A method has the path of its type, and one of a trait the type's name and then the trait's.
            kind = "".join(name.split("::")[-1] for name in reversed(impls[-1])) if impls else ""
            if words:
                found[(crate, kind, function[3]) if kind else ("::".join([crate, *modules]), "", function[3])] = words
    return found


def hint_for(hints, name):
    parts = re.sub(r"::<#[0-9a-f]+>$", "", name).split("::")
    if len(parts) > 2:
        for (crate, kind, function), words in hints.get(parts[-1], ()):
            if kind and crate == parts[0] and parts[-2].startswith(kind):
                return words
    for (path, kind, _), words in hints.get(parts[-1], ()):
        if not kind and name.startswith(f"{path}::"):
            return words
    return ""


def without_checks(lines, hints):
    """Returns the lines of LLVM's code without the checks, and with hints on inlining."""
    is_check = False
    for line in lines:
        if line.startswith('define internal void @"rattle-llvm-checks::'):
            is_check = True
            empty = '  %r0 = icmp ne i8 %a0, 0\n  call void @llvm.assume(i1 %r0)\n' if "Unreachable" in line else ""
            yield re.sub(r"#\d+ \{$", "alwaysinline {", line) + f"start:\n{empty}  ret void\n}}\n"
        if is_check:
            is_check = not line.startswith("}")
            continue
        name = re.match(r'define [^@]*@"([^"]*)"', line)
        if name:
            line = re.sub(r"( #\d+ \{)$", rf" {hint_for(hints, name[1])}\1", line)
        if line.startswith("attributes"):
            line = line.replace("sanitize_address", "").replace('"frame-pointer"="all"', "").replace("{   }", "{ nounwind }")
        # A local begins with bytes of 170, and a fault ends in a trap.
        if not ("call void @llvm.memset" in line and "i8 -86" in line) and "call void @llvm.trap()" not in line:
            yield line
    yield "declare void @llvm.assume(i1 noundef)\n"


def run(words, **how):
    ran = subprocess.run(words, stdout=subprocess.PIPE, stderr=subprocess.STDOUT, text=True, errors="replace", check=False, **how)
    return ran.returncode, ran.stdout


def exported(lines):
    """Returns the lines of LLVM's code with the functions that C programs call, by their names, and without a `main`."""
    for line in lines:
        line = re.sub(r'@"tmw_c::\w+::(tmwatch_\w+)"', r"@\1", line)
        yield re.sub(r"^define i32 @main\(", "define internal i32 @none(", re.sub(r"^define internal (.*@tmwatch_)", r"define \1", line))


def tool(*words, **how):
    """Runs a tool, which has to succeed."""
    status, said = run(words, **how)
    if status:
        sys.exit(f"unproved.py: {os.path.basename(words[0])} failed: {said}")


def keep_code(room, crate):
    """Has `rt try` make the code of this program, in module.bc."""
    lay_out_kit(room)
    _, said = run([f"{room}/kit/bin/rt", "try", "--steps", "1"], cwd=f"{room}/crates/{crate}", stdin=subprocess.DEVNULL)
    if not os.path.exists(f"{room}/module.bc"):
        sys.exit(f"unproved.py: rt try kept no code: {said}")


def change_code(room, change):
    """Makes LLVM's text of the code, and changes its lines."""
    tool(*CLANG, f"{room}/module.bc", "-S", "-emit-llvm", "-Xclang", "-disable-llvm-passes", "-o", f"{room}/checked.ll")
    with open(f"{room}/checked.ll", encoding="utf-8") as it, open(f"{room}/changed.ll", "w", encoding="utf-8") as to:
        to.writelines(change(it))


def compile_code(room, code, *words):
    """Compiles the code to an object."""
    flags = ["-no-trap-after-noreturn", "-trap-unreachable", "-no-x86-call-frame-opt"]
    flags = [it for word in flags for it in ("-mllvm", word)] + ["-march=x86-64-v2", "-ffunction-sections", "-fdata-sections"]
    tool(*CLANG, f"{room}/{code}", *flags, *words, "-c", "-o", f"{room}/code.o")


def link(room, program):
    words = ["--target", TARGET, "--toolchain", f"{KIT}/toolchain", "-o", program, f"{room}/code.o"]
    tool(f"{KIT}/bin/rattle-link", *words, f"{KIT}/c/libos_c.a", f"{KIT}/c/liblibc_c.a")


def build_program(room, program):
    copy_crates(room, "tmwatch")
    keep_code(room, "tmwatch")
    compile_code(room, "module.bc", "-fPIE", "-O1")
    link(room, program)


def build_library(room, folder):
    copy_crates(room, "tmw_c")
    add_calls(f"{room}/crates/tmw_c/src")
    keep_code(room, "tmw_c")
    change_code(room, exported)
    compile_code(room, "changed.ll", "-fPIC", "-O2")
    # (as ./build makes the archive)
    tool("ar", "x", f"{KIT}/c/liblibc_c.a", "heap.pic.o", cwd=room)
    tool("ar", "rcs", "libtmwatch.a", "code.o", "heap.pic.o", cwd=room)
    tool(f"{TOP}/packaging/layout.py", f"{room}/libtmwatch.a", folder)


def build_judge(room, program, edit=None):
    copy_crates(room, "tmw_judge")
    add_judge(room)
    if edit:
        plant(room, edit)
    keep_code(room, "judge_alone")
    hints = {}
    for path in [*glob.glob(f"{room}/crates/*/src"), *glob.glob(f"{KIT}/rattle/*/src")]:
        for key, words in hints_of(path, path.split("/")[-2]).items():
            hints.setdefault(key[2], []).append((key, words))
    change_code(room, lambda lines: without_checks(lines, hints))
    compile_code(room, "changed.ll", "-fPIE", "-O3")
    link(room, program)


def main(words):
    build = {"program": build_program, "library": build_library, "judge": build_judge}.get(words[0] if words else "")
    if not build or len(words) not in ((2, 3) if build is build_judge else (2,)):
        print(__doc__, end="", file=sys.stderr)
        return 2
    with tempfile.TemporaryDirectory() as room:
        build(room, os.path.abspath(words[1]), *words[2:])
    return 0


if __name__ == "__main__":
    sys.exit(main(sys.argv[1:]))
