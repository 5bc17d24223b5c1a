"""LLVM's module of the proved program, as the kit hands it to clang: of it the program is made for others than x86-64 Linux.

The kit builds the program once more, with a clang that keeps what it is handed. Where what comes of it isn't the built program, byte for
byte, Stop is raised: then it isn't known what the module is of.
"""
import hashlib
import os
import re
import shlex
import shutil
import subprocess
import sys
import tempfile

TOP = os.path.dirname(os.path.dirname(os.path.realpath(__file__)))
PROGRAM = os.path.join(TOP, "crates", "osp", "out", "osp")
TRIPLE = "x86_64-unknown-linux-gnu"
LAYOUT = "e-m:e-p270:32:32-p271:32:32-p272:64:64-i64:64-i128:128-f80:128-n8:16:32:64-S128"
# The two instructions of x86-64 that the program asks for by name: a pause of a worker that waits, and a choice of bytes by sixteen
# numbers, of which the lowest four bits count, and a negative one chooses 0.
PAUSE, CHOICE = "@llvm.x86.sse2.pause()", "@llvm.x86.ssse3.pshuf.b.128"
# What is declared for `main` alone, which calls it before it calls the program: to ignore a signal, and to see that the processor of
# x86-64 has what the program needs, and else to say so.
OF_MAIN = {
    "__sysv_signal": "i64 (i32, i64)",
    "__x86_get_cpuid_feature_leaf": "ptr (i32)",
    "__write": "i64 (i32, ptr, i64)",
}
ENTRY = '"+threads::entry"'
MAIN = re.compile(r"\ndefine i32 @main\(\)[^\n]*\{\n(.*?)\n\}\n", re.S)


class Stop(Exception):
    """Why nothing is made, in one line."""


def call(words, **how):
    """Runs a program of the kit. Raises Stop with the end of what it said where it fails."""
    done = subprocess.run(words, stdout=subprocess.PIPE, stderr=subprocess.STDOUT, errors="replace", check=False, **how)
    if done.returncode:
        raise Stop(f"{os.path.basename(words[0])} ended with status {done.returncode}: {' / '.join(done.stdout.strip().splitlines()[-3:])}")
    return done.stdout


def kit():
    """The kit's folder: that of the `rt` on the PATH."""
    found = shutil.which("rt")
    if not found:
        raise Stop("rt isn't on the PATH; it comes with the Rattle kit")
    folder = os.path.dirname(os.path.dirname(os.path.realpath(found)))
    if not os.path.exists(f"{folder}/toolchain/bin/clang"):
        raise Stop(f"the kit of this rt has no toolchain/bin/clang: {folder}")
    return folder


def words_of(folder):
    """The words by which the kit's own `rt` lets rattle build the program of a crate."""
    sys.path.insert(0, f"{kit()}/bin")
    try:
        import rtlib

        crate = rtlib.Crate(folder, rtlib.root_above(folder), {})
        return [rtlib.RATTLE, "build", *crate.words(["--jobs", "1"]), *rtlib.KEPT, "--backend", "llvm"]
    except (ImportError, AttributeError, TypeError) as why:
        raise Stop(f"this kit's rt isn't the one that is known here: {why}") from None


# In the place of clang: it keeps the module that it is handed, and hands it on. (rattle runs it without an environment.)
KEEPER = """#!/bin/sh
for word in "$@"; do
  case $word in *.bc) /bin/cp "$word" {kept}/ || exit ;; esac
done
exec {clang} "$@"
"""


def keeping(room, libraries):
    """The folder of a toolchain, with the libraries of a folder, whose clang keeps what it is handed in `kept` of the room."""
    tools, kept = f"{kit()}/toolchain/bin", f"{room}/kept"
    os.makedirs(f"{room}/tools/bin")
    os.makedirs(kept)
    os.symlink(libraries, f"{room}/tools/lib")
    for name in sorted({*os.listdir(tools)} - {"clang"}):
        os.symlink(f"{tools}/{name}", f"{room}/tools/bin/{name}")
    with open(f"{room}/tools/bin/clang", "w", encoding="utf-8") as file:
        file.write(KEEPER.format(kept=shlex.quote(kept), clang=shlex.quote(f"{tools}/clang")))
    os.chmod(file.name, 0o755)
    return f"{room}/tools"


def built_for(triple, room, libraries):
    """Lets the kit build the program for a machine, over the libraries of a folder. Answers the module that it handed to clang; the object
    file is `osp.o` in the room, and the toolchain `tools`."""
    folder = os.path.dirname(os.path.dirname(PROGRAM))
    call([*words_of(folder), "--target", triple, "--toolchain", keeping(room, libraries), "-o", f"{room}/osp.o"], cwd=folder)
    kept = os.listdir(f"{room}/kept")
    if len(kept) != 1:
        raise Stop(f"rattle handed clang {len(kept)} modules, and one is known here")
    return f"{room}/kept/{kept[0]}"


def linked_for(triple, room, more):
    """Links what `built_for` left in a room, with more files, by the kit's linker. Answers the program as bytes."""
    call([f"{kit()}/bin/rattle-link", "--target", triple, "--toolchain", f"{room}/tools", "-o", f"{room}/osp", f"{room}/osp.o", *more])
    with open(f"{room}/osp", "rb") as file:
        return file.read()


def module_of_program(room):
    """LLVM's module of the built program. Raises Stop where the kit, from that module, makes another program."""
    module = built_for(TRIPLE, room, f"{kit()}/toolchain/lib")
    made = linked_for(TRIPLE, room, [f"{kit()}/c/{it}" for it in ("libos_c.a", "liblibc_c.a")])
    with open(PROGRAM, "rb") as built:
        if made != built.read():
            raise Stop("built once more, the program is another one: ./osp build")
    return module


def text_of(module, triple, room):
    """LLVM's text of a module for a machine, as the kit's clang reads it, without any change."""
    unchanged = ["-Xclang", "-disable-llvm-passes", "--no-default-config", f"--target={triple}"]
    call([f"{kit()}/toolchain/bin/clang", "-S", "-emit-llvm", "-x", "ir", module, *unchanged, "-o", f"{room}/osp.ll"])
    with open(f"{room}/osp.ll", encoding="utf-8") as file:
        return file.read()


def with_main(text, lines):
    """The text with these lines in the place of the function `main`. Raises Stop where main does more than is known here."""
    found = MAIN.findall(text)
    called = re.findall(r"\bcall [^@]*@(\"[^\"]*\"|[\w.]+)\(", found[0]) if len(found) == 1 else []
    if called.count(ENTRY) != 1 or not {*called} <= {ENTRY, *OF_MAIN}:
        raise Stop(f"main isn't the one that is known here: it calls {', '.join(called) or 'nothing'}")
    return MAIN.sub(lambda _: f"\n{lines}\n", text)


def put(name, content, mode=0o644):
    """Writes a file, whole or not at all."""
    with open(f"{name}.new", "wb") as file:
        file.write(content)
    os.chmod(file.name, mode)
    os.replace(f"{name}.new", name)


def made_at(out, content_of, of_program=True, mode=0o644):
    """Writes what `content_of` makes in a room to `out`, and answers its size in bytes; OUT.sums has the checksums of the program, "unknown"
    where it isn't made of that, and of OUT. Raises Stop, and then nothing is at `out`."""
    for name in (out, f"{out}.sums"):
        if os.path.exists(name):
            os.remove(name)
    program = "unknown"
    if of_program:
        with open(PROGRAM, "rb") as file:
            program = hashlib.sha256(file.read()).hexdigest()
    with tempfile.TemporaryDirectory(prefix="osp-made-") as room:
        content = content_of(room)
    put(out, content, mode)
    put(f"{out}.sums", f"{program}\n{hashlib.sha256(content).hexdigest()}\n".encode())
    return len(content)


def ended(make, out, what):
    """Makes `what` at `out`, says so, or why not, and answers the exit status."""
    try:
        size = make()
    except (Stop, OSError) as why:
        print(f"no {what} was made: {why}", file=sys.stderr)
        return 1
    print(f"{os.path.relpath(out, TOP)} is a {what}, in {size} bytes")
    return 0
