"""build.py OUT: makes OUT, the program as a module of WebAssembly (wasm32), from LLVM's module that the kit makes of the proved program.

The kit builds the program once more, with a clang that keeps what it is handed. Where what comes of it isn't the built program, byte for
byte, nothing is written: then it isn't known what the module is of. `build.py OUT --of MODULE` takes LLVM's module from a
file (text, or bitcode) instead, for trials. OUT.sums has the checksums of the program, "unknown" for a trial, and of OUT.
"""
import os
import re
import sys

HERE = os.path.dirname(os.path.realpath(__file__))
sys.dont_write_bytecode = True
sys.path[:0] = [HERE, os.path.dirname(HERE)]
import handed  # noqa: E402
import narrow  # noqa: E402
from handed import Stop, call, kit  # noqa: E402

# What the module calls of the host, with its types: osp.mjs has these, and host.c the memory.
CALLS = {
    "read": "i64 (i32, ptr, i64)",
    "write": "i64 (i32, ptr, i64)",
    "rattle_arg": "i64 (i64, ptr, i64)",
    "rattle_errno": "i32 ()",
    "rattle_set_errno": "void (i32)",
    "_exit": "void (i32)",
    "abort": "void ()",
    "sched_yield": "i32 ()",
    "syscall": "i64 (i64, ptr, i64, i64, ptr, ...)",
    "pthread_attr_init": "i32 (ptr)",
    "pthread_attr_setguardsize": "i32 (ptr, i64)",
    "pthread_attr_destroy": "i32 (ptr)",
    "pthread_create": "i32 (ptr, ptr, ptr, ptr)",
    "pthread_self": "i64 ()",
    "pthread_detach": "i32 (i64)",
    "pthread_join": "i32 (i64, ptr)",
}
MEMORY = {
    "rattle_alloc": "{ i64, i64 } (i64, i64)",
    "rattle_realloc": "{ i64, i64 } (ptr, i64, i64, i64)",
    "rattle_dealloc": "void (ptr)",
    "malloc": "ptr (i64)",
    "free": "void (ptr)",
}
# What is declared, and what the program doesn't reach.
UNREACHED = {
    "pthread_attr_setstacksize": "i32 (ptr, i64)",
    "rattle_env": "i64 (ptr, ptr, i64)",
    "rattle_env_at": "i64 (i64, ptr, i64)",
}
# How much memory the module has from the start, and at most (osp.mjs has the same, in pages), and how much of it is its stack.
FIRST, MOST, STACK = 9 << 20, 1 << 30, 8 << 20
# WebAssembly as all browsers have it since 2021.
TARGET = [f"--target={narrow.NEW_TRIPLE}", "-mcpu=mvp", "-mbulk-memory", "-msign-ext", "-mnontrapping-fptoint", "-mmutable-globals"]
MODULE_FLAGS = ["-O3", "-ffunction-sections", "-mllvm", "-trap-unreachable", "-mllvm", "-no-trap-after-noreturn"]
HOST_FLAGS = ["-O2", "-fwrapv", "-ffreestanding", "-fno-builtin", "-nostdinc", "-Wall", "-Wextra"]
LINK_FLAGS = ["--no-entry", "--stack-first", "--gc-sections", "--strip-all", "--threads=1", "--import-memory", "--export=osp"]


def declared(text):
    """The functions that LLVM's text declares, without intrinsics, with their types."""
    found = {}
    for kind, name, rest in re.findall(r"^declare (?:noundef )?(\{[^}]*\}|\w+) @(?!llvm\.)([\w.]+)\((.*)\)(?: #\d+)?$", text, re.M):
        found[name] = f"{kind} ({rest.replace(' noundef', '')})"
    return found


def same_calls(text):
    """Raises Stop where the module declares another function than those above, or with other types."""
    known = {**CALLS, **MEMORY, **handed.OF_MAIN, **UNREACHED}
    odd = [f"{name}: {kind}" for name, kind in declared(text).items() if known.get(name) != kind]
    if odd:
        raise Stop(f"the module calls what isn't known here: {', '.join(sorted(odd))}")


def without_main(text):
    """The text with a function `osp`, which calls the program as `main` does, in the place of `main`. Raises Stop where main does more."""
    return handed.with_main(text, f"define i32 @osp() {{\n  %r0 = call i32 @{handed.ENTRY}()\n  ret i32 %r0\n}}")


def link(module, room):
    """The module of WebAssembly of LLVM's module, as bytes."""
    tools = f"{kit()}/toolchain/bin"
    text = handed.text_of(module, handed.TRIPLE, room)
    same_calls(text)
    try:
        text = narrow.narrowed(without_main(text))
    except narrow.Unknown as line:
        raise Stop(f"the module has a line that isn't known here: {str(line).strip()[:200]}") from None
    with open(f"{room}/narrow.ll", "w", encoding="utf-8") as file:
        file.write(text)
    with open(f"{room}/calls", "w", encoding="utf-8") as file:
        file.write("".join(f"{it}\n" for it in CALLS))
    flags = [*TARGET, "--no-default-config", "-Werror", "-c"]
    call([f"{tools}/clang", *flags, *MODULE_FLAGS, "-x", "ir", f"{room}/narrow.ll", "-o", f"{room}/narrow.o"])
    call([f"{tools}/clang", *flags, *HOST_FLAGS, "-x", "c", f"{HERE}/host.c", "-o", f"{room}/host.o"])
    sizes = ["-z", f"stack-size={STACK}", f"--initial-memory={FIRST}", f"--max-memory={MOST}", f"--allow-undefined-file={room}/calls"]
    call([f"{tools}/ld.lld", "-flavor", "wasm", "-m", "wasm32", *LINK_FLAGS, *sizes, f"{room}/narrow.o", f"{room}/host.o", "-o", f"{room}/osp.wasm"])
    with open(f"{room}/osp.wasm", "rb") as file:
        return file.read()


def make(out, of=None):
    """Makes the module at `out`, from LLVM's module in the file `of` if there is one, and answers its size. Raises Stop, and then nothing is
    at `out`."""
    return handed.made_at(out, lambda room: link(of or handed.module_of_program(room), room), of is None)


def main(words):
    if not (len(words) == 1 or len(words) == 3 and words[1] == "--of"):
        print(__doc__, file=sys.stderr)
        return 2
    return handed.ended(lambda: make(words[0], words[2] if len(words) == 3 else None), words[0], "module of WebAssembly")


if __name__ == "__main__":
    sys.exit(main(sys.argv[1:]))
