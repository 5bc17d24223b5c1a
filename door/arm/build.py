"""build.py OUT: makes OUT, the proved program for aarch64 Linux, over the C library of Debian's packages.

The kit builds the program for aarch64, as it builds it for x86-64. OUT is made only where it makes the very program for x86-64 again, byte
for byte, and hands clang the same module for aarch64, line by line, but for what alike.py names. OUT.sums has the checksums of the
program for x86-64 and of OUT.
"""
import os
import sys

HERE = os.path.dirname(os.path.realpath(__file__))
sys.dont_write_bytecode = True
sys.path[:0] = [HERE, os.path.dirname(HERE)]
import alike  # noqa: E402
import handed  # noqa: E402

# The libraries that rattle and the kit's linker take from the folder of a toolchain, where Debian's packages have them.
PACKAGES = "libc6-dev-arm64-cross, libgcc-12-dev-arm64-cross"
LIBRARIES = {
    "/usr/aarch64-linux-gnu/lib": "Scrt1.o crti.o crtn.o ld-linux-aarch64.so.1 libc.so.6 libc_nonshared.a libgcc_s.so.1 libm.so.6".split(),
    "/usr/lib/gcc-cross/aarch64-linux-gnu/12": "crtbeginS.o crtendS.o libgcc.a".split(),
}
INCLUDED = ["/usr/lib/gcc-cross/aarch64-linux-gnu/12/include", "/usr/aarch64-linux-gnu/include"]
HOST_FLAGS = ["-march=armv8-a", "-O2", "-fwrapv", "-fPIE", "-ffunction-sections", "-nostdinc", "-Wall", "-Wextra", "-Werror"]


def lacking():
    """What isn't there of Debian's packages, in words, if anything."""
    names = [f"{folder}/{name}" for folder, names in LIBRARIES.items() for name in names] + INCLUDED
    gone = [it for it in names if not os.path.exists(it)]
    return f"{gone[0]} isn't there (Debian's packages {PACKAGES})" if gone else None


def libraries(room):
    """A folder with the libraries."""
    if why := lacking():
        raise handed.Stop(why)
    made = f"{room}/lib"
    os.mkdir(made)
    for folder, names in LIBRARIES.items():
        for name in names:
            os.symlink(f"{folder}/{name}", f"{made}/{name}")
    return made


def host(room):
    """The object file of host.c."""
    included = [word for it in INCLUDED for word in ("-isystem", it)]
    flags = [f"--target={alike.NEW_TRIPLE}", "--no-default-config", *HOST_FLAGS, *included]
    handed.call([f"{handed.kit()}/toolchain/bin/clang", *flags, "-c", f"{HERE}/host.c", "-o", f"{room}/host.o"])
    return f"{room}/host.o"


def program(room):
    """The program for aarch64, as bytes."""
    there, here = f"{room}/aarch64", f"{room}/x86-64"
    os.makedirs(there)
    os.makedirs(here)
    tools = libraries(there)
    module = handed.built_for(alike.NEW_TRIPLE, there, tools)
    of_program = handed.module_of_program(here)
    alike.compare(handed.text_of(of_program, handed.TRIPLE, here), handed.text_of(module, alike.NEW_TRIPLE, there))
    return handed.linked_for(alike.NEW_TRIPLE, there, [host(there)])


def main(words):
    if len(words) != 1:
        print(__doc__, file=sys.stderr)
        return 2
    return handed.ended(lambda: handed.made_at(words[0], program, mode=0o755), words[0], "program for aarch64")


if __name__ == "__main__":
    sys.exit(main(sys.argv[1:]))
