"""What the tests of the program as a module of WebAssembly share: its answers in node, and those of the program for Linux."""
import base64
import json
import os
import shutil
import subprocess
from typing import NamedTuple

TOP = os.path.dirname(os.path.dirname(os.path.realpath(__file__)))
MODULE = os.path.join(TOP, "crates", "osp", "out", "osp.wasm")
PROGRAM = os.path.join(TOP, "crates", "osp", "out", "osp")
NODE = shutil.which("node") or shutil.which("nodejs")


class Case(NamedTuple):
    """Words and an input for the program, and how many pages of 64 KiB the module may have, where that isn't as many as it can."""

    words: list
    given: bytes
    pages: int | None = None


class Answer(NamedTuple):
    """An exit status, and what was written to standard output and to standard error, as bytes."""

    status: int
    out: bytes
    err: bytes


class Taken(NamedTuple):
    """An answer of the module, with the bytes of memory that it had at its end, and the seconds of a processor that it took."""

    answer: Answer
    memory: int
    seconds: float


def read(path):
    """The bytes of a file."""
    with open(path, "rb") as file:
        return file.read()


def lacking():
    """What the module's answers can't be had for, if they can't."""
    if not NODE:
        return "node isn't installed (Debian's package nodejs)"
    return None if os.path.exists(MODULE) else "the module of WebAssembly isn't built: ./osp build"


def in_node(cases):
    """What the module answers to each case (Taken)."""
    rows = [json.dumps({"words": it.words, "given": base64.b64encode(it.given).decode("ascii"), "pages": it.pages}) for it in cases]
    done = subprocess.run([NODE, f"{TOP}/tests/in_node.mjs", MODULE], input="\n".join(rows), stdout=subprocess.PIPE, text=True, check=True)
    told = [json.loads(it) for it in done.stdout.splitlines()]
    return [Taken(Answer(it["status"], *(base64.b64decode(it[name]) for name in ("out", "err"))), it["memory"], it["seconds"]) for it in told]


def answers_of(words, cases):
    """What a program, which is called by these words, answers to each case (Answer)."""
    told = [subprocess.run([*words, *it.words], input=it.given, capture_output=True, check=False) for it in cases]
    return [Answer(it.returncode, it.stdout, it.stderr) for it in told]


def native(cases):
    """What the program for Linux answers to each case (Answer)."""
    return answers_of([PROGRAM], cases)


def differing(cases, told):
    """The cases to which something else was told (Answer) than the program for Linux answers, with both."""
    return [(case, here, there) for case, here, there in zip(cases, told, native(cases), strict=True) if here != there]
