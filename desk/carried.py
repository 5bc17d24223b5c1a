"""The program that a page carries: a module of WebAssembly, with what it checks there when the page is opened.

The page stays one file. It holds the module, the scenario and the plan, each compressed and in base64, as templates, which a browser
neither shows nor runs. Its script hands them to a worker, made of text of that script.
"""
import base64
import hashlib
import json
import os
import zlib

from desk import accepted, program

HERE = os.path.dirname(os.path.realpath(__file__))
# Where the module stands beside the program, in a checkout and in a release.
PLACES = ["crates/osp/out/osp", "program/osp"]
# What the policy of a page allows beside its own script: to compile WebAssembly, and a worker of the page's own making.
SCRIPTS, MORE = " 'wasm-unsafe-eval'", " worker-src blob:;"


def read(*names):
    """The bytes of a file, or None where it can't be read."""
    try:
        with open(os.path.join(*names), "rb") as file:
            return file.read()
    except OSError:
        return None


def sum_of(content):
    """The SHA-256 of bytes, in hexadecimal."""
    return hashlib.sha256(content).hexdigest()


def beside(place):
    """The module beside the program at `place`, or None where there is none, or it isn't that program's."""
    whole, module, sums = (read(program.TOP, place + it) for it in ("", ".wasm", ".wasm.sums"))
    if whole is None or module is None or sums is None:
        return None
    return module if sums.decode("ascii", "replace").split() == [sum_of(whole), sum_of(module)] else None


def built():
    """The module of WebAssembly of the program that stands here, or None."""
    return next((it for it in map(beside, PLACES) if it is not None), None)


def module(search):
    """The module of WebAssembly of the program that accepted a search's plan; None where that isn't the proved program, or has none."""
    if program.OSP != os.path.join(program.TOP, "osp") or accepted.UNPROVED in search.note:
        return None
    return built()


def packed(content):
    """Bytes compressed as gzip does, in base64: the same for the same bytes."""
    packing = zlib.compressobj(9, zlib.DEFLATED, 31)
    return base64.b64encode(packing.compress(content) + packing.flush()).decode("ascii")


def asset(name):
    """The text of a file of the desk, or of the door."""
    return read(HERE, name).decode("utf-8")


def worker():
    """The text of the worker that runs the module."""
    return asset("../door/web/osp.mjs").replace("\nexport function run", "\nfunction run") + asset("worker.js")


def script(*parts):
    """What a page's script does with the module, by the files of its parts: no letter of it comes from a scenario or a plan."""
    parts = "".join(map(asset, ("carried.js", *parts)))
    return f"const WORKER = {json.dumps(worker()).replace('<', chr(92) + 'u003c')};\n{parts}"


def templates(parts):
    """Templates that hold bytes, by name."""
    return "".join(f'<template id="carried-{name}">{packed(it)}</template>\n' for name, it in parts.items())
