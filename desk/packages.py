"""Packages of Debian that some helpers need: each is imported where it is used, and its lack is told in one line."""
import importlib
import importlib.machinery
import os
import sys

# Where Debian has the modules of its packages. A Python of another origin that stands first on the PATH doesn't look there by itself.
DEBIAN = "/usr/lib/python3/dist-packages"
# Debian's own Python, for which its packages are made. One of another minor version loads of them what is Python alone.
PYTHON = "/usr/bin/python3"


class Lacking(Exception):
    """A package isn't there. It says in one line what for, and what to install."""


def module(name, package, what):
    """The module of a name, which a package of Debian has; `what` needs it, in words. Raises Lacking."""
    try:
        return importlib.import_module(name)
    except ImportError:
        if DEBIAN not in sys.path:
            sys.path.append(DEBIAN)
            importlib.invalidate_caches()
    try:
        return importlib.import_module(name)
    except ModuleNotFoundError:
        raise Lacking(f"{what} {package}, {why(name, package)}") from None
    except ImportError as fault:
        if is_debians():
            raise Lacking(f"{what} {package}, which can't be loaded: {' '.join(str(fault).split())[:200]}") from None
        raise Lacking(f"{what} {package}, {why(name, package)}") from None


def why(name, package):
    """Why the module of a name, which a package has, can't be loaded, and what helps."""
    install = f"install it, as by apt install {package}"
    if is_debians():
        return f"which isn't there for this Python: {install}"
    if not importlib.machinery.PathFinder.find_spec(name.split(".")[0], [DEBIAN]):
        return f"which isn't there for this Python, and not for {PYTHON} either: {install}"
    this = f"{sys.executable or 'this Python'}, which is {sys.version_info[0]}.{sys.version_info[1]}"
    return f"which is there for {PYTHON}, and not for {this}: let Debian's Python come first, as by PATH=/usr/bin:$PATH"


def is_debians():
    """Whether this Python is Debian's own."""
    return os.path.realpath(sys.executable) == os.path.realpath(PYTHON)
