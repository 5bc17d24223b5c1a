"""Debian's packages that tests need: a case that lacks one is skipped, and says which."""
import contextlib
import sys
import unittest
from unittest import mock

from desk import packages


def needing(name, package):
    """Skips a case or a class of cases where the module of a name, which a package has, isn't there."""
    try:
        packages.module(name, package, "this case needs the package")
        return lambda it: it
    except packages.Lacking as lacking:
        return unittest.skip(str(lacking))


@contextlib.contextmanager
def without(name):
    """Under it the module of a name isn't there, wherever packages are looked for, and Debian's folder for them neither."""
    no_folder = mock.patch("desk.packages.DEBIAN", "/nonexistent")
    with mock.patch.dict("sys.modules", {name: None}), mock.patch("sys.path", sys.path.copy()), no_folder:
        yield


on_earth = needing("geographiclib.geodesic", "python3-geographiclib")
