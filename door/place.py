"""Where the script stands, and what stands beside it."""
import os

HERE = os.path.dirname(os.path.dirname(os.path.realpath(__file__)))
# A release has the program beside the script, and no sources.
IS_RELEASE = os.path.isfile(f"{HERE}/RELEASE")
PROGRAM = f"{HERE}/program/osp" if IS_RELEASE else f"{HERE}/crates/osp/out/osp"


def called():
    """The name by which the script is called: from a checkout or an unpacked package it is run from its top."""
    return "./osp" if os.path.isdir(f"{HERE}/examples") else "osp"


def as_called(text):
    """A text of the tables as it reads here."""
    return text.replace("./osp", called())


def documents():
    """Where the documents stand."""
    return "docs" if os.path.isdir(f"{HERE}/docs") else os.path.realpath(f"{HERE}/../../share/doc/osp/docs")
