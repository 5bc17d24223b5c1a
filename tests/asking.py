"""What the tests of `osp next` and `osp explain` share: the stand-in for the program, asked without a process of its own."""
import contextlib
import importlib.machinery
import importlib.util
import io
from unittest import mock

from desk import program
from tests.pages import STAND_IN, Room


def module_of(name, path):
    """The module that a script without the ending .py is."""
    loader = importlib.machinery.SourceFileLoader(name, path)
    module = importlib.util.module_from_spec(importlib.util.spec_from_loader(name, loader))
    loader.exec_module(module)
    return module


stand_in, by_process = module_of("stand_in_osp", STAND_IN), program.ask


def ask(words, given, seconds=None):
    """As desk.program.ask. The stand-in is called here; any other program gets its process."""
    if program.OSP != STAND_IN:
        return by_process(words, given, seconds)
    try:
        stand_in.answer(words, given)
    except stand_in.Ends as ends:
        status, out, err = ends.args
        return program.Answer(status, out.encode(), (err and err + "\n").encode())
    raise AssertionError("the stand-in gave no answer")


class Asked(Room):
    """A folder for files, and the program where it is built, else the stand-in."""

    def setUp(self):
        super().setUp()
        patch = mock.patch.object(program, "ask", ask)
        patch.start()
        self.addCleanup(patch.stop)

    def called(self, main, *words):
        """The exit status of a helper, the bytes that it wrote, and what it said on standard error."""
        out, err = io.TextIOWrapper(io.BytesIO(), "utf-8"), io.StringIO()
        with contextlib.redirect_stdout(out), contextlib.redirect_stderr(err):
            status = main(list(words))
        out.flush()
        return status, out.buffer.getvalue(), err.getvalue()
