"""Runs unittest cases, and tells as they end which of them failed and which can't be tried here: the part of tests/desk and tests/front-door."""
import os
import signal
import unittest

TOP = os.path.dirname(os.path.dirname(os.path.realpath(__file__)))


def name_of(case):
    """A case by the words under which unittest knows it, and the first line of its docstring, if any."""
    said = case.shortDescription()
    return f"{case.id()}: {said}" if said else case.id()


class Told(unittest.TestResult):
    """Counts the cases that passed, failed and were skipped, each once, and tells why as soon as a case ends."""

    def __init__(self):
        super().__init__()
        self.passed, self.failed, self.left_out = 0, 0, 0

    def startTest(self, test):
        # (What went wrong outside of the cases, as in setUpClass, is none of this one.)
        self.tell()
        super().startTest(test)

    def stopTest(self, test):
        super().stopTest(test)
        self.passed += not self.tell()

    def tell(self):
        """Tells what has come since the last time, and answers whether anything has."""
        wrong = [*self.failures, *self.errors, *((it, "it succeeds, which isn't expected\n") for it in self.unexpectedSuccesses)]
        for case, why in wrong:
            print(f"FAILED: {name_of(case)}\n{why}", end="", flush=True)
        for case, why in self.skipped:
            print(f"SKIPPED: {name_of(case)}\n    {why}", flush=True)
        self.failed += bool(wrong)
        self.left_out += bool(self.skipped) and not wrong
        is_told = bool(wrong or self.skipped)
        for each in (self.failures, self.errors, self.unexpectedSuccesses, self.skipped):
            each.clear()
        return is_told


def cases_of(pattern):
    """The cases of the files of tests/ that a pattern names. A file that can't be read is a case that fails."""

    def flat(suite):
        for it in suite:
            yield from flat(it) if isinstance(it, unittest.TestSuite) else [it]

    found = unittest.TestLoader().discover(os.path.join(TOP, "tests"), pattern, TOP)
    return list(flat(found))


def ran(cases):
    """Runs cases from the top of the repository, one after the other, and answers the counts. What they start gets signals as a terminal gives
    them, though this runs in the background, where some are ignored."""
    os.chdir(TOP)
    signal.signal(signal.SIGINT, signal.default_int_handler)
    for it in (signal.SIGTERM, signal.SIGHUP, signal.SIGQUIT):
        if signal.getsignal(it) is signal.SIG_IGN:
            signal.signal(it, signal.SIG_DFL)
    told = Told()
    unittest.TestSuite(cases).run(told)
    told.tell()
    return told
