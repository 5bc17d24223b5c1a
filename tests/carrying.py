"""What the tests of pages that carry the program share: a folder, the pages that `show` makes there, and a browser that visits them."""
import json
import os
import re
import subprocess
from unittest import mock

from desk import carried, show
from tests import pages, web
from tests.web import TOP

# Where pages find the module, which other tests don't want in theirs.
PLACES = list(carried.PLACES)


class Carrying(pages.Room):
    """Pages that carry the program and check themselves, in a browser without a window."""

    BROWSER = "chromium"
    PYTHON, LACKING = "/usr/bin/python3", 77
    HERE = re.compile(r"Checked here, just now, by the proved program \(\d+\.\d\d s\)\.")

    def setUp(self):
        super().setUp()
        why = web.lacking() or (None if pages.IS_BUILT else "no program is built: its pages carry none")
        if why:
            self.skipTest(why)
        patch = mock.patch.object(carried, "PLACES", PLACES)
        patch.start()
        self.addCleanup(patch.stop)
        self.folder = os.path.join(os.environ.get("DESK_PICTURES", self.room), self.BROWSER)
        os.makedirs(self.folder, exist_ok=True)

    def page(self, *words):
        """What `show` makes of these words."""
        status, out, err = self.run_helper(show.main, words)
        self.assertEqual((status, err), (0, ""))
        return out

    def visit(self, script, made):
        """What the browser saw of these pages, by a script of tests/. What it saves, and pictures, is kept in the folder DESK_PICTURES, if that
        is set."""
        files = [self.write(f"{name}.html", text.encode()) for name, text in made.items()]
        done = subprocess.run([self.PYTHON, f"{TOP}/tests/{script}", self.BROWSER, self.folder, *files], capture_output=True, check=False)
        if done.returncode == self.LACKING:
            self.skipTest(done.stderr.decode().strip())
        self.assertEqual(done.returncode, 0, done.stderr.decode()[-2000:])
        return {name.removesuffix(".html"): it for name, it in json.loads(done.stdout).items()}

    def quiet(self, seen):
        """Nothing was asked of a network, nor said on the console."""
        self.assertEqual(seen["console"], [])
        self.assertEqual([it for it in seen["asked"] if not it.startswith(("file://", "blob:null/"))], [])
