"""What the tests of `osp show` and `osp brief` share: a folder with files, the program that they ask, and a reader of pages, also of what
their script draws."""
import base64
import contextlib
import io
import json
import os
import shutil
import subprocess
import tempfile
import unittest
from fractions import Fraction
from html.parser import HTMLParser
from unittest import mock

from desk import carried, page, program, show
from tests import web

TOP = os.path.dirname(os.path.dirname(os.path.realpath(__file__)))
EXAMPLES = os.path.join(TOP, "examples")
STAND_IN = os.path.join(TOP, "tests", "stand-in-osp")
# The program where it is built, else the stand-in: both have to give the reports of examples/.
IS_BUILT = os.path.exists(os.path.join(TOP, "crates", "osp", "out", "osp.sums"))
PROGRAM = os.path.join(TOP, "osp") if IS_BUILT else STAND_IN

# Places for the cells of examples/swath.scenario and its base.
PLACES = """\
# at north-west 250 250
# at north 750 250
# at north-east 1250 250
# at west 250 750
# at middle 750 750
# at east 1250 750
# at south-west 250 1250
# at south 750 1250
# at south-east 1250 1250
# at base -250 750
"""


def read(path):
    with open(path, "rb") as file:
        return file.read()


def example(name):
    """The bytes of an example's scenario and plan."""
    return read(f"{EXAMPLES}/{name}.scenario"), read(f"{EXAMPLES}/{name}.plan")


def answers(asked):
    """What functions of the script of pages answer to each of these (tests/script_in_node.mjs)."""
    with tempfile.NamedTemporaryFile(suffix=".js") as script:
        script.write((page.rules() + "".join(map(page.asset, page.SHOWING[:-1]))).encode())
        script.flush()
        words = [web.NODE, f"{TOP}/tests/script_in_node.mjs", script.name]
        done = subprocess.run(words, input="\n".join(map(json.dumps, asked)), stdout=subprocess.PIPE, text=True, check=True)
    return [json.loads(it) for it in done.stdout.splitlines()]


def comments_of(text):
    """What a page says of the comments at the front of a scenario, given as bytes."""
    return answers([{"of": "comment", "given": base64.b64encode(text).decode("ascii")}])[0]


def walks(sc):
    """The walks of the target with their chances, one cell a period."""
    going = [((cell,), Fraction(part, sc.parts[0])) for cell, part in enumerate(sc.first) if part]
    for t in range(1, sc.horizon):
        going = [((*walk, to), chance * Fraction(part, sc.parts[1])) for walk, chance in going for to, part in sc.row(t, walk[-1]).items()]
    return going


class Room(unittest.TestCase):
    """A folder for files of a test, and the program that it asks. Pages carry no program, where a test doesn't want it."""

    def setUp(self):
        self.room = tempfile.mkdtemp()
        self.addCleanup(shutil.rmtree, self.room)
        for patch in (mock.patch.object(program, "OSP", PROGRAM), mock.patch.object(carried, "PLACES", [])):
            patch.start()
            self.addCleanup(patch.stop)

    def write(self, name, text):
        """The path of a new file in the folder."""
        path = os.path.join(os.fsencode(self.room), name if isinstance(name, bytes) else name.encode())
        with open(path, "wb") as file:
            file.write(text)
        return os.fsdecode(path)

    def files(self, name):
        """The paths of an example's scenario and plan."""
        return [f"{EXAMPLES}/{name}.scenario", f"{EXAMPLES}/{name}.plan"]

    def run_helper(self, main, words):
        """The status of a helper, what it wrote, and what it said on standard error."""
        out, err = io.TextIOWrapper(io.BytesIO(), encoding="utf-8"), io.StringIO()
        with contextlib.redirect_stdout(out), contextlib.redirect_stderr(err):
            status = main(words)
        out.seek(0)
        return status, out.read(), err.getvalue()

    def written(self, *words, said=""):
        """The page that `show` writes of these words, which says no more than this on standard error."""
        status, out, err = self.run_helper(show.main, words)
        self.assertEqual((status, err), (0, said))
        return out

    def opened(self, *texts):
        """What the script made of each page (tests/page_in_node.mjs)."""
        files = [self.write(f"page-{at}.html", it.encode()) for at, it in enumerate(texts)]
        # (The program itself, without the front door, which looks at all sources before each run.)
        asked = web.PROGRAM if program.OSP == os.path.join(TOP, "osp") else program.OSP
        words = [web.NODE, f"{TOP}/tests/page_in_node.mjs", asked]
        done = subprocess.run(words, input="\n".join(files), stdout=subprocess.PIPE, text=True, check=True)
        return [json.loads(it) for it in done.stdout.splitlines()]

    def drawn(self, *texts):
        """The trees of pages as they are once their script has shown the plan, which has to be accepted."""
        found = []
        for text, told in zip(texts, self.opened(*texts), strict=True):
            self.assertEqual(told["head"]["className"], "verdict good", told["head"]["html"])
            found.append(made_of(text, told))
        return found

    def shown(self, *words):
        """The tree of the page that `show` writes of these words, with what its script draws."""
        return self.drawn(self.written(*words))[0]


class Drawing(Room):
    """A test of what the script of pages draws, in node. Their program is the one that the test asks, and a stand-in for its module is carried."""

    MODULE = b"the module"

    def setUp(self):
        super().setUp()
        if not web.NODE:
            self.skipTest("node isn't installed (Debian's package nodejs)")
        patch = mock.patch.object(carried, "module", lambda search: self.MODULE)
        patch.start()
        self.addCleanup(patch.stop)


class Refusing(Room):
    """A test of what several helpers refuse alike."""

    helpers = ()

    def all_refuse(self, words, status, part):
        """With these words each helper ends with this exit status, writes nothing, and says this."""
        for helper in self.helpers:
            ended, out, err = self.run_helper(helper.main, words)
            self.assertEqual((ended, out), (status, ""), err)
            self.assertIn(part, err)


class Element:
    """An element of a page: its tag, attributes, text of its own and below, and the elements below it."""

    def __init__(self, tag, attributes):
        self.tag, self.attributes, self.parts = tag, dict(attributes), []

    # What is no text of the elements around it.
    UNSEEN = ("script", "style", "template")

    def text(self):
        return "".join(it if isinstance(it, str) else "" if it.tag in self.UNSEEN else it.text() for it in self.parts)

    def all(self, tag=None, **wanted):
        """All elements below with this tag and these attributes; `class_` is one of the classes."""
        for part in self.parts:
            if isinstance(part, Element):
                if part.fits(tag, wanted):
                    yield part
                yield from part.all(tag, **wanted)

    def fits(self, tag, wanted):
        classes = (self.attributes.get("class") or "").split()
        has = all(value in classes if key == "class_" else self.attributes.get(key) == value for key, value in wanted.items())
        return has and tag in (None, self.tag)

    def one(self, tag=None, **wanted):
        (found,) = self.all(tag, **wanted)
        return found


class Tree(HTMLParser):
    """Reads a page into elements, and fails where a tag isn't closed by its own."""

    VOID = ("meta", "input", "br")
    # Whose end tags may lack, and do in pages that end with what begins their check.
    OPEN = ("body", "html")

    def __init__(self, text):
        super().__init__()
        self.open = [Element("", {})]
        self.feed(text)
        self.close()
        while self.open[-1].tag in self.OPEN:
            self.open.pop()
        if len(self.open) != 1:
            raise AssertionError(f"left open: {self.open[-1].tag}")

    def handle_starttag(self, tag, attrs):
        made = Element(tag, attrs)
        self.open[-1].parts.append(made)
        if tag not in self.VOID:
            self.open.append(made)

    def handle_startendtag(self, tag, attrs):
        self.open[-1].parts.append(Element(tag, attrs))

    def handle_endtag(self, tag):
        if self.open.pop().tag != tag:
            raise AssertionError(f"{tag} closes another tag, {self.getpos()}")

    def handle_data(self, data):
        self.open[-1].parts.append(data)


def tree(text):
    return Tree(text).open[0]


def made_of(text, told):
    """The tree of a page in which a script made this of its elements (tests/page_in_node.mjs)."""
    made = tree(text)
    for name, its in told.items():
        element = made.one(id=name)
        if "html" in its:
            element.parts = tree(its["html"]).parts
        elif "text" in its:
            element.parts = [its["text"]]
        attributes = {key: its[name] for key, name in (("class", "className"), ("media", "media")) if name in its}
        element.attributes.update(attributes)
        if its.get("hidden") is False:
            element.attributes.pop("hidden", None)
    return made
