"""The documents: what they have of the sources, their links, and that each command that they show is run."""
import os
import re
import unittest

from tests import answers
from tests.house import TOP, read, run

# A link or a picture: what stands in brackets, and its target. Code is none.
LINK = re.compile(r"!?\[[^\]\n]*\]\(([^)\s]+)\)")
CODE = re.compile(r"^ *```.*?^ *```$|`[^`\n]*`", re.M | re.S)
# A document that is named in words.
NAMED = re.compile(r"(?<![\w/.-])((?:docs/|examples/)?[A-Z][A-Z-]+\.md)\b")


def text_of(name):
    """A document."""
    return read(f"{TOP}/{name}").decode()


def files_of(folder):
    """The files of a folder of the repository."""
    return [f"{folder}/{it}" for it in sorted(os.listdir(f"{TOP}/{folder}")) if os.path.isfile(f"{TOP}/{folder}/{it}")]


def is_document(name):
    """Whether a document of this name is there, at the top or in docs/."""
    return os.path.exists(f"{TOP}/{name}") or os.path.exists(f"{TOP}/docs/{name}")


def anchors_of(text):
    """The anchors of a document: of each heading its words in small letters, with dashes between them; what comes again is numbered."""
    found = []
    for title in re.findall(r"^#+ (.*)$", re.sub(r"^ *```.*?^ *```$", "", text, flags=re.M | re.S), re.M):
        slug = re.sub(r"[^\w\- ]", "", title.strip().lower()).replace(" ", "-")
        found.append(f"{slug}-{found.count(slug)}" if slug in found else slug)
    return found


def is_right(name, target):
    """Whether a link of a document leads to a file that is there, and to a heading of it."""
    path, _, anchor = target.partition("#")
    to = os.path.normpath(os.path.join(os.path.dirname(name), path)) if path else name
    if not os.path.exists(f"{TOP}/{to}"):
        return False
    return not anchor or (to.endswith(".md") and anchor in anchors_of(text_of(to)))


def links_of(text):
    """The targets of a document's links into the repository."""
    return [it for it in LINK.findall(CODE.sub("", text)) if not re.match(r"[a-z]+:", it)]


class Links(unittest.TestCase):
    """What a document points to."""

    def test_links(self):
        """each link of a document leads to a file, and to a heading of it"""
        links = [(name, it) for name in answers.documents() for it in links_of(text_of(name))]
        self.assertGreater(len(links), 50)
        self.assertEqual([it for it in links if not is_right(*it)], [])

    def test_wrong_links(self):
        """a link to no file, to no heading, or to a heading of another document is found"""
        text = "[a](NONE.md), ![b](drifting-grid.png) [c](PROOF.md#4-closing-a-prefix) [d](PROOF.md#what-a-path-finds) `[e](NONE.md)`\n"
        links = links_of(f"{text}[f](#the-script-osp) [g](../README.md#where-to-read-on) [h](https://example.org/NONE.md)")
        self.assertEqual(len(links), 6)
        self.assertEqual([it for it in links if not is_right("docs/COMMANDS.md", it)], ["NONE.md", "PROOF.md#what-a-path-finds"])

    def test_anchors(self):
        """an anchor is made of a heading as a reader of Markdown makes it"""
        text = "# With `draft`\n```\n# no heading\n```\n## 4. What, and why: ./osp\n## A\n## A\n"
        self.assertEqual(anchors_of(text), ["with-draft", "4-what-and-why-osp", "a", "a-1"])

    def test_named(self):
        """each document that another one, a script or a helper names is there"""
        places = [*answers.documents(), "osp", *files_of("desk"), *files_of("door"), *files_of("bench"), *files_of("tests")]
        named = [(it, name) for it in places for name in NAMED.findall(read(f"{TOP}/{it}").decode(errors="replace"))]
        self.assertGreater(len(named), 100)
        self.assertEqual([it for it in named if it[1] != "NONE.md" and not is_document(it[1])], [])


class Shown(unittest.TestCase):
    """The commands that documents show. (tests/door_texts.py runs them, and compares what they write with what is shown.)"""

    def test_each_is_run(self):
        """each command behind "$ " of a document is a case"""
        texts, wrong = answers.texts_of_documents()
        self.assertEqual(wrong, [])
        prompts = [it for name in answers.documents() for it in re.findall(r"^\s*\$ ", text_of(name), re.M)]
        self.assertEqual(len(texts), len(prompts))
        self.assertGreater(len(texts), 20)

    def test_what_cannot_be_run(self):
        """a command that no case can run is told"""
        self.assertIsNone(answers.shown_by("a document", "rm -r crates", ""))
        self.assertEqual(answers.shown_in("```\n$ one\n1\n2\n$ two\n```\n"), [("one", "1\n2\n"), ("two", "")])


class Generated(unittest.TestCase):
    """Parts of documents that a script writes."""

    def test_what_run_rests_on(self):
        """the table of docs/DEFINITIONS.md is what bench/rests prints"""
        stated = re.findall(r"<!-- bench/rests -->\n(.*?)<!-- end of bench/rests -->", text_of("docs/DEFINITIONS.md"), re.S)
        self.assertEqual(stated, [run([f"{TOP}/bench/rests"]).gives(0, None, "").out])

    def test_pictures(self):
        """the pictures are what bench/drawings writes"""
        run([f"{TOP}/bench/drawings", "--check"]).gives(0, "", "")
