"""page: writes a page to plan in: one HTML file, for any browser, that carries the proved program and asks no network for anything."""
from html import escape

from desk import carried, limits, page, program, running
from desk.markup import filled
from desk.status import Status
from desk.words import BadWords, Words

# The examples that the page offers, by their files.
EXAMPLES = ["two-cells", "small-lake", "drifting-grid", "lake-with-island", "swath"]
# The parts of its script, those that show a plan as a page of `show` does among them, and its styles.
PARTS = [*page.SHOWING, "planner.js"]
STYLES = ["page.css", "compass.css", "shown.css", "carried.css", "planner.css"]
# The most records of a plan where the page isn't told another number.
NODES = 200_000
WORDS = Words("page", "page", "writes a page to plan in: one file for any browser, which carries the proved program")


def example(name):
    """The bytes of an example's scenario, or None where it isn't there."""
    return carried.read(program.TOP, "examples", f"{name}.scenario") or carried.read(program.TOP, "..", "..", "share", "doc", "osp", "examples", f"{name}.scenario")


def button(name, text, more=""):
    """A button of the page."""
    return f'<button type="button" id="planner-{name}"{more}>{text}</button>'


def intake(names):
    """Where a scenario goes in."""
    options = "".join(f"<option>{escape(it)}</option>" for it in names)
    return (
        '<section class="intake"><h2>The scenario</h2><div class="controls"><label>Open a file <input type="file" id="planner-file"></label>'
        f'<label>or take an example <select id="planner-example"><option value="" disabled selected>choose</option>{options}</select></label></div>'
        '<p><label for="planner-text">or paste it here:</label></p><textarea id="planner-text" spellcheck="false"></textarea>'
        f'<div class="controls">{button("plan", "Plan", " disabled")}<label>with at most <input type="number" id="planner-nodes" value="{NODES}" min="1" max="{limits.MOST_NODES}"> records</label>'
        f'{button("stop", "Stop", " hidden")}</div>'
        f'<div class="controls">{button("check", "Check a plan", " disabled")}<label>that stands behind the scenario, or else in the file <input type="file" id="planner-file-of-plan"></label></div>'
        '<p id="planner-said" role="status" aria-live="polite"></p></section>'
    )


def answer():
    """Where the answer stands: what was accepted, what can be saved, and what `show` shows of it."""
    return (
        '<section id="planner-found" hidden><h2>Search plan <bdi id="planner-name"></bdi></h2><div class="verdict"><p class="chance" id="planner-chance"></p>'
        '<p class="accepted" id="planner-verdict"></p></div><p class="note" id="planner-about"></p><p class="note">'
        f'{filled("uncovered")}</p>'
        '<p class="saves"><a id="planner-save">Save the plan</a> &nbsp; <a id="planner-report">Save the report</a> &nbsp; '
        '<a id="planner-made">Save the scenario with its plan</a></p></section><div id="planner-shown" hidden></div>'
    )


def script():
    """The script of the page: no letter of it comes from a scenario or a plan."""
    return page.rules() + carried.script(*PARTS)


def document(module, examples):
    """The page: `module` is the program as WebAssembly, `examples` the bytes of scenarios by name."""
    styles, scripts = ["".join(map(page.asset, STYLES)), *(page.asset(f"{it}.css") for it in page.OTHERS)], script()
    blocks = {"program": module, **{f"example-{name}": it for name, it in examples.items()}}
    return (
        f"{page.front('Plan a search', styles, page.policy_of(styles, [scripts]))}"
        "<header><h1>Plan a search</h1>"
        "<p>A scenario goes in; out comes the best path, its exact chance, and records that show why no path is better. All of it stays in this browser. "
        "docs/FORMATS.md of osp says how a scenario is written.</p>"
        f'<p class="note worth">{filled("worth", sum="")}</p></header>\n'
        f'<main class="planner" id="planner-part" data-gap="{limits.MOST_GAP_RECORDS}">{intake(examples)}{answer()}</main>\n'
        f"{carried.templates(blocks)}<script>{scripts}</script>\n</body>\n</html>\n"
    )


def main(words):
    """Runs `osp page` and answers its exit status."""
    try:
        if WORDS.taken(words)[0]:
            raise BadWords("it takes no file")
    except BadWords as wrong:
        return WORDS.refuse(wrong)
    module = carried.built()
    if module is None:
        running.say("osp page: the program isn't built as WebAssembly: ./osp build does it")
        return Status.FAILED
    found = {it: example(it) for it in EXAMPLES}
    return running.write(document(module, {name: it for name, it in found.items() if it is not None}))
