"""show SCENARIO [PLAN] [--of SCENARIO] [--trial FILE] [--from HH:MM --minutes N]: writes a page that shows an accepted plan."""
from desk import accepted, carried, clock, comments, page, running, tried

WORDS = clock.words_of("show", "writes a page for a browser: the map, the path, and the chances period by period")


def page_of(given):
    """The page of what the words say, and what the program said on standard error. Raises accepted.Refused."""
    search = tried.with_trial(accepted.mapped(accepted.load(given.files, given.of)), given.trial)
    told, said = comments.read(search, given.times)
    return page.document(search, told, given.times, carried.module(search)), running.noted(search.note, "show", said)


def main(words):
    """Runs `osp show` with these words, and answers its exit status."""
    return clock.run(WORDS, page_of, words)
