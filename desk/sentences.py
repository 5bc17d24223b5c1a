"""What is said of an accepted plan in a brief and beside it, as sentences: sentences.js says the same in a page."""
from desk import percent
from desk.markup import filled


def plural(count, one):
    """A count with its noun."""
    return f"{count} {one}" if count == 1 else f"{count} {one}s"


def best(count, flown):
    """What no other of so many searchers is better than, where so many looks are flown."""
    what = "path" if count == 1 else "pair of paths"
    return f"{what} that begins as flown" if flown else what


def verdict(search):
    """What the program accepted, as a sentence: that nothing is better, or a ceiling of what the others find, if it is below the whole."""
    other = best(search.seats.count, search.seats.flown)
    if search.ceiling is None:
        return filled("no_better", best=other)
    more = search.ceiling > search.report.value
    if more and search.ceiling >= search.report.weight:
        return filled("nothing_shown")
    than = f" than {percent.up(search.ceiling, search.report.weight)} %" if more else ""
    return filled("no_more", best=other, than=than)


def flown_said(flown, horizon):
    """What is said of so many flown looks; and the word for them where others are to come, else None."""
    if flown == horizon:
        return filled("all_flown"), None
    return (filled("first_flown"), "it") if flown == 1 else (filled("flown", count=flown), "these")


def about_flown(search):
    """What is said of a flown prefix, in short sentences: how many looks are flown, and what those to come find if these found nothing."""
    k = search.seats.flown
    if not k:
        return []
    (head, these), found, missed = flown_said(k, search.sc.horizon), search.frames[k].so_far, search.frames[k].missed
    if these is None:
        return [head]
    if not missed:
        return [head, filled("flown_certain", these=these)]
    return [head, filled("flown_rest", these=these, share=percent.cut(search.report.value - found, missed))]


def about_trial(search):
    """What is said of a trial of the plan, as sentences; none where there was none."""
    return search.trial.sentences() if search.trial else []


def about_names(search):
    """What is said of names that are numbers, as a list of one sentence or none."""
    return [filled("numbered")] if search.seats.is_numbered else []
