"""How a helper ends: its exit statuses, those of the program where these fit (docs/COMMANDS.md has the table)."""
import enum


class Status(enum.IntEnum):
    """The exit statuses of all helpers. A helper that asks the program hands on its statuses, too."""

    # The answer was written.
    DONE = 0
    # What was given is no good: a plan that isn't accepted, a wrong situation, parts that are missing, nothing left to search.
    WRONG = 1
    WRONG_WORDS = 2
    BAD_SCENARIO = 3
    BAD_PLAN = 4
    UNREADABLE = 5
    UNWRITABLE = 6
    NO_MEMORY = 7
    TOO_MANY_RECORDS = 8
    TOO_LONG = 9
    BAD_FLOWN = 10
    BAD_PAIR = 11
    # `plan --seconds`: the time was over, and a gap plan was written; or nothing was, since not even the first round had ended.
    GAP_WRITTEN = 12
    NOTHING_YET = 13
    # The helper failed, or the program gave no answer.
    FAILED = 70
