"""The word of the tables that is spelled most like another word."""
from door import table

# How many letters of a word count, and how many may differ: fewer than this.
MOST_LETTERS, TOO_FAR = 40, 3


def apart(one, other):
    """The number of letters that are put in, left out, changed, or swapped with the next one."""
    rows = [list(range(len(other) + 1))]
    for i, letter in enumerate(one, 1):
        rows.append(next_row(rows, i, one, other, letter))
    return rows[-1][-1]


def next_row(rows, i, one, other, letter):
    """The row of numbers for one more letter of the one."""
    row = [i]
    for j, its in enumerate(other, 1):
        least = min(rows[i - 1][j - 1] + (letter != its), rows[i - 1][j] + 1, row[j - 1] + 1)
        if i > 1 and j > 1 and letter == other[j - 2] and one[i - 2] == its:
            least = min(least, rows[i - 2][j - 2] + 1)
        row.append(least)
    return row


def meant(word):
    """The word that is meant, within two letters, or ""."""
    found, best = "", TOO_FAR
    for it in map(table.first, [*table.COMMANDS, *table.HELPERS, *table.OWN]):
        far = apart(word[:MOST_LETTERS].lower(), it)
        if far < best and far * 2 < len(it):
            found, best = it, far
    return found
