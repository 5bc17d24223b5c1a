"""A scenario whose states are parts of squares, as `draft` names and places them, with all that comes of it worked by hand.

The area has two by three squares of 500 m; the person is in parts of 250 m, and reaches five of them, or is lost:

    r0c0: 01 02 | r0c1: 01 .  | r0c2
          .  04 |       03 .  |
    r1c0        | r1c1        | r1c2

Of 8 parts 4 are in r0c0-01, 2 in r0c0-02 and 2 in r0c0-04. In the first step all go east by one state; in the second half of what is
in r0c0-02 goes south, r0c0-04 gets it, r0c1-01 goes south, and r0c1-03 is lost. A look misses half of what is in its square.
"""

COMMENTS = """\
# A dinghy drifts east.
# at r0c0-01 125 125
# at r0c0-02 375 125
# at r0c0-04 375 375
# at r0c1-01 625 125
# at r0c1-03 625 375
# at lost 2000 750
# at r0c0 250 250
# at r0c1 750 250
# at r0c2 1250 250
# at r1c0 250 750
# at r1c1 750 750
# at r1c2 1250 750
"""
BODY = """\
scenario 2
horizon 3
parts 8 2 2
cell r0c0-01
cell r0c0-02
cell r0c0-04
cell r0c1-01
cell r0c1-03
cell lost
position r0c0
position r0c1
position r0c2
position r1c0
position r1c1
position r1c2
start r1c0
first r0c0-01 4 r0c0-02 2 r0c0-04 2
moves r0c0 r0c0 r0c1 r1c0
moves r0c1 r0c0 r0c1 r0c2 r1c1
moves r0c2 r0c1 r0c2 r1c2
moves r1c0 r0c0 r1c0 r1c1
moves r1c1 r0c1 r1c0 r1c1 r1c2
moves r1c2 r0c2 r1c1 r1c2
drift r0c0-01 r0c0-02 2
drift r0c0-02 r0c1-01 2
drift r0c0-04 r0c1-03 2
drift r0c1-01 r0c1-01 2
drift r0c1-03 r0c1-03 2
drift lost lost 2
driftin 2 r0c0-02 r0c0-02 1 r0c0-04 1
driftin 2 r0c1-01 r0c1-03 2
driftin 2 r0c1-03 lost 2
look r0c0 r0c0-01 1 r0c0-02 1 r0c0-04 1
look r0c1 r0c1-01 1 r0c1-03 1
look r0c2
look r1c0
look r1c1
look r1c2
end
"""
TEXT = (COMMENTS + BODY).encode()
# The path r0c0 r0c1 r0c0 finds 4 of 8, then 1 of 8, then 1 of 8; W is 8 * 2^2 * 2^3 = 256.
PATH, FOUND, WHOLE = ["r0c0", "r0c1", "r0c0"], [128, 32, 32], 256
# What is left by state in the order of the cells, in parts of W: before the first look, and behind each.
LEFT = [[128, 64, 64, 0, 0, 0], [64, 32, 32, 0, 0, 0], [0, 64, 0, 16, 16, 0], [0, 16, 16, 0, 16, 16]]
# The same by square: r0c0, r0c1, lost.
BY_SQUARE = [[256, 0, 0], [128, 0, 0], [64, 32, 0], [32, 16, 16]]
