"""What a text gives on a rack of notes or clips: the rules of docs/FORMAT.md and docs/KINDS.md, written out.

Nothing is taken from the library's code. `answer` gives `ok LENGTH NODES PRIMS` or `refused NUMBER PART DETAIL`.
"""

import re

MOST_BYTES = 16_384
MOST_NODES = 1_023
MOST_PRIMS = 170
LONGEST = 16_777_215
LARGEST = 4_294_967_295

# ---- the grammar, as what may still come
#
# What is still wanted of a text is a chain of goals: `(goal, rest)` or None at the end. A goal is
#   ("text", bytes)          just these bytes
#   ("number", limit)        a number up to the limit
#   ("digits", value, limit) more digits of a number that has this value so far, or none
#   ("name", letters)        letters of a name that has this many so far; from 1 on it may end
#   ("term",)  ("sign",)     a term; `+` or `|`
# Whatever is wanted can be had, so a text begins some file exactly when it leaves a chain of goals.


def wanting(*goals, then=None):
    for goal in reversed(goals):
        then = (goal, then)
    return then


START = wanting(
    ("text", b"score=6\nkind="), ("name", 0),
    ("text", b"\nlength="), ("number", LONGEST),
    ("text", b"\nprims="), ("number", MOST_PRIMS),
    ("text", b"\nbody="), ("term",),
    ("text", b"\nend=score\n"),
)  # fmt: skip


def may_end(goal):
    return goal[0] == "digits" or (goal[0] == "name" and goal[1] > 0)


def digits_after(value, digit, limit, then):
    longer = value * 10 + digit
    return [wanting(("digits", longer, limit), then=then)] if longer <= limit else []


def taken(goal, then, byte):
    """What may come after a byte that the first goal takes."""
    sort = goal[0]
    digit = byte - 48 if 48 <= byte <= 57 else None
    if sort == "text":
        if goal[1][0] != byte:
            return []
        return [wanting(("text", goal[1][1:]), then=then) if len(goal[1]) > 1 else then]
    if sort == "number":
        return digits_after(0, digit, goal[1], then) if digit is not None else []
    if sort == "digits":
        # a number that begins with 0 is 0
        return digits_after(goal[1], digit, goal[2], then) if digit is not None and goal[1] > 0 else []
    if sort == "name":
        return [wanting(("name", goal[1] + 1), then=then)] if 97 <= byte <= 122 and goal[1] < 8 else []
    if sort == "sign":
        return [then] if byte in b"+|" else []
    if byte == ord("r"):
        return [wanting(("number", LONGEST), then=then)]
    if byte == ord("p"):
        comma, number = ("text", b","), ("number", LARGEST)
        return [wanting(number, comma, number, comma, number, comma, number, then=then)]
    if byte == ord("("):
        return [wanting(("term",), ("sign",), ("term",), ("text", b")"), then=then)]
    return []


def after(wanted, byte):
    """The chains of goals that a byte leaves, from those before it."""
    left = []
    for chain in wanted:
        while chain is not None:
            goal, then = chain
            left += taken(goal, then, byte)
            if not may_end(goal):
                break
            chain = then
    return left


def complete(wanted):
    for chain in wanted:
        while chain is not None and may_end(chain[0]):
            chain = chain[1]
        if chain is None:
            return True
    return False


def first_misfit(text):
    """The offset of the first byte that cannot belong, or the length where all may and more is wanted; None for a file."""
    wanted = [START]
    for offset, byte in enumerate(text):
        wanted = after(wanted, byte)
        if not wanted:
            return offset
    return None if complete(wanted) else len(text)


LEAST = {"number": b"0", "digits": b"", "term": b"r0", "sign": b"+"}


def completion(text):
    """Bytes that make a file of a text that begins one."""
    wanted = [START]
    for byte in text:
        wanted = after(wanted, byte)
    more, chain = b"", wanted[0]
    while chain is not None:
        goal, chain = chain
        if goal[0] == "text":
            more += goal[1]
        elif goal[0] == "name":
            more += b"" if goal[1] else b"a"
        else:
            more += LEAST[goal[0]]
    return more


# ---- the grammar once more, of whole files only, to hold the one above to

NUMBER = rb"(0|[1-9][0-9]*)"
HEAD = re.compile(rb"score=6\nkind=([a-z]{1,8})\nlength=" + NUMBER + rb"\nprims=" + NUMBER + rb"\n")
WHOLE = re.compile(HEAD.pattern + rb"body=([^\n]*)\nend=score\n", re.DOTALL)
LEAF = re.compile(rb"r" + NUMBER + rb"|p" + rb",".join([NUMBER] * 4))


def read_head(text):
    """Name, length, count, the offsets of these two and where the head ends; None where the text has no head."""
    found = HEAD.match(text)
    if not found or int(found[2]) > LONGEST or int(found[3]) > MOST_PRIMS:
        return None
    return found[1], int(found[2]), int(found[3]), found.start(2), found.start(3), found.end()


def leaf_fits(leaf):
    if leaf[1] is not None:
        return int(leaf[1]) <= LONGEST
    return all(int(n) <= LARGEST for n in leaf.groups()[1:])


def read_term(body, leaf_value, pair_value):
    """The value of a term, by its leaves and pairs; None where the bytes are no term."""
    stack, at, value = [], 0, None
    while True:
        if value is None:
            if body[at : at + 1] == b"(":
                stack.append([])
                at += 1
                continue
            leaf = LEAF.match(body, at)
            if not leaf or not leaf_fits(leaf):
                return None
            value, at = leaf_value(leaf), leaf.end()
        if not stack:
            return value if at == len(body) else None
        pair, mark = stack[-1], body[at : at + 1]
        at += 1
        if not pair and mark in (b"+", b"|"):
            pair += [value, mark]
            value = None
        elif pair and mark == b")":
            stack.pop()
            value = pair_value(pair[1], pair[0], value)
        else:
            return None


def is_file(text):
    found = WHOLE.fullmatch(text)
    if not found or read_head(text) is None:
        return False
    return read_term(found[4], lambda leaf: 0, lambda mark, a, b: 0) is not None


# ---- what a file gives


def legal(kind, p):
    first, second, third, fourth = p
    if kind == "note":
        return first <= 127 and 1 <= second <= 127 and 1 <= third <= 65_535 and fourth == 0
    return (
        first <= 9_999 and second <= 16_777_215 and 1 <= third <= 65_535 and fourth <= 1
        and second + third <= 16_777_216
    )  # fmt: skip


def score_length(body):
    """The third number of a primitive is its length, for notes and for clips."""
    return read_term(
        body,
        lambda leaf: int(leaf[1]) if leaf[1] is not None else int(leaf[4]),
        lambda mark, a, b: a + b if mark == b"+" else max(a, b),
    )


def answer(text, kind):
    if len(text) > MOST_BYTES:
        return "refused 1 reading 16384"
    misfit, head = first_misfit(text), read_head(text)
    if not text.startswith(b"score=6\n"):
        return f"refused 2 reading {misfit}"
    if head is None:
        return f"refused 3 reading {misfit}"
    name, length, count, length_at, count_at, body_at = head
    if name != kind.encode():
        return "refused 4 reading 13"
    if misfit is not None:
        return f"refused 5 reading {misfit}"
    body_at += len(b"body=")
    body = text[body_at : -len(b"\nend=score\n")]
    # each node begins with one of these three letters, and they stand nowhere else in a term
    nodes = [body_at + i for i, byte in enumerate(body) if byte in b"(rp"]
    prims = [body_at + i for i, byte in enumerate(body) if byte in b"p"]
    excess = nodes[MOST_NODES : MOST_NODES + 1] + prims[MOST_PRIMS : MOST_PRIMS + 1]
    if excess:
        return f"refused 6 reading {min(excess)}"
    for at in prims:
        if not legal(kind, [int(n) for n in LEAF.match(text, at).groups()[1:]]):
            return f"refused 7 kind {at}"
    true_length = score_length(body)
    if true_length > LONGEST:
        return f"refused 8 reading {body_at}"
    if length != true_length:
        return f"refused 9 reading {length_at}"
    if count != len(prims):
        return f"refused 9 reading {count_at}"
    return f"ok {true_length} {len(nodes)} {len(prims)}"


# ---- the two readings of the grammar, compared


def agrees(text):
    """Whether both readings take the text for a file or for none, and what stands before a misfit for a start of one."""
    misfit = first_misfit(text)
    if (misfit is None) != is_file(text):
        return False
    start = text if misfit is None else text[:misfit]
    if not is_file(start + completion(start)):
        return False
    if misfit is None or misfit == len(text):
        return True
    # nothing that completes what stands before the misfit, or a usual end, makes a file behind it
    ends = (b"", completion(start), b"0" + completion(start), b"\nend=score\n", b"r0\nend=score\n", b"+r0)\nend=score\n")
    return not any(is_file(text[: misfit + 1] + end) for end in ends)
