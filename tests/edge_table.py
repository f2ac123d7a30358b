"""The edge cases: files, and which of them are loaded on a rack of which kind."""

import sys

from edge_rules import MOST_BYTES, answer, score_length

FILES = {}  # name: bytes
CASES = []  # lines of `cases`
ASKED = []  # text, kind, answer


def title(words):
    CASES.append(f"# {words}")


def kept(name, keep, kind, expected=None):
    """A case of a file that is there, whole where keep is None. The answer has to be the one expected, if any is."""
    text = FILES[name] if keep is None else FILES[name][:keep]
    given = answer(text, kind)
    if expected is not None and given != expected:
        sys.exit(f"{name}: {given}, and not {expected}")
    CASES.append(f"{name} {'-' if keep is None else keep} {kind} {given}")
    ASKED.append((text, kind, given))


def case(name, text, kind, expected=None):
    if name in FILES:
        sys.exit(f"two files {name}")
    FILES[name] = text
    kept(name, None, kind, expected)


def file_of(body, length=0, prims=0, kind="note"):
    return f"score=6\nkind={kind}\nlength={length}\nprims={prims}\nbody={body}\nend=score\n".encode()


def true_file(body, kind="note"):
    return file_of(body, score_length(body.encode()), body.count("p"), kind)


def right_chain(leaves, sign="+"):
    return "".join(f"({leaf}{sign}" for leaf in leaves[:-1]) + leaves[-1] + ")" * (len(leaves) - 1)


def left_chain(leaves, sign="+"):
    return "(" * (len(leaves) - 1) + leaves[0] + "".join(f"{sign}{leaf})" for leaf in leaves[1:])


def balanced(leaves, sign="+"):
    if len(leaves) == 1:
        return leaves[0]
    half = len(leaves) // 2
    return f"({balanced(leaves[:half], sign)}{sign}{balanced(leaves[half:], sign)})"


NOTE = "p60,96,480,0"
CLIP = "p7,1000,500,0"
SMALL_NOTE = true_file("((p60,96,480,0+r240)|(r480+p64,90,240,0))")
SMALLER_NOTE = true_file("(p60,96,12,0|(r3+r11))")
SMALL_CLIP = true_file("(p7,1000,500,0+(r20|p7,1200,300,1))", "clip")


def cuts():
    title("a small file of each kind, cut behind each of its bytes")
    FILES["small-note"], FILES["small-clip"] = SMALL_NOTE, SMALL_CLIP
    for name, kind in (("small-note", "note"), ("small-clip", "clip")):
        for keep in range(len(FILES[name]) + 1):
            kept(name, keep, kind)
    title("the small files on a rack of the other kind, whole and cut")
    for name, kind in (("small-note", "clip"), ("small-clip", "note")):
        kept(name, None, kind, "refused 4 reading 13")
        kept(name, FILES[name].index(b"body="), kind, "refused 4 reading 13")
        kept(name, FILES[name].index(b"body=") - 1, kind)


def replacements():
    title("a smaller note file with one byte replaced by x, by 0 and by byte 0")
    case("smaller-note", SMALLER_NOTE, "note", "ok 14 5 1")
    for label, byte in (("x", b"x"), ("zero", b"0"), ("nul", b"\0")):
        for at in range(len(SMALLER_NOTE)):
            if SMALLER_NOTE[at : at + 1] != byte:
                case(f"{label}-{at:03}", SMALLER_NOTE[:at] + byte + SMALLER_NOTE[at + 1 :], "note")
    title("the small clip file with one digit replaced by 9")
    for at in range(len(SMALL_CLIP)):
        if SMALL_CLIP[at : at + 1] in b"012345678":
            case(f"nine-{at:03}", SMALL_CLIP[:at] + b"9" + SMALL_CLIP[at + 1 :], "clip")


def first_lines():
    title("first lines")
    rest = SMALL_NOTE[8:]
    case("first-empty-file", b"", "note", "refused 2 reading 0")
    case("first-newline", b"\n", "note", "refused 2 reading 0")
    case("first-edition-7", b"score=7\n" + rest, "note", "refused 2 reading 6")
    case("first-edition-5", b"score=5\n" + rest, "note", "refused 2 reading 6")
    case("first-edition-60", b"score=60\n" + rest, "note", "refused 2 reading 7")
    case("first-edition-06", b"score=06\n" + rest, "note", "refused 2 reading 6")
    case("first-no-edition", b"score=\n" + rest, "note", "refused 2 reading 6")
    case("first-space-behind", b"score=6 \n" + rest, "note", "refused 2 reading 7")
    case("first-space-before", b" score=6\n" + rest, "note", "refused 2 reading 0")
    case("first-upper-case", b"Score=6\n" + rest, "note", "refused 2 reading 0")
    case("first-mark", b"\xef\xbb\xbf" + SMALL_NOTE, "note", "refused 2 reading 0")
    case("first-high-byte", b"score\xbd6\n" + rest, "note", "refused 2 reading 5")
    case("first-return", b"score=6\r\n" + rest, "note", "refused 2 reading 7")
    case("first-missing", rest, "note", "refused 2 reading 0")
    case("first-twice", b"score=6\n" + SMALL_NOTE, "note", "refused 3 reading 8")
    case("first-two-newlines", b"score=6\n\n" + rest, "note", "refused 3 reading 8")


def heads():
    title("names")
    behind = b"\nlength=0\nprims=0\nbody=r0\nend=score\n"
    for label, name, expected in (
        ("empty", b"", "refused 3 reading 13"),
        ("one", b"n", "refused 4 reading 13"),
        ("three", b"not", "refused 4 reading 13"),
        ("five", b"notes", "refused 4 reading 13"),
        ("eight", b"abcdwxyz", "refused 4 reading 13"),
        ("nine", b"abcdwxyzn", "refused 3 reading 21"),
        ("upper-first", b"Note", "refused 3 reading 13"),
        ("upper-last", b"notE", "refused 3 reading 16"),
        ("digit-first", b"1note", "refused 3 reading 13"),
        ("digit-last", b"note6", "refused 3 reading 17"),
        ("space-behind", b"note ", "refused 3 reading 17"),
        ("space-before", b" note", "refused 3 reading 13"),
        ("hyphen", b"no-te", "refused 3 reading 15"),
        ("below-a", b"no`e", "refused 3 reading 15"),
        ("above-z", b"no{e", "refused 3 reading 15"),
        ("high-byte", b"not\xe9", "refused 3 reading 16"),
        ("all-letters-high", b"\xee\xef\xf4\xe5", "refused 3 reading 13"),
        ("return", b"note\r", "refused 3 reading 17"),
        ("good", b"note", "ok 0 1 0"),
    ):
        case(f"name-{label}", b"score=6\nkind=" + name + behind, "note", expected)

    title("lengths in the head; the value stands at 25")
    for label, value, body, expected in (
        ("zero", "0", "r0", "ok 0 1 0"),
        ("most", "16777215", "r16777215", "ok 16777215 1 0"),
        ("past", "16777216", "r16777215", "refused 3 reading 32"),
        ("far-past", "99999999", "r16777215", "refused 3 reading 32"),
        ("digit-more", "167772150", "r16777215", "refused 3 reading 33"),
        ("32-bits", "4294967296", "r0", "refused 3 reading 32"),
        ("empty", "", "r0", "refused 3 reading 25"),
        ("00", "00", "r0", "refused 3 reading 26"),
        ("01", "01", "r1", "refused 3 reading 26"),
        ("minus", "-1", "r0", "refused 3 reading 25"),
        ("plus", "+1", "r1", "refused 3 reading 25"),
        ("space-before", " 1", "r1", "refused 3 reading 25"),
        ("space-behind", "1 ", "r1", "refused 3 reading 26"),
        ("letter", "1a", "r1", "refused 3 reading 26"),
        ("point", "1.0", "r1", "refused 3 reading 26"),
        ("return", "1\r", "r1", "refused 3 reading 26"),
    ):
        case(f"length-{label}", file_of(body, length=value), "note", expected)

    title("counts in the head; the value stands at 33")
    for label, value, expected in (
        ("zero", "0", "ok 0 1 0"),
        ("one", "1", "refused 9 reading 33"),
        ("most", "170", "refused 9 reading 33"),
        ("past", "171", "refused 3 reading 35"),
        ("180", "180", "refused 3 reading 35"),
        ("200", "200", "refused 3 reading 35"),
        ("1000", "1000", "refused 3 reading 36"),
        ("empty", "", "refused 3 reading 33"),
        ("00", "00", "refused 3 reading 34"),
        ("01", "01", "refused 3 reading 34"),
        ("space-behind", "0 ", "refused 3 reading 34"),
        ("return", "0\r", "refused 3 reading 34"),
    ):
        case(f"count-{label}", file_of("r0", prims=value), "note", expected)

    title("lines of the head that are wrong, missing, moved or doubled")
    kind, length, prims = b"kind=note\n", b"length=0\n", b"prims=0\n"
    first, last = b"score=6\n", b"body=r0\nend=score\n"
    case("lines-no-kind", first + length + prims + last, "note", "refused 3 reading 8")
    case("lines-no-length", first + kind + prims + last, "note", "refused 3 reading 18")
    case("lines-no-prims", first + kind + length + last, "note", "refused 3 reading 27")
    case("lines-length-first", first + length + kind + prims + last, "note", "refused 3 reading 8")
    case("lines-prims-first", first + kind + prims + length + last, "note", "refused 3 reading 18")
    case("lines-kind-twice", first + kind + kind + length + prims + last, "note", "refused 3 reading 18")
    case("lines-prims-twice", first + kind + length + prims + prims + last, "note", "refused 5 reading 35")
    case("lines-upper-key", first + b"Kind=note\n" + length + prims + last, "note", "refused 3 reading 8")
    case("lines-no-equals", first + b"kind:note\n" + length + prims + last, "note", "refused 3 reading 12")
    case("lines-blank", first + kind + b"\n" + length + prims + last, "note", "refused 3 reading 18")
    case("lines-joined", first + b"kind=note;" + length + prims + last, "note", "refused 3 reading 17")
    case("lines-rate", first + kind + b"rate=480\n" + length + prims + last, "note", "refused 3 reading 18")
    case("lines-only-head", first + kind + length + prims, "note", "refused 5 reading 35")


def other_kinds():
    title("another kind's name comes before what is wrong behind the head, and behind what is wrong before its end")
    head = "score=6\nkind=clip\nlength=0\nprims=0\n"
    case("other-good-body", file_of("r0", kind="clip"), "note", "refused 4 reading 13")
    case("other-broken-body", (head + "body=(((\n").encode(), "note", "refused 4 reading 13")
    case("other-no-body", head.encode(), "note", "refused 4 reading 13")
    case("other-far-nested", (head + "body=" + "(" * 4000).encode(), "note", "refused 4 reading 13")
    case("other-high-bytes", head.encode() + b"\xff" * 100, "note", "refused 4 reading 13")
    case("other-cut-head", head[:-1].encode(), "note", "refused 3 reading 34")
    case("other-past-count", file_of("r0", prims=171, kind="clip"), "note", "refused 3 reading 35")
    case("other-note-for-clip", true_file(NOTE), "clip", "refused 4 reading 13")


def terms():
    title("rests; the term stands at 40")
    for label, body, length, expected in (
        ("empty", "r", 0, "refused 5 reading 41"),
        ("00", "r00", 0, "refused 5 reading 42"),
        ("01", "r01", 1, "refused 5 reading 42"),
        ("past", "r16777216", 16777215, "refused 5 reading 48"),
        ("past-20", "r16777220", 16777215, "refused 5 reading 48"),
        ("far-past", "r99999999", 16777215, "refused 5 reading 48"),
        ("digit-more", "r167772150", 16777215, "refused 5 reading 49"),
        ("minus", "r-1", 0, "refused 5 reading 41"),
        ("space", "r 1", 1, "refused 5 reading 41"),
        ("comma", "r1,2", 1, "refused 5 reading 42"),
        ("upper", "R1", 1, "refused 5 reading 40"),
    ):
        text = file_of(body, length=length)
        shift = len(str(length)) - 1
        *words, at = expected.split()
        case(f"rest-{label}", text, "note", " ".join(words) + f" {int(at) + shift}")

    title("numbers of primitives: the greatest, one past it, too few, too many, leading zeros; the term stands at 40")
    for place in range(4):
        numbers = ["60", "96", "480", "0"]
        before = 41 + sum(len(n) + 1 for n in numbers[:place])
        for label, value, expected in (
            ("most", "4294967295", "refused 7 kind 40"),
            ("past", "4294967296", f"refused 5 reading {before + 9}"),
            ("far-past", "9999999999", f"refused 5 reading {before + 9}"),
            ("digit-more", "42949672950", f"refused 5 reading {before + 10}"),
            ("01", "01", f"refused 5 reading {before + 1}"),
            ("empty", "", f"refused 5 reading {before}"),
        ):
            numbers[place] = value
            case(f"number-{place + 1}-{label}", file_of("p" + ",".join(numbers), prims=1), "note", expected)
    for label, body, expected in (
        ("none", "p", "refused 5 reading 41"),
        ("three", "p60,96,480", "refused 5 reading 50"),
        ("five", "p60,96,480,0,0", "refused 5 reading 52"),
        ("comma-behind", "p60,96,480,0,", "refused 5 reading 52"),
        ("space", "p60, 96,480,0", "refused 5 reading 44"),
        ("point", "p60.96.480.0", "refused 5 reading 43"),
        ("minus", "p-1,96,480,0", "refused 5 reading 41"),
        ("upper", "P60,96,480,0", "refused 5 reading 40"),
    ):
        case(f"numbers-{label}", file_of(body, prims=1), "note", expected)

    title("pairs; the term stands at 40")
    for label, body, expected in (
        ("empty-body", "", "refused 5 reading 40"),
        ("one-part", "(r0)", "refused 5 reading 43"),
        ("no-part", "()", "refused 5 reading 41"),
        ("no-right", "(r0+)", "refused 5 reading 44"),
        ("no-left", "(+r0)", "refused 5 reading 41"),
        ("three-parts", "(r0+r0+r0)", "refused 5 reading 46"),
        ("no-parentheses", "r0+r0", "refused 5 reading 42"),
        ("open", "(r0+r0", "refused 5 reading 46"),
        ("closed-twice", "(r0+r0))", "refused 5 reading 47"),
        ("open-twice", "((r0+r0)", "refused 5 reading 48"),
        ("other-sign", "(r0*r0)", "refused 5 reading 43"),
        ("two-signs", "(r0++r0)", "refused 5 reading 44"),
        ("spaces", "(r0 + r0)", "refused 5 reading 43"),
        ("brackets", "[r0+r0]", "refused 5 reading 40"),
        ("high-byte", "(r0\u00a6r0)", "refused 5 reading 43"),
        ("two-terms", "r0r0", "refused 5 reading 42"),
        ("line-break", "(r0\n+r0)", "refused 5 reading 43"),
        ("return", "r0\r", "refused 5 reading 42"),
        ("letter", "x", "refused 5 reading 40"),
        ("sequence", "(r0+r0)", "ok 0 3 0"),
        ("parallel", "(r0|r0)", "ok 0 3 0"),
    ):
        case(f"pair-{label}", file_of(body), "note", expected)


def endings():
    title("last lines; the body ends at 42")
    start = file_of("r0")[:-11]
    for label, ending, expected in (
        ("missing", b"", "refused 5 reading 42"),
        ("only-newline", b"\n", "refused 5 reading 43"),
        ("no-newline", b"\nend=score", "refused 5 reading 52"),
        ("byte-behind", b"\nend=score\nx", "refused 5 reading 53"),
        ("newline-behind", b"\nend=score\n\n", "refused 5 reading 53"),
        ("nul-behind", b"\nend=score\n\0", "refused 5 reading 53"),
        ("high-byte-behind", b"\nend=score\n\xff", "refused 5 reading 53"),
        ("return", b"\nend=score\r\n", "refused 5 reading 52"),
        ("return-before", b"\r\nend=score\n", "refused 5 reading 42"),
        ("scores", b"\nend=scores\n", "refused 5 reading 52"),
        ("scope", b"\nend=scope\n", "refused 5 reading 50"),
        ("upper", b"\nEnd=score\n", "refused 5 reading 43"),
        ("blank-before", b"\n\nend=score\n", "refused 5 reading 43"),
        ("space-behind", b"\nend=score \n", "refused 5 reading 52"),
    ):
        case(f"ending-{label}", start + ending, "note", expected)
    case("ending-two-files", file_of("r0") * 2, "note", "refused 5 reading 53")
    case("ending-all-returns", file_of("r0").replace(b"\n", b"\r\n"), "note", "refused 2 reading 7")


def sizes():
    title("bytes: 16,384 and one more")
    at = 40
    nested = file_of("(" * (MOST_BYTES - at))[: -len("\nend=score\n")]
    FILES["size-nested"] = nested + b"("
    kept("size-nested", 16383, "note", "refused 5 reading 16383")
    kept("size-nested", 16384, "note", "refused 5 reading 16384")
    kept("size-nested", None, "note", "refused 1 reading 16384")
    left = file_of(left_chain(["r10"] + ["r0"] * 3266))
    FILES["size-left"] = left + b"\n"
    kept("size-left", 16384, "note")
    kept("size-left", 16383, "note", "refused 5 reading 16383")
    kept("size-left", None, "note", "refused 1 reading 16384")
    right = file_of(right_chain(["r0"] * 3266 + ["r10"]))
    assert len(left) == len(right) == MOST_BYTES
    case("size-right", right, "note")
    many = [NOTE] * 1088
    case("size-primitives", file_of(right_chain(many)), "note")
    case("size-last-byte", left[:-1] + b"x", "note", "refused 5 reading 16383")
    case("size-edition-7", b"score=7\n" + left[8:], "note", "refused 2 reading 6")
    case("size-past-edition-7", b"score=7\n" + left[8:] + b"\n", "note", "refused 1 reading 16384")
    case("size-past-other-kind", file_of(left_chain(["r0"] * 3270), kind="clip"), "note", "refused 1 reading 16384")
    case("size-past-digits", b"score=6\nkind=note\nlength=" + b"9" * 16360, "note", "refused 1 reading 16384")
    case("size-digits", b"score=6\nkind=note\nlength=" + b"1" * 16359, "note", "refused 3 reading 33")
    case("size-nul", b"\0" * 16384, "note", "refused 2 reading 0")
    case("size-past-nul", b"\0" * 16385, "note", "refused 1 reading 16384")
    case("size-far-past", SMALL_NOTE * 700, "note", "refused 1 reading 16384")


def node_limits():
    title("nodes: 1,023, and 1,025, which is the next count that a score can have")
    for label, chain in (("right", right_chain), ("left", left_chain), ("balanced", balanced)):
        case(f"nodes-1023-{label}", true_file(chain(["r1"] * 512)), "note", "ok 512 1023 0")
        case(f"nodes-1025-{label}", true_file(chain(["r1"] * 513)), "note")
    case("nodes-1023-parallel", true_file(right_chain(["r7"] * 512, "|")), "note", "ok 7 1023 0")
    case("nodes-1025-parallel", true_file(right_chain(["r7"] * 513, "|")), "note")
    case("nodes-1021", true_file(right_chain(["r1"] * 511)), "note", "ok 511 1021 0")
    title("nodes: the 1,024th is a rest, a primitive or a pair")
    case("nodes-2047-left", true_file(left_chain(["r1"] * 1024)), "note", f"refused 6 reading {43 + 1023}")
    case("nodes-2049-left", true_file(left_chain(["r1"] * 1025)), "note", f"refused 6 reading {43 + 1023}")
    case("nodes-1025-primitive", true_file(right_chain(["r1"] * 511 + [NOTE] * 2)), "note")
    case("nodes-pair-at-1024", true_file(f"(r0+{balanced(['r1'] * 1024)})"), "note")

    title("primitives: 170 and 171")
    for kind, leaf in (("note", NOTE), ("clip", CLIP)):
        case(f"prims-170-{kind}", true_file(right_chain([leaf] * 170), kind), kind)
        case(f"prims-171-{kind}", file_of(right_chain([leaf] * 171), kind=kind), kind)
        case(f"prims-171-left-{kind}", file_of(left_chain([leaf] * 171, "|"), kind=kind), kind)
    case("prims-170-count-169", file_of(right_chain([NOTE] * 170), length=81600, prims=169), "note")
    case("prims-170-count-0", file_of(right_chain([NOTE] * 170), length=81600), "note")
    case("prims-170-nodes-1023", true_file(right_chain([NOTE] * 170 + ["r1"] * 342)), "note", "ok 81942 1023 170")
    case("prims-171-nodes-1023", file_of(right_chain(["r1"] * 341 + [NOTE] * 171)), "note")
    title("both too many: the one that begins first")
    case("both-primitive-first", file_of(right_chain([NOTE] * 171 + ["r1"] * 400)), "note")
    case("both-node-first", file_of(right_chain([NOTE] * 170 + ["r1"] * 400 + [NOTE])), "note")
    case("both-at-once", file_of(right_chain(["r1"] * 341 + [NOTE] * 172)), "note")
    case("both-nodes-only", file_of(right_chain(["r1"] * 400 + [NOTE] * 170)), "note")
    title("too many comes behind a broken grammar, and before all else")
    case("many-broken-end", file_of(right_chain(["r1"] * 600))[:-1], "note")
    case("many-broken-last", file_of(right_chain(["r1"] * 600 + ["r00"])), "note")
    case("many-illegal", file_of(right_chain(["p128,0,0,9"] * 171)), "note")
    case("many-long", file_of(right_chain(["r16777215"] * 513)), "note")
    case("many-other-kind", file_of(right_chain([NOTE] * 171), kind="clip"), "note", "refused 4 reading 13")
    title("the greatest file of clips that is a score")
    leaves = ["p9999,16711681,65535,1"] * 170 + ["r16777215"] * 342
    case("most-clips", true_file(balanced(leaves, "|"), "clip"), "clip", "ok 16777215 1023 170")


def length_limits():
    title("length: 16,777,215 and more, by rests, primitives, sequences and parallels")
    for label, body, length, expected in (
        ("rest", "r16777215", 16777215, "ok 16777215 1 0"),
        ("sum", "(r16777214+r1)", 16777215, "ok 16777215 3 0"),
        ("sum-past", "(r16777215+r1)", 16777215, "refused 8 reading 47"),
        ("sum-past-left", "(r1+r16777215)", 16777215, "refused 8 reading 47"),
        ("sum-halves-past", "(r8388608+r8388608)", 16777215, "refused 8 reading 47"),
        ("empty-rest", "(r16777215+r0)", 16777215, "ok 16777215 3 0"),
        ("parallel", "(r16777215|r16777215)", 16777215, "ok 16777215 3 0"),
        ("parallel-past", "(r16777215|(r16777215+r1))", 16777215, "refused 8 reading 47"),
        ("parallel-past-left", "((r16777215+r1)|r0)", 16777215, "refused 8 reading 47"),
        ("parallel-sum", "((r16777214|r3)+r1)", 16777215, "ok 16777215 5 0"),
        ("parallel-sum-past", "((r3|r16777215)+r1)", 16777215, "refused 8 reading 47"),
        ("notes", "(r16711680+p60,96,65535,0)", 16777215, "ok 16777215 3 1"),
        ("notes-past", "(r16711681+p60,96,65535,0)", 16777215, "refused 8 reading 47"),
        ("notes-parallel", "(r16777215|p60,96,65535,0)", 16777215, "ok 16777215 3 1"),
        ("notes-both", "(p60,96,65535,0+(r16646145+p60,96,65535,0))", 16777215, "ok 16777215 5 2"),
        ("notes-both-past", "(p60,96,65535,0+(r16646146+p60,96,65535,0))", 16777215, "refused 8 reading 47"),
    ):
        case(f"long-{label}", file_of(body, length=length, prims=body.count("p")), "note", expected)
    most = right_chain(["p60,96,65535,0"] * 170)
    case("long-most-notes", true_file(most), "note", "ok 11140950 339 170")
    title("lengths near 4,294,967,296, where a sum of 32 bits would be small again")
    full = ["r16777215"]
    case("wide-below", file_of(right_chain(full * 256 + ["r255"]), length=16777215), "note", "refused 8 reading 47")
    case("wide-zero", file_of(right_chain(full * 256 + ["r256"])), "note", "refused 8 reading 40")
    case("wide-zero-left", file_of(left_chain(full * 256 + ["r256"])), "note", "refused 8 reading 40")
    case("wide-seven", file_of(right_chain(full * 256 + ["r263"]), length=7), "note", "refused 8 reading 40")
    case("wide-most", file_of(right_chain(full * 512), length=16777215), "note", "refused 8 reading 47")
    case("wide-twice", file_of(right_chain(full * 511 + ["r16777215"])), "note", "refused 8 reading 40")
    two = f"({balanced(full * 256)}|{balanced(full * 256)})"
    case("wide-parallel", file_of(two, length=16776960), "note", "refused 8 reading 47")
    both = f"({balanced(full * 256)}+r256)"
    case("wide-beside", file_of(f"({both}|r5)", length=5), "note", "refused 8 reading 40")


def untrue_heads():
    title("heads that are not true of the body")
    body = "((p60,96,480,0+r240)|(r480+p64,90,240,0))"
    for label, length, prims, expected in (
        ("true", 720, 2, "ok 720 7 2"),
        ("length-less", 719, 2, "refused 9 reading 25"),
        ("length-more", 721, 2, "refused 9 reading 25"),
        ("length-zero", 0, 2, "refused 9 reading 25"),
        ("length-sum", 1440, 2, "refused 9 reading 25"),
        ("length-most", 16777215, 2, "refused 9 reading 25"),
        ("count-less", 720, 1, "refused 9 reading 35"),
        ("count-more", 720, 3, "refused 9 reading 35"),
        ("count-zero", 720, 0, "refused 9 reading 35"),
        ("count-nodes", 720, 7, "refused 9 reading 35"),
        ("count-most", 720, 170, "refused 9 reading 35"),
        ("both", 721, 3, "refused 9 reading 25"),
        ("exchanged", 2, 170, "refused 9 reading 25"),
    ):
        case(f"head-{label}", file_of(body, length, prims), "note", expected)
    title("what is wrong in the body comes before an untrue head, and an illegal primitive before a long score")
    case("order-7-9", file_of("p128,96,480,0", 9, 9), "note", "refused 7 kind 40")
    case("order-8-9", file_of("(r16777215+r1)", 9, 9), "note", "refused 8 reading 40")
    case("order-7-8", file_of("((r16777215+r1)+p60,0,480,0)", 9, 9), "note", "refused 7 kind 56")
    case("order-5-7", file_of("(p128,0,0,9+r00)", 9, 9), "note", "refused 5 reading 54")
    case("order-5-8", file_of("(r16777215+r1))", 9, 9), "note", "refused 5 reading 54")


def ranges():
    title("notes: each range and one past it")
    for label, body, fits in (
        ("pitch-0", "p0,96,480,0", True),
        ("pitch-127", "p127,96,480,0", True),
        ("pitch-128", "p128,96,480,0", False),
        ("velocity-0", "p60,0,480,0", False),
        ("velocity-1", "p60,1,480,0", True),
        ("velocity-127", "p60,127,480,0", True),
        ("velocity-128", "p60,128,480,0", False),
        ("length-0", "p60,96,0,0", False),
        ("length-1", "p60,96,1,0", True),
        ("length-65535", "p60,96,65535,0", True),
        ("length-65536", "p60,96,65536,0", False),
        ("fourth-1", "p60,96,480,1", False),
        ("least", "p0,1,1,0", True),
        ("most", "p127,127,65535,0", True),
        ("all-0", "p0,0,0,0", False),
    ):
        length = body.split(",")[2]
        at = 40 + len(length) - 1
        case(f"note-{label}", true_file(body), "note", f"ok {length} 1 1" if fits else f"refused 7 kind {at}")
    title("clips: each range and one past it")
    for label, body, fits in (
        ("source-0", "p0,1000,500,0", True),
        ("source-9999", "p9999,1000,500,0", True),
        ("source-10000", "p10000,1000,500,0", False),
        ("offset-0", "p7,0,500,0", True),
        ("offset-16777215", "p7,16777215,1,0", True),
        ("offset-16777216", "p7,16777216,1,0", False),
        ("offset-most", "p7,4294967295,1,0", False),
        ("offset-most-2", "p7,4294967295,2,1", False),
        ("length-0", "p7,1000,0,0", False),
        ("length-0-at-end", "p7,16777216,0,0", False),
        ("length-1", "p7,1000,1,0", True),
        ("length-65535", "p7,1000,65535,0", True),
        ("length-65536", "p7,1000,65536,0", False),
        ("way-1", "p7,1000,500,1", True),
        ("way-2", "p7,1000,500,2", False),
        ("end-16777216", "p7,16711681,65535,0", True),
        ("end-16777217", "p7,16711682,65535,0", False),
        ("end-16777216-back", "p7,16711681,65535,1", True),
        ("end-16777217-back", "p7,16711682,65535,1", False),
        ("end-short", "p7,16777214,2,1", True),
        ("end-short-past", "p7,16777215,2,1", False),
        ("least", "p0,0,1,0", True),
        ("all-0", "p0,0,0,0", False),
    ):
        length = body.split(",")[2]
        at = 40 + len(length) - 1
        case(f"clip-{label}", true_file(body, "clip"), "clip", f"ok {length} 1 1" if fits else f"refused 7 kind {at}")
    title("the first of several illegal primitives, and primitives that only the other kind has")
    case("illegal-second", file_of("(p60,96,480,0|p128,96,480,0)", prims=2), "note", "refused 7 kind 54")
    case("illegal-both", file_of("(p60,96,0,0|p128,96,480,0)", prims=2), "note", "refused 7 kind 41")
    case("illegal-deep", file_of("((r1+(p60,96,480,0|r2))|(p60,0,480,0+p60,0,480,0))", prims=3), "note")
    case("illegal-last", file_of(right_chain([NOTE] * 169 + ["p60,96,480,1"]), prims=170), "note")
    case("illegal-clip-as-note", file_of(CLIP, prims=1), "note", "refused 7 kind 40")
    case("illegal-note-as-clip", file_of(NOTE, 480, 1, "clip"), "clip", "ok 480 1 1")


GROUPS = (
    cuts, replacements, first_lines, heads, other_kinds, terms, endings, sizes, node_limits, length_limits,
    untrue_heads, ranges,
)  # fmt: skip
