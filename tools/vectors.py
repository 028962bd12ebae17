"""Writes the tables of crates/samples/specs/Vectors.antt and Imports.antt from outside vectors: python3 tools/vectors.py VECTORS..

A file of VECTORS has one call a line with its outcome, which stands behind a `=` where every lent cell is told. Of each
file, call and outcome (for a refusal: of each number) the lines that are the quickest to compute are taken, as many as
WANTED says, and of reading and writing the longest one too. The questions of the lines that were read or judged are put
as trees besides, taken out of their bytes here. Lines whose cells are told by a hash or whose word has no room, and
those of the asking program, are left to crates/vectors and bench/.

Lines of importing go to Imports.antt: of each outcome the shortest texts, and the longest one of at most 600 bytes.
"""
import sys

FILE = "crates/samples/specs/Vectors.antt"
IMPORTS = "crates/samples/specs/Imports.antt"
# what stands in a file up to this line stays
MARK = "-- ---- the vectors, as tools/vectors.py writes them\n"

WANTED = {
    "read accepted": 6, "read refused": 3,
    "write written": 6, "write refused": 4,
    "judge yes": 6, "judge no": 6, "judge refused": 3,
    "decide found at once": 3, "decide found later": 6, "decide never": 4, "decide no-room": 5, "decide refused": 1,
    "build built": 6, "build no-room": 5,
    "spell value": 6, "spell refused": 4,
    # with every lent cell told
    "record record": 4, "record refused": 2,
    "decide_cells found": 4, "decide_cells never": 2, "decide_cells no-room": 3, "decide_cells refused": 1,
    "build_cells built": 3, "build_cells no-room": 3, "build_cells refused": 1,
}
IMPORTS_WANTED = {"held": 12, "refused": 6}
# where the outcome stands in a line of each call
OUTCOME = {"read": 2, "write": 6, "record": 3, "judge": 3, "decide": 4, "build": 3, "spell": 4, "decide_cells": 5, "build_cells": 4}
# the calls whose lines are put apart: a line of Outcomes has no room for them
APART = ("record", "decide_cells", "build_cells")


def joined(items):
    return "(" + "".join(f"{x} ∷ " for x in items) + "[])" if items else "[]"


def naturals(text):
    return [] if text == "-" else text.split(",")


def whole(text):
    z = int(text)
    return f"pos {z}" if z >= 0 else f"negsuc {-z - 1}"


def unpadded(cells):
    """Without the zeros at the end: `question` puts them back."""
    while cells and cells[-1] in ("0", "pos 0"):
        cells = cells[:-1]
    return cells


def question(words):
    n, codes, coefficients, constants = words
    return "(question {} {} {} {})".format(
        n, joined(unpadded(naturals(codes))),
        joined(unpadded([whole(x) for x in naturals(coefficients)])),
        joined(unpadded([whole(x) for x in naturals(constants)])))


def wholes(text):
    return joined([whole(x) for x in naturals(text)])


def octets_of(text):
    return b"" if text == "-" else bytes.fromhex(text)


def octets(text):
    return joined(list(octets_of(text)))


def refusal(words):
    return f"(numbered_refusal {words[0]} {words[1] if len(words) > 1 else 0})"


def line(words):
    call, at = words[0], OUTCOME[words[0]]
    said, rest = words[at], words[at + 1:]
    if call == "read":
        gives = f"reads {octets(words[1])}"
        should = f"accepted {question(rest)}" if said == "accepted" else f"unread {refusal(rest)}"
    elif call == "write":
        room = words[5]
        gives = f"writes {question(words[1:5])} {room}"
        should = f"written_in {room} {octets(rest[0])}" if said == "written" else f"unwritten {room} {refusal(rest)}"
    elif call == "judge":
        gives = f"judges {octets(words[1])} {joined(naturals(words[2]))}"
        should = {"yes": "truth (Ok true)", "no": "truth (Ok false)"}.get(said) or f"truth (Err {refusal(rest)})"
    elif call == "decide":
        room = words[3]
        call = "decides_short" if said == "refused" else "decides"
        gives = f"{call} {octets(words[1])} {words[2]} {room}"
        should = {
            "found": lambda: f"found_in {room} {rest[0]} {joined(naturals(rest[1]))}",
            "never": lambda: f"never_in {room} {rest[0]}",
            "no-room": lambda: f"no_room_in {room} {rest[0]}",
            "refused": lambda: f"count {rest[1]}",
        }[said]()
    elif call == "build":
        cells = int(words[2]) * (1 + 2 ** bytes.fromhex(words[1])[4])
        gives = f"builds_cells {octets(words[1])} {words[2]}"
        should = f"cells_in {cells} {rest[0]} {joined(naturals(rest[1]))}" if said == "built" else f"no_cells_in {cells} {rest[0]}"
    elif call == "record":
        gives = f"record_at {octets(words[1])} {words[2]}"
        should = f"taken {words[2]} {rest[0]} {len(octets_of(rest[1]))} {rest[2]}" if said == "record" else f"Err {refusal(rest)}"
    elif call == "decide_cells":
        gives = f"decided_cells {octets(words[1])} {words[2]} {words[3]} {words[4]}"
        answer, keys, path, word = {
            "found": lambda: (f"(Ok (Decision.Found {rest[0]} {len(naturals(rest[1]))}))", rest[3], rest[5], rest[1]),
            "never": lambda: (f"(Ok (Decision.Never {rest[0]}))", rest[2], rest[4], "-"),
            "no-room": lambda: (f"(Ok (Decision.NoRoom {rest[0]}))", rest[2], rest[4], "-"),
            "refused": lambda: (f"(Err {refusal(rest)})", "-", "-", "-"),
        }[said]()
        should = f"decision_in {answer} {words[2]} {wholes(keys)} {words[3]} {joined(naturals(path))} {words[4]} {joined(naturals(word))}"
    elif call == "build_cells":
        gives = f"built_cells {octets(words[1])} {words[2]} {words[3]}"
        answer, keys, table = {
            "built": lambda: (f"(Ok (Building.Built {rest[0]}))", rest[2], rest[4]),
            "no-room": lambda: (f"(Ok (Building.NoRoom {rest[0]}))", rest[2], "-"),
            "refused": lambda: (f"(Err {refusal(rest)})", "-", "-"),
        }[said]()
        should = f"table_in {answer} {words[2]} {wholes(keys)} {words[3]} {joined(naturals(table))}"
    else:
        gives = f"spells {words[1]} {words[2]} {joined(naturals(words[3]))}"
        should = f"spelling (Ok {rest[0]})" if said == "value" else f"spelling (Err {refusal(rest)})"
    return f"    {'pair' if words[0] in APART else 'line'} ({gives}) ({should}) ∷"


def tree(records, n):
    """The tree that stands first in a list of (kind, body) pairs, which it is taken out of."""
    kind, body = records.pop(0)
    if kind in (0x10, 0x11):
        numbers = [int.from_bytes(body[4 * i:4 * i + 4], "little", signed=True) for i in range(n + 1)]
        cells = [whole(str(z)) for z in numbers]
        return "(Tree.atom (record {{ kind = {}; coefficients = {}; constant = {} }}))".format(
            "equation" if kind == 0x10 else "at_most", joined(cells[:-1]), cells[-1])
    parts = [tree(records, n) for _ in range(1 if kind == 0x20 else 2)]
    return "({} {})".format({0x20: "Tree.not", 0x21: "Tree.and", 0x22: "Tree.or"}[kind], " ".join(parts))


def question_tree(text):
    b, records, at = bytes.fromhex(text), [], 0
    while at < len(b):
        length = int.from_bytes(b[at:at + 2], "little")
        records.append((int.from_bytes(b[at + 2:at + 4], "little"), b[at + 4:at + 4 + length]))
        at += 4 + length
    n = records.pop(0)[1][0]
    return n, tree(records, n)


def tree_line(words):
    """Of an accepted question its bytes, of a judged one its truth; else nothing."""
    call, said = words[0], words[OUTCOME[words[0]]]
    if call == "read" and said == "accepted":
        n, t = question_tree(words[1])
        return f"    line (asks {n} {t}) (tree true {octets(words[1])}) ∷"
    if call == "judge" and said in ("yes", "no"):
        n, t = question_tree(words[1])
        return f"    line (says_tree {t} {joined(naturals(words[2]))}) (holding {'true' if said == 'yes' else 'false'}) ∷"
    return None


def cost(words):
    """What a line takes to compute: where there is a search, the rows squared times the letters; and its length."""
    search = 0
    if words[0] in ("decide", "build", "decide_cells", "build_cells"):
        said, states = words[OUTCOME[words[0]]:][:2]
        rows = states if said in ("never", "built") or words[0] in APART else words[2]
        search = 0 if said == "refused" else int(rows) ** 2 * 2 ** octets_of(words[1])[4]
    return search + len(" ".join(words))


def imports_of(path):
    groups = {}
    for text in open(path):
        words = text.split()
        if words[0] == "import":
            groups.setdefault((words[2], words[3] if words[2] == "refused" else ""), []).append(words)
    for (said, _), lines in sorted(groups.items()):
        lines = sorted((words for words in lines if len(octets_of(words[1])) <= 600), key=lambda words: len(words[1]))
        taken = lines[:IMPORTS_WANTED[said]]
        yield from taken + [lines[-1]] * (lines[-1] not in taken)


def import_line(words):
    if words[2] == "refused":
        return f"    bytes_line {octets(words[1])} (refused_by {words[3]} {words[4]}) ∷"
    n, codes, coefficients, constants = words[3:]
    return "    bytes_line {} (accepted_as {} {} {} {}) ∷".format(
        octets(words[1]), n, joined(unpadded(naturals(codes))),
        joined(unpadded([whole(x) for x in naturals(coefficients)])),
        joined(unpadded([whole(x) for x in naturals(constants)])))


def lines_of(path):
    for text in open(path):
        words = text.split()
        if words[0] == "import":
            continue
        if "=" in words:
            words.remove("=")
            if words[0] in ("decide", "build"):
                words[0] += "_cells"
        if words[0] != "ask" and "short" not in words and "#" not in text:
            yield words


def chosen(path):
    groups = {}
    for words in lines_of(path):
        said = words[OUTCOME[words[0]]]
        number = words[OUTCOME[words[0]] + 1] if said == "refused" else ""
        if said == "found" and words[0] == "decide":
            said += " at once" if words[-1] == "-" else " later"
        groups.setdefault((words[0], said, number), []).append(words)
    for (call, said, number), lines in sorted(groups.items()):
        lines.sort(key=cost)
        taken = lines[:WANTED[f"{call} {said}"]]
        if call in ("read", "write") and lines[-1] not in taken:
            taken.append(lines[-1])
        yield from taken


if __name__ == "__main__":
    head = open(FILE).read().split(MARK)[0]
    by_call = {}
    for path in sys.argv[1:]:
        for words in chosen(path):
            by_call.setdefault(words[0], []).append(line(words))
            if tree_line(words):
                by_call.setdefault("tree", []).append(tree_line(words))
    with open(FILE, "w") as out:
        out.write(head + MARK)
        for call, lines in by_call.items():
            kind = {"record": "Pair (Result Record Refusal)", "decide_cells": "Pair Decided", "build_cells": "Pair Built"}.get(call)
            lists = f"List ({kind})" if kind else "List Line"
            claim = f"all_in {call}_vectors ≡ all_wanted {call}_vectors" if kind else f"all_given {call}_vectors ≡ wanted {call}_vectors"
            out.write(f"\nabbrev {call}_vectors : {lists}\n{call}_vectors =\n" + "\n".join(lines) + "\n    []\n")
            out.write(f"\npub {call}_vectors_hold : {claim}\nunfolding running\n{call}_vectors_hold = refl\n")
    head = open(IMPORTS).read().split(MARK)[0]
    with open(IMPORTS, "w") as out:
        lines = [import_line(words) for path in sys.argv[1:] for words in imports_of(path)]
        out.write(head + MARK + "\nabbrev import_vectors : List TextLine\nimport_vectors =\n" + "\n".join(lines) + "\n    []\n")
        out.write("\npub import_vectors_hold : texts_given import_vectors ≡ texts_wanted import_vectors\nunfolding importing\nimport_vectors_hold = refl\n")
