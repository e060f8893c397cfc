"""Spells the definitions and lemmas of this repository as today's Rattle does: words in snake case, types in camel case.

Run once, at the top of the repository, after the kit's own port.py. Only names that specs/ and proofs/ declare are turned;
functions, the goals that Rattle names after the code, and names of the kit stay as they are.
"""
import pathlib
import re
import sys

WORD = r"[^\s(){}\[\].;,@\"|`]+"
HEAD = re.compile(rf"^(\s*)(?:\|\s*)?((?:(?:abbrev|unfoldable|pub|data|record)\s+)*)({WORD})(\s.*)?$")
# names that would fall together with another one, and what they are called instead
INSTEAD = {
    "edge-codes": "edge_codes_of",
    "face-vertices": "face_vertices_of",
    "half-extents": "extents_of",
    "is-numeral": "is_numeral_of",
    "main-axis": "main_axis_of",
    "Q-is": "Q_is",
    "R-from": "R_from",
    "R-to": "R_to",
    "S-is": "S_is",
    "vertex-codes": "vertex_codes_of",
}


def turned(name):
    if name[0].isupper():
        return "".join(part[:1].upper() + part[1:] for part in name.split("-"))
    return re.sub(r"(?<=[a-z0-9])([A-Z])", lambda m: "_" + m.group(1).lower(), name).replace("-", "_")


def declared(path):
    """The names that a file declares, and those of them that are fields of a record."""
    names, fields, record = set(), set(), None
    for line in path.read_text().split("\n"):
        if line.startswith(("use ", "--", "infix", "module", "pub use", "open ")):
            continue
        m = HEAD.match(line)
        if not m:
            continue
        indent, marks, name, rest = len(m.group(1)), m.group(2), m.group(3), m.group(4) or ""
        if indent == 0:
            record = "record" in marks.split()
        is_signature = re.match(r"\s*(?:[({].*[)}]\s*)?:\s", rest + " ")
        if not is_signature or re.search(rf":\s*goal\.{re.escape(name)}\s*$", rest):
            continue
        names.add(name)
        if record and indent > 0:
            fields.add(name)
    return names, fields


def aliases(path):
    return set(re.findall(rf"(?m)^use \S+ as ({WORD})$", path.read_text()))


def files():
    antt, rt = [], []
    for crate in sorted(pathlib.Path("crates").iterdir()):
        for part in ("specs", "proofs"):
            antt += sorted((crate / part).rglob("*.antt"))
        rt += sorted((crate / "src").rglob("*.rt"))
    return antt, rt


def main():
    antt, rt = files()
    names, fields = set(), set()
    for path in antt:
        if path.name == "Invariants.antt":
            continue
        n, f = declared(path)
        names |= n
        fields |= f
    for path in antt:
        names |= aliases(path)
    table = {n: INSTEAD.get(n, turned(n)) for n in names if INSTEAD.get(n, turned(n)) != n}
    token = re.compile(rf"(\.?)({WORD})")
    failed = False
    for new in sorted(set(table.values())):
        olds = sorted(o for o in table if table[o] == new)
        if len(olds) > 1:
            print("fall together:", new, olds)
            failed = True
    for path in antt + rt:
        text = path.read_text()
        here = {m.group(2) for m in token.finditer(text)}
        for old in sorted(here & set(table)):
            if table[old] in here:
                print("both stand in", path, ":", old, table[old])
                failed = True
    if failed and "--force" not in sys.argv:
        sys.exit("nothing was changed")
    for path in antt + rt:
        old_text = path.read_text()

        def turn(m):
            dot, name = m.group(1), m.group(2)
            if name not in table:
                return m.group(0)
            if dot:
                before = re.search(rf"({WORD})$", old_text[: m.start()])
                of_module = before and before.group(1)[0].isupper()
                if not of_module and name not in fields and not old_text[: m.start()].endswith((")",)):
                    return m.group(0)
            return dot + table[name]

        new_text = token.sub(turn, old_text)
        if new_text != old_text:
            path.write_text(new_text)
    for old in sorted(table):
        print(old, table[old])


main()
