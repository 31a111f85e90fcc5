#!/usr/bin/env python3
"""Brings the names of the repository's own definitions and lemmas to the spelling of the library.

usage: python3 tools/spell.py [ROOT]

Run once, after the kit's port.py, on a tree whose definitions still have hyphens in their names: a word gets
underscores (`most-rules` is `most_rules`), a type capital letters (`Fit-rule` is `FitRule`). Names that the build makes,
and names of the library, stay as they are, and so do strings and prose. The crate `hex` becomes `hexadecimal`, since the
kit has a library of the older name."""
import pathlib
import re
import sys

NAME = re.compile(r"(?<![\w'?≢→·])[A-Za-z_][\w'?→≢]*(?:-[\w'?→≢]+)+")
# lemmas that have the name of one of the library's, beside which they are used
LIBRARY = {"get_or-set_other", "map-append", "length-take-le", "take-map", "get_or-take", "eqb-false", "length-map", "leb-true", "leb-false"}
# names of ours that the build also gives to a call, as in `c.rule-header`
CALLS = {"count-above", "rule-header", "word-is"}
# names that are declared several on a line, or bound in a pattern alone
MORE = {"to-rewind", "to-tally", "to-hold", "to-answer", "to-slip", "no-atom", "no-variable"}
GIVEN = {"not-T→false": "not_T→false"}


def files(root):
    for path in sorted((root / "crates").rglob("*")):
        if path.suffix in (".antt", ".rt") and "out" not in path.relative_to(root).parts:
            yield path


def code(line):
    """The line without its comment."""
    return re.sub(r"(^|\s)(--|//).*", r"\1", line)


def declared(root):
    """The hyphenated names that are declared in specs/ and proofs/."""
    names = set()
    for path in files(root):
        for line in path.read_text(encoding="utf-8").split("\n"):
            line = code(line)
            if not re.match(r"(ghost )?use \S+Goals as", line):
                names.update(re.findall(r" as ([A-Za-z_][\w'?→≢]*(?:-[\w'?→≢]+)+)", line))
            if path.suffix == ".rt" or line.startswith("use ") or re.match(r"\s*(?:abbrev )?(?:pub )?\S+ : (?:goal|given|need)\.", line):
                continue
            found = re.match(r"\s*(?:(?:abbrev|unfoldable|opaque|pub|data|record|let|instance)\s+)*(\S+)\s*(?:[:({]|$)", line)
            if found:
                names.add(found.group(1))
            for found in re.finditer(r"[({](\S[^:(){}]*?) :", line):
                names.update(found.group(1).split())
            names.update(re.findall(r"let (\S+) [=:]", line))
            for found in re.finditer(r"λ ([^.]*)\.", line):
                names.update(re.findall(r"[^\s(){}:,]+", found.group(1)))
    return {n for n in names | MORE if NAME.fullmatch(n)} - LIBRARY


def respelled(name):
    if name in GIVEN:
        return GIVEN[name]
    if name[0].isupper():
        return "".join(w[:1].upper() + w[1:] for w in re.split("[-_]", name))
    return name.replace("-", "_")


def turn_line(line, names):
    def turn(found):
        name = found.group(0)
        if name not in names or (name in CALLS and found.string[found.start() - 1 : found.start()] == "."):
            return name
        return respelled(name)

    body = code(line)
    note = line[len(body) :]
    note = re.sub(r"`[^`]*`", lambda m: NAME.sub(turn, m.group(0)), note)
    return NAME.sub(turn, body) + note


def main():
    root = pathlib.Path(sys.argv[1] if len(sys.argv) > 1 else ".")
    names = declared(root)
    for path in files(root):
        old = path.read_text(encoding="utf-8")
        lines = [turn_line(line, names) for line in old.split("\n")]
        new = "\n".join(lines)
        new = re.sub(r"\bRattle\.hex\.", "Rattle.hexadecimal.", new)
        new = re.sub(r"^use hex::", "use hexadecimal::", new, flags=re.M)
        if new != old:
            path.write_text(new, encoding="utf-8")
    listed = root / "crates.txt"
    listed.write_text(re.sub(r"\bhex\b", "hexadecimal", listed.read_text(encoding="utf-8")), encoding="utf-8")
    if (root / "crates/hex").exists():
        (root / "crates/hex").rename(root / "crates/hexadecimal")
    print(f"{len(names)} names")


main()
