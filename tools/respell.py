#!/usr/bin/env python3
"""Brings the repository's own names in specs/, proofs/, contracts and must-fail edits to snake case.

tools/respell.py    once, at the top, after the kit's port.py

A name is ours if it is not brought in from the kit. `fooBar` and `foo-bar` become `foo_bar`; where a lemma
would then have the name of the definition that it is about, it gets `_lem`. Functions of src/, exported
names, strings, inputs and outputs keep their names. Pages say the new names where they stand in backticks.
"""
import pathlib
import re
import sys

ROOT = pathlib.Path(__file__).resolve().parent.parent
OURS = {p.name for p in (ROOT / "crates").iterdir()}
NAME = re.compile(r"[^\W\d][\w'′-]*")
USE = re.compile(r"^(?:ghost )?use ([\w.'-]+?)(?:\.\{([^}]*)\})?;?$", re.M)

# Lemmas that would fall together with the definition that they are about.
LEMMAS = {
    "all_finished": "all_finished_lem",
    "answer-numbers": "answer_numbers_lem",
    "base-good": "base_good_lem",
    "base-now": "base_now_lem",
    "by-processes": "by_processes_lem",
    "kind-now": "kind_now_lem",
    "made-numbers": "made_numbers_lem",
    "mark-now": "mark_now_lem",
    "most-turns": "most_turns_lem",
    "nobody-moves": "nobody_moves_lem",
    "process-good": "process_good_lem",
    "reading-numbers": "reading_numbers_lem",
    "standing-numbers": "standing_numbers_lem",
    "verdict-numbers": "verdict_numbers_lem",
}


def sources():
    for folder in ("specs", "proofs", "src"):
        for suffix in ("antt", "rt"):
            yield from sorted(ROOT.glob(f"crates/*/{folder}/**/*.{suffix}"))


def without_comment(line, suffix):
    """The code of a line, and its comment."""
    at = line.find("//" if suffix == ".rt" else "--")
    return (line, "") if at < 0 else (line[:at], line[at:])


def code(path):
    return "\n".join(without_comment(line, path.suffix)[0] for line in path.read_text().split("\n"))


def is_ours(module):
    parts = module.split(".")
    return parts[0] == "Rattle" and parts[1] in OURS


def brought_in(paths):
    """The names that come from the kit."""
    found = set()
    for path in paths:
        for module, names in USE.findall(code(path)):
            if not is_ours(module):
                found |= set(NAME.findall(names))
    return found


def hand_walked(path):
    return path.name == "Proof.antt"


def snake(name):
    if name in LEMMAS:
        return LEMMAS[name]
    joined = name.replace("′", "'").replace("-", "_")
    return re.sub(r"(?<=[a-z0-9])[A-Z]", lambda m: "_" + m.group().lower(), joined)


def table():
    """What each name of ours that changes becomes: no name of a walk that the kit made is among them."""
    paths = list(sources())
    theirs = brought_in(paths)
    names = set()
    for path in paths:
        if path.suffix == ".antt" and not hand_walked(path):
            names |= set(NAME.findall(code(path)))
    return {n: snake(n) for n in names if n[0].islower() and n not in theirs and snake(n) != n}


def respelled(text, new):
    return NAME.sub(lambda m: new.get(m.group(), m.group()), text)


def respelled_rt(text, new):
    """In src/ no name with a dash stands in code, and a string stays."""
    parts = re.split(r'("(?:[^"\\]|\\.)*")', text)
    return "".join(part if part.startswith('"') else respelled(part, new) for part in parts)


def turned(path, new):
    lines = []
    for line in path.read_text().split("\n"):
        text, comment = without_comment(line, path.suffix)
        text = respelled_rt(text, new) if path.suffix == ".rt" else respelled(text, new)
        camel = {n: to for n, to in new.items() if "-" not in n and "'" not in n and re.search("[A-Z]", n)}
        lines.append(text + respelled(comment, camel))
    return "\n".join(lines)


def turned_edit(path, new):
    lines = [respelled_rt(line, new) if re.match("(old|new): ", line) else line for line in path.read_text().split("\n")]
    return "\n".join(lines)


def turned_page(path, new):
    return re.sub(r"`[^`\n]+`", lambda m: respelled(m.group(), new), path.read_text())


def main():
    if (ROOT / "docs/PORT.md").exists():
        sys.exit("respell: the names were respelled already (docs/PORT.md); a second time would rename what is right")
    new = table()
    both = {}
    for name, to in sorted(new.items()):
        both.setdefault(to, []).append(name)
    for to, names in both.items():
        if len(names) > 1:
            print("fall together:", to, "from", *names)
    for path in list(sources()):
        path.write_text(turned(path, new))
    for path in sorted(ROOT.glob("crates/*/must-fail/*.edit")):
        path.write_text(turned_edit(path, new))
    for path in [ROOT / "README.md", *sorted((ROOT / "docs").glob("*.md"))]:
        path.write_text(turned_page(path, new))
    print(len(new), "names")


main()
