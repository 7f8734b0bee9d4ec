#!/usr/bin/env python3
"""Spells this repository's own definitions and laws as today's Rattle does.

Run once at the top, after the kit's port.py: a definition or a law in lower camel case (`actionAt`) becomes one in snake case (`action_at`),
in specs/ and proofs/ and in the clauses and ghost imports of src/. Types and modules keep their capital, functions of src/ are in snake case
already, and comments follow the names that they cite. `respell.py LIST` prints the names and what they become, and says which of them fall
together with another name of the same file.
"""
import pathlib
import re
import sys

# a name in lower camel case, also as a part of a name joined by dashes
WORD = re.compile(r"(?<![A-Za-z0-9_.'\"])[A-Za-z_][A-Za-z0-9_'·-]*|(?<=\.)[A-Za-z_][A-Za-z0-9_'-]*")
CAMEL = re.compile(r"^[a-z][a-z0-9]*(_[a-z0-9]+)*[A-Z]")


def snake(part: str) -> str:
    if not CAMEL.match(part):
        return part
    return re.sub(r"([A-Z]+)", lambda m: "_" + m.group(1).lower(), part)


def respelled(name: str) -> str:
    return "-".join(snake(p) for p in name.split("-"))


# laws whose landed name port.py brought to that of a definition beside them
APART = {
    "crates/checker/proofs/Laws/Check.antt": ("on_step", "on-step"),
    "crates/demands/proofs/LateCase.antt": ("steps_on", "steps-on"),
}


def turn(path: pathlib.Path, text: str) -> str:
    if str(path) in APART:
        was, name = APART[str(path)]
        text = re.sub(rf"\b{was}\b", name, text)
    return WORD.sub(lambda m: respelled(m.group(0)), text)


def main() -> None:
    top = pathlib.Path(".")
    files = sorted(p for p in top.glob("crates/*/**/*") if p.suffix in (".antt", ".rt") and "out" not in p.parts)
    listing = sys.argv[1:] == ["LIST"]
    for path in files:
        old = path.read_text()
        words = {m.group(0) for m in WORD.finditer(old)}
        if listing:
            for w in sorted(words):
                if respelled(w) != w:
                    print(path, w, respelled(w), "falls together" if respelled(w) in words else "")
            continue
        new = turn(path, old)
        if new != old:
            path.write_text(new)


if __name__ == "__main__":
    main()
