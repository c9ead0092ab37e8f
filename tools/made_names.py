#!/usr/bin/env python3
"""In the answers and invariants of functions: names that Rattle makes keep the spelling of the source names in them, so that an
underscore of a function, a variable or a field stays an underscore. Run once, after respell.py."""
import glob
import re

MADE = {"in-err": "in_err", "in-ok": "in_ok", "in-default": "in_default", "from-residual": "from_residual",
        "invariant-of": "invariant_of", "deref-mut": "deref_mut", "items-if-clones-equal": "items_if_clones_equal"}
TOKEN = re.compile(r"[^\s(){},;:→λ≡⌜⌝∗=|↦\[\]×@.]+")


def source_names():
    names = set()
    for name in glob.glob("crates/*/src/**/*.rt", recursive=True):
        with open(name) as file:
            names.update(re.findall(r"\b[a-z]+(?:_[a-z0-9]+)+\b", file.read()))
    return names


def main():
    turns = dict(MADE)
    turns.update({name.replace("_", "-"): name for name in source_names()})
    order = sorted(turns, key=len, reverse=True)
    pattern = re.compile(r"(?<![A-Za-z0-9_])(" + "|".join(map(re.escape, order)) + r")(?![A-Za-z0-9_])")

    def turn(found):
        token = found.group(0)
        return pattern.sub(lambda m: turns[m.group(1)], token) if "-" in token else token

    for name in glob.glob("crates/*/proofs/**/*.antt", recursive=True):
        if not name.endswith(("Answers.antt", "Invariants.antt")):
            continue
        out = []
        with open(name) as file:
            text = file.read()
        for line in text.split("\n"):
            keep = line.lstrip().startswith("use ") and "Goals" not in line and "Given" not in line
            out.append(line if keep or line.lstrip().startswith("--") else TOKEN.sub(turn, line))
        turned = "\n".join(out)
        if turned != text:
            with open(name, "w") as file:
                file.write(turned)


main()
