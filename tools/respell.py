#!/usr/bin/env python3
"""Brings the names of this repository's own definitions and lemmas to the spelling of today's Rattle. Run once, at the top,
after the port script. Types and facts are written in camel case, all else in snake case; a dash stays where it joins the names
of two functions in the name of a lemma, and in names that Rattle makes."""
import glob
import re
import sys

BREAKS = r"\s(){}.,;:→λ≡⌜⌝∗=|↦\[\]×@"
TOKEN = re.compile(r"[^" + BREAKS + r"]+(?:\.[^" + BREAKS + r"]+)*")
DEFINES = re.compile(r"\s*(?:pub |abbrev |unfoldable |record |data )*([^" + BREAKS + r"]+)((?: [^" + BREAKS + r"]+)*)\s*(?::|\(|\{|$)")
ALIAS = re.compile(r"\bas ([^" + BREAKS + r"]+)")
IMPORT = re.compile(r"^\s*(?:ghost )?use (?:Rattle\.std|Rattle\.borrow|borrow|lib|native|Prim)\b")
BY_HAND = {
    "Parts-held": "parts_held",
    "Tree-discrete": "tree_discrete",
    "h-region": "h_region",
    # the port script spells this fact so
    "Is_at": "IsAt",
}


def antt_files():
    return sorted(glob.glob("crates/*/specs/**/*.antt", recursive=True) + glob.glob("crates/*/proofs/**/*.antt", recursive=True))


def rust_files():
    return sorted(glob.glob("crates/*/src/**/*.rt", recursive=True))


def edit_files():
    return sorted(glob.glob("crates/*/must-fail/*.edit"))


def code_of(line, mark):
    at = re.search(r"(^|\s)" + mark + r"(\s|$)", line)
    return (line, "") if at is None else (line[: at.start()], line[at.start() :])


def survey():
    own, everywhere, foreign, specs = set(), set(), set(), set()
    for name in antt_files() + rust_files():
        answers = name.endswith(("Answers.antt", "Invariants.antt"))
        antt = name.endswith(".antt")
        with open(name) as file:
            for line in file:
                code, _ = code_of(line, "--" if antt else "//")
                if IMPORT.match(code):
                    listed = code[code.find("{") + 1 : code.rfind("}")]
                    for item in listed.split(","):
                        foreign.add(item.split(" as ")[0].strip())
                    own.update(a for a in ALIAS.findall(code))
                    continue
                own.update(a for a in ALIAS.findall(code))
                if not antt or code.lstrip().startswith("use "):
                    continue
                found = DEFINES.match(code)
                if found is None:
                    continue
                names = [found.group(1)] + found.group(2).split()
                if answers and ("goal." in code):
                    foreign.update(names)
                    continue
                if ":" not in code and not re.match(r"\s*(?:pub )?(?:record|data|module)", code):
                    continue
                for each in names:
                    everywhere.add(each)
                    own.add(each)
                    if "/specs/" in name:
                        specs.add(each)
    return own - foreign, everywhere | foreign, specs


def lets():
    """names that are bound in a term by let, λ or a pattern, or taken as a parameter"""
    more = set()
    binder = re.compile(r"(?:let |λ \(?|\(|\{|, )([^" + BREAKS + r"]+)((?: [^" + BREAKS + r"]+)*) (?::|=)")
    for name in antt_files():
        with open(name) as file:
            for line in file:
                code, _ = code_of(line, "--")
                for found in binder.finditer(code):
                    more.update([found.group(1)] + found.group(2).split())
    return more


def camel(word):
    return "".join(part[:1].upper() + part[1:] for part in re.split(r"[-_]", word))


def spelled(word, known, specs):
    if word in BY_HAND:
        return BY_HAND[word]
    if word[:1].isupper():
        return camel(word)
    parts = word.split("-")
    if word not in specs:
        best = segments(parts, known)
        if best is not None and len(best) > 1:
            return "-".join(best)
    return "_".join(parts)


def segments(parts, known):
    """the parts joined into names of known functions, or None"""
    if not parts:
        return []
    for size in range(len(parts), 0, -1):
        if size == len(parts) and size > 1:
            continue
        head = "_".join(parts[:size])
        if head in known:
            rest = segments(parts[size:], known)
            if rest is None and size < len(parts):
                rest = tail(parts[size:], known)
            if rest is not None:
                return [head] + rest
    return None


def tail(parts, known):
    joined = "_".join(parts)
    return [joined] if joined in known else None


def table():
    own, everywhere, specs = survey()
    known_functions = {w.replace("-", "_") for w in specs if not w[:1].isupper()} | {
        "length", "take", "drop", "map", "set", "append", "get_or", "cond", "min", "max",
    }
    local = {w for w in lets() if "-" in w}
    words = {w for w in own | local if "-" in w.strip("-") and "◌" not in w and re.match(r"[A-Za-z]", w)}
    names = {w: spelled(w, known_functions, specs) for w in sorted(words)}
    names.update(BY_HAND)
    return names


def respell(text, names, mark):
    out = []
    for line in text.split("\n"):
        code, note = code_of(line, mark)
        if ".proofs." in code and ("Goals.{" in code or "Given.{" in code):
            out.append(line)
            continue

        def turn(found):
            parts = found.group(0).split(".")
            if parts[0] in ("c", "w", "l", "goal") and len(parts) > 1:
                return found.group(0)
            return ".".join(names.get(p, p) for p in parts)

        # text between quotes stays as it is
        pieces = code.split('"') if mark == "//" else [code]
        pieces[::2] = [TOKEN.sub(turn, piece) for piece in pieces[::2]]
        out.append('"'.join(pieces) + note)
    return "\n".join(out)


def main():
    names = table()
    if "--list" in sys.argv:
        back = {}
        for old, new in names.items():
            print(f"{old}\t{new}")
            back.setdefault(new, []).append(old)
        _, everywhere, _ = survey()
        for new, olds in back.items():
            if len(olds) > 1 or (new not in olds and new in everywhere):
                print("FALLS TOGETHER", new, olds, new in everywhere)
        return
    for name in antt_files() + rust_files() + edit_files():
        with open(name) as file:
            text = file.read()
        turned = respell(text, names, "--" if name.endswith(".antt") else "//")
        if turned != text:
            with open(name, "w") as file:
                file.write(turned)


main()
