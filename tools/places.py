#!/usr/bin/env python3
"""Lists the places in crates/*/src that docs/DESIGN-PASS.md counts, point by point: `tools/places.py [COMMIT]`, of the work tree or
of a commit; `tools/places.py --counts [COMMIT]` prints the counts alone. A row is a place to look at: the page says of each what
was done with it."""
import re
import subprocess
import sys
from collections import defaultdict

# Point by point: what is looked for, and in which form.
PATTERNS = {
    1: [
        ("a variant that says that there is nothing", r"^\s+(Nothing|Unknown|NotYet|End|TooLarge\(u64\)|UnknownForm),"),
        ("a truth value as a call's result", r"Result<bool,"),
        ("0 as nothing, and a place as one more", r"\bat (== 0|> 0)|\(at - 1\)|checked_sub\(1\)|as u32 \+ 1"),
        ("a number for a kind or a refusal", r"Refused\(u8\)|tag: u32|fn number\(self\) -> u8|fn flags_of_\w+\(.*-> u16|\b(144|192|512),$|round: u32,$|\w+\(bool\),$"),
        ("a value that stands for none", r"letter: VariableSort::Ty|unwrap_or(_default)?\(0?\)|original: 0|earlier: 0,|last: 0,"),
    ],
    3: [
        ("a counted index", r"for (\w+) in (\d+|\w+)\.\.(?!=?u64::MAX)"),
        ("a count without an end", r"for \w+ in \d+\.\.u64::MAX"),
        ("a counter by hand", r"while .*(\.len(\(\))?|\bat) [<>]"),
    ],
    4: [
        ("equality", r"fn is_same(_\w+)?\(|fn is_class\("),
        ("a test of the variant", r"^\s+(_|.*) => (true|false),"),
        ("a conversion", r"fn (verb_of|form_of|named|letter|term_form|value_form|head_word|variable|canonical|code|code_of_\w+|host_sort|sort_of)\("),
        ("a cut number", r"fn (earlier|last)(_\w+)?(<[^(]*>)?\(self\)|fn fit"),
        ("a hash", r"fn (hash|hash_of\w*|mix|finish|digest)[<(]"),
        ("bits by hand", r"\.bits [|&]|\| Flags"),
        ("text", r"fn (write_\w+|\w+_words|\w+_word|\w+_letter|place_words)\("),
    ],
    6: [
        ("a buffer with a count of what is in use", r"^\s+(len|used|limit|room): usize,"),
        ("lent memory", r"^\s+\w+: &'a mut \["),
        ("a stack of one's own", r"^\s+(pub(\(super\))? )?(jobs|open|opened|waiting|outer|parts|numbers): Vec<"),
        ("a sorted or searched list", r"^\s+(list|table|roots|names): Vec<"),
        ("counts by a sort's number", r"counts: \["),
    ],
    7: [
        ("a switch on the next step", r"match job|enum Job|fn turn\(|match i %"),
    ],
}


def files(commit, folder="src", ending=".rt"):
    if commit is None:
        names = subprocess.run(["git", "ls-files", "crates"], capture_output=True, text=True, check=True).stdout
    else:
        names = subprocess.run(["git", "ls-tree", "-r", "--name-only", commit, "crates"], capture_output=True, text=True, check=True).stdout
    for name in names.splitlines():
        if f"/{folder}/" not in name or not name.endswith(ending):
            continue
        if commit is None:
            try:
                text = open(name).read()
            except FileNotFoundError:
                continue
        else:
            text = subprocess.run(["git", "show", f"{commit}:{name}"], capture_output=True, text=True, check=True).stdout
        yield name, text


def functions(text):
    """Each function: its name, its parameters and its clauses."""
    for m in re.finditer(r"\bfn (\w+)(<[^(]*>)?\(", text):
        rest = text[m.end():]
        end = re.search(r"\n\s*\{\n|\{\n|;\n", re.sub(r"\{ .* \}", lambda c: "x" * len(c.group()), rest))
        head = rest[:end.start() + 1] if end else rest
        parameters = head.split(")")[0]
        clauses = re.findall(r"(?:requires|ensures)(?: \w+)? \{ (.*) \}", head)
        yield m.group(1), re.sub(r"\s+", " ", parameters).strip(), clauses


def twins(commit):
    """Functions of one name in two crates, and functions whose bodies differ in names and numbers alone."""
    by_shape = defaultdict(list)
    by_name = defaultdict(set)
    for name, text in files(commit):
        crate = name.split("/")[1]
        for m in re.finditer(r"(?m)^( *)(?:pub(?:\([a-z]+\))? )?fn (\w+)[^;{]*?(?:\{[^\n]*\}[^;{]*?)*\{\n(.*?)^\1\}", text, re.S):
            shape = re.sub(r"\b[A-Za-z_]\w*\b|\d\w*", "x", m.group(3))
            shape = re.sub(r"\s+", " ", shape)
            if len(shape) > 30:
                by_shape[shape].append(f"{name}: {m.group(2)}")
        for function, _, _ in functions(text):
            by_name[function].add((crate, name))
    for shape, where in by_shape.items():
        if len(where) > 1:
            yield "bodies of one shape: " + ", ".join(where)
    common = {"new", "from", "main", "len", "clear", "get", "number", "fmt", "eq", "hash", "next", "push", "pop", "try_from", "clone"}
    for function, where in by_name.items():
        if len({crate for crate, _ in where}) > 1 and function not in common:
            yield f"one name in several crates: {function} in " + ", ".join(sorted(n for _, n in where))


def repeated(commit):
    """Clauses that stand in three functions or more, and parameters that three functions or more take together."""
    clauses = defaultdict(set)
    groups = defaultdict(set)
    for name, text in files(commit):
        crate = name.split("/")[1]
        for function, parameters, stated in functions(text):
            for clause in stated:
                clauses[crate, clause].add(f"{name}: {function}")
            taken = sorted(set(re.findall(r"(\w+): [^,]+", parameters)) & {"store", "host", "scratch", "out", "printer", "part", "text", "token", "slots", "buckets", "entries", "items", "names", "node", "parts", "first", "second", "a", "b", "hash", "page"})
            for i in range(len(taken)):
                for j in range(i + 1, len(taken)):
                    groups[crate, taken[i], taken[j]].add(f"{name}: {function}")
    for (crate, clause), where in sorted(clauses.items()):
        if len(where) > 2:
            yield f"{crate}: {{ {clause} }} in {len(where)} functions"
    for (crate, one, two), where in sorted(groups.items()):
        if len(where) > 2:
            yield f"{crate}: `{one}` and `{two}` together in {len(where)} functions"


def short_answers(commit):
    """Answers that say no more than a search that the check makes by itself."""
    for name, text in files(commit, "proofs", "Answers.antt"):
        for number, line in enumerate(text.splitlines(), 1):
            if re.search(r" = (search rules|omega arith|grind \(arith, common_steps\)|refl)$", line):
                yield f"{name}:{number}: {line.strip()}"


def places(commit):
    found = defaultdict(list)
    for point, patterns in PATTERNS.items():
        for what, pattern in patterns:
            for name, text in files(commit):
                for number, line in enumerate(text.splitlines(), 1):
                    if line.lstrip().startswith(("//", "ghost", "ensures", "requires")):
                        continue
                    if re.search(pattern, line):
                        found[point].append(f"{name}:{number}: {what}: {line.strip()}")
    found[2] = list(twins(commit))
    found[5] = list(repeated(commit))
    found[8] = list(short_answers(commit))
    return found


def main():
    arguments = sys.argv[1:]
    only_counts = "--counts" in arguments
    rest = [a for a in arguments if a != "--counts"]
    found = places(rest[0] if rest else None)
    for point in sorted(found):
        print(f"point {point}: {len(found[point])}")
        if not only_counts:
            for row in found[point]:
                print("  " + row)


main()
