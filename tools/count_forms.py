#!/usr/bin/env python3
"""Counts, in the sources of all crates, the places that docs/DESIGN-PASS.md speaks of. Point by point it prints what
a search finds; which of these are places of the older forms, and why one stays, says the page.

    tools/count_forms.py [POINT] [FOLDER]     (by default all points, of this repository)

It reads the text alone: a line of a test counts like any other.
"""
import re
import subprocess
import sys
from collections import defaultdict
from itertools import combinations
from pathlib import Path

ITEM = re.compile(r"^(?P<indent> *)(?:pub(?:\(\w+\))? )?(?:const )?fn (?P<name>\w+)")


def sources(top):
    names = subprocess.run(["git", "ls-files", "crates/*/src/*"], cwd=top, text=True, check=True, capture_output=True)
    for name in names.stdout.split():
        yield name, (top / name).read_text().splitlines()


def functions(lines):
    """(name, first line, signature, clauses, body) of each function; a function ends at the brace of its indentation."""
    at = 0
    while at < len(lines):
        item = ITEM.match(lines[at])
        if not item:
            at += 1
            continue
        end = at
        while end < len(lines) and not re.match(item["indent"] + r"(\}|\{\})", lines[end]):
            end += 1
        text = lines[at:end + 1]
        head = next((i for i, line in enumerate(text) if re.search(r"(^\s*|[^λ] )\{(\})?$", line)), len(text) - 1)
        signature, clauses = [], []
        for line in text[:head + 1]:
            if clauses or re.match(r"\s*(requires|ensures)\b", line):
                clauses.append(line.strip())
            else:
                signature.append(line.strip())
        yield item["name"], at + 1, " ".join(signature), clauses, text[head + 1:-1]
        at = end + 1


def parameters(signature):
    inner = signature[signature.find("(") + 1:]
    return re.findall(r"(?:mut )?(\w+): ", inner.split(" -> ")[0])


def say(title, found):
    print(title)
    for line in found:
        print("   ", line)
    print(f"    = {len(found)}")


def lines_with(top, pattern):
    return [f"{name}:{i}: {line.strip()}" for name, lines in sources(top) for i, line in enumerate(lines, 1)
            if re.search(pattern, line) and not line.strip().startswith("//")]


def functions_with(top, test):
    return [f"{name}:{at}: {signature}" for name, lines in sources(top) for f, at, signature, _, _ in functions(lines)
            if test(f, signature)]


def point_1(top):
    say("1a: enums",
        lines_with(top, r"^\s*(pub )?enum "))
    say("1b: functions that answer by a flag, alone or in a Result",
        functions_with(top, lambda f, signature: re.search(r"-> (\w+::)?(Result<)?bool\b", signature)))
    say("1c: functions that answer or take a number that stands for a kind or a refusal",
        functions_with(top, lambda f, signature: re.search(r"-> \(?u8\b|\bnumber: u8|-> Option<usize>", signature)))


def alike(title, found):
    """Says the places that have a shape in common, of (shape, what is said of it, place)."""
    groups = defaultdict(list)
    for shape, note, place in found:
        groups[shape, note].append(place)
    say(title, [" ~ ".join(places) + note for (_, note), places in groups.items() if len(places) > 1])


def bodies(top):
    for name, lines in sources(top):
        for f, at, _, _, body in functions(lines):
            text = " ".join(line.strip() for line in body if not line.strip().startswith("//"))
            shape = re.sub(r'b?"[^"]*"|\b\d[\w_]*|\b[a-z_]\w*|\b[A-Z]\w*', "_", text)
            if len(shape) > 3:
                yield shape, "", f"{name}:{at} {f}"


def structs(top):
    for name, lines in sources(top):
        for struct in re.finditer(r"struct (\w+)[^{;]*\{(.*?)\n\s*\}", "\n".join(lines), re.S):
            fields = re.findall(r"^\s*(?:pub(?:\(\w+\))? )?\w+: ([^,]+),", struct[2], re.M)
            types = tuple(re.sub(r"; \w+\]", "; _]", f) for f in fields)
            yield types, f" {types}", f"{name} {struct[1]}"


def constants(top):
    for name, lines in sources(top):
        for line in lines:
            constant = re.match(r"\s*(?:pub(?:\(\w+\))? )?const (\w+): (\w+) = ([^;]+);", line)
            if constant:
                yield constant.groups(), f": {constant[1]} = {constant[3]}", name


def point_2(top):
    alike("2a: functions of the same shape: what is left when names of values, strings and numbers are struck out",
        bodies(top))
    alike("2b: structs whose fields have the same types, sizes aside",
        structs(top))
    alike("2c: numbers that have a name in more than one file",
        constants(top))


def point_3(top):
    say("3a: while and loop",
        lines_with(top, r"\b(while|loop)\b.*\{$"))
    say("3b: for over a range, or over places that enumerate or skip count",
        lines_with(top, r"\bfor\b.*(\.\.[^\]]|enumerate|\.skip\().*\{$"))
    say("3c: a number that the code moves on by itself",
        lines_with(top, r"^\s*\*?[\w.]+ (\+=|-=|/=) |= \w+(\.\w+)*\.saturating_(add|sub)\("))


def point_4(top):
    say("4a: numbers turned by `as`",
        lines_with(top, r"\bas (u8|u16|u32|u64|u128|usize)\b"))
    say("4b: functions that turn a value into another or into text, and what makes an empty value",
        functions_with(top, lambda f, signature: re.search(
            r"^(from|of|to|as)_|_of$|^(word|text|number|layer|kind|table_id|fields|new|digit|byte)$", f)))
    say("4c: impls written by hand",
        lines_with(top, r"^\s*impl.* for "))
    say("4d: equality by way of something else than the values, and bits that stand for a flag",
        lines_with(top, r"\w+\(\) (==|!=) \w+\.\w+\(\)|if [\w.]+ \{ 1 << "))


def point_5(top):
    sets = defaultdict(set)
    for name, lines in sources(top):
        for f, at, signature, _, _ in functions(lines):
            for pair in combinations(sorted(set(parameters(signature)) - {"rt", "self"}), 2):
                sets[pair].add(f"{name.split('/')[1]}::{f}")
    say("5a: parameters that three or more functions take together",
        [" with ".join(pair) + ": " + ", ".join(sorted(where)) for pair, where in sorted(sets.items()) if len(where) > 2])
    facts = defaultdict(set)
    for name, lines in sources(top):
        for f, at, _, clauses, _ in functions(lines):
            for clause in clauses:
                for fact in re.findall(r"(?:length )?\(?[\w. ()]+?\)? [≤<] [\w^. ]+", clause):
                    shape = re.sub(r"\b\d+\b", "N", re.sub(r"^(ensures|requires)?[\w ]*\{ ", "", fact)).strip("( ")
                    facts[re.sub(r"\.(now|old|new)", "", shape)].add(f"{name.split('/')[1]}::{f}")
    say("5b: facts in a requires or an ensures of three or more functions, numbers struck out",
        [f"{fact}: " + ", ".join(sorted(where)) for fact, where in sorted(facts.items()) if len(where) > 2])
    say("5c: functions with five parameters or more",
        functions_with(top, lambda f, signature: len(parameters(signature)) + ("self" in signature) > 4))


def point_6(top):
    say("6a: a length, a place or a count beside what it is of, in a struct or among the parameters",
        lines_with(top, r"^\s*(pub(\(\w+\))? )?(len|length|count|size|at|place|end): usize,")
        + functions_with(top, lambda f, signature: {"len", "length", "count", "place", "end"} & set(parameters(signature))))
    say("6b: an array of fixed size held in a struct",
        lines_with(top, r"^\s*(pub(\(\w+\))? )?\w+: \[\w+; \w+\],"))


def point_7(top):
    say("7: function pointers, dyn, closures, and a flag or an enum that a caller passes to choose a step",
        lines_with(top, r"\bfn\(|\bdyn\b|\|\w*\||: bool[,)]"))


def point_8(top):
    names = subprocess.run(["git", "ls-files", "crates/*/proofs/*"], cwd=top, text=True, check=True, capture_output=True)
    sizes = defaultdict(lambda: [0, 0, 0])
    for name in names.stdout.split():
        text = (top / name).read_text()
        sizes[name.split("/")[1]][0] += 1
        sizes[name.split("/")[1]][1] += text.count("\n")
        sizes[name.split("/")[1]][2] += len(re.findall(r"^pub [\w-]+ : goal\.", text, re.M)) if "Answers" in name else 0
    say("8: proof files and their lines, by crate",
        [f"{crate}: {files} files, {lines} lines, {answers} answers" for crate, (files, lines, answers) in sizes.items()])


def main():
    words = sys.argv[1:]
    points = [int(word) for word in words if word.isdigit()] or range(1, 9)
    top = Path(next((word for word in words if not word.isdigit()), Path(__file__).parent.parent))
    for point in points:
        globals()[f"point_{point}"](top)


main()
