#!/usr/bin/env python3
"""Respells the repository's own definitions and lemmas as today's Rattle spells names: run once, from the repository's root.

A definition is in snake case. A lemma keeps the hyphen behind the definition that it is about, as `length-rows` does, and is in snake
case otherwise. Fields of records are in snake case. Types keep their names, and so do all names that Rattle makes itself."""
import pathlib
import re
import sys

IDENT = r"[^\s(){}\[\];,.«»:|\"`⌜⌝]+"
TOKEN = re.compile(r"(?<![\w'◌-])([A-Za-z][\w']*(?:-[\w']+)*)(?![\w'◌-])")
# Words of the library that lemmas are about.
LIBRARY = {"length", "take", "drop", "sum", "map", "filter", "append", "get_or", "set", "cond", "find", "replicate", "ltb", "leb", "eqb", "max", "min"}
# Lemmas that would fall together with a definition or with one another.
CHOSEN = {
    "has-row": "has_row_if_ok",
    "first-late": "first_late_is",
    "first-none": "none_found",
    "fault-text": "fault_text-parts",
    "in-turn": "turned",
    "in-turn-more": "in_turn-more",
    "in-turn-push": "in_turn-push",
    "memory-bound": "memory_has_bound",
    "processor-bound": "processor_has_bound",
    "put-column": "put_column_on",
    "two-phases": "two_phases_stand",
    # fields and parameters have the plain names
    "memoryFigure": "memory_figure_of",
    "processorFigure": "processor_figure_of",
    "memoryOrder": "by_memory_rank",
    "processorOrder": "by_processor_rank",
}
# Lemmas that the first script let fall together with a definition: the crate, the module, the name.
SPLIT = {
    ("rows", "RowLists", "row_at"): "row_at_number",
    ("encoding", "Loading", "first_rows"): "first_rows-bytes_of",
}


def files(pattern):
    return [p for p in sorted(pathlib.Path("crates").glob(pattern)) if "out" not in p.parts]


def snake(name):
    return re.sub(r"(?<=[a-z0-9])([A-Z])", lambda m: "_" + m[1].lower(), name)


def declared():
    """The names that the repository declares itself: definitions and lemmas, and fields."""
    outer, inner = set(), set()
    for path in files("*/specs/**/*.antt") + files("*/proofs/**/*.antt"):
        if path.name in ("Answers.antt", "Invariants.antt", "Proof.antt", "Choices.antt"):
            made = set(re.findall(r"^(?:abbrev )?(?:pub )?(" + IDENT + r") : goal\.", path.read_text(), re.M))
        else:
            made = set()
        for line in path.read_text().split("\n"):
            m = re.match(r"(?:abbrev |unfoldable )?(?:pub )?([a-z][\w'-]*) : ", line)
            if m and m[1] not in made:
                outer.add(m[1])
            m = re.match(r"\s+(?:abbrev |unfoldable )?(?:pub )?([a-z][\w'-]*) : ", line)
            if m:
                inner.add(m[1])
            m = re.search(r"\b(?:in )?let ([a-z][\w'-]*)(?: :| =)", line)
            if m:
                inner.add(m[1])
    return outer, inner


def respelled(name, words):
    if name in CHOSEN:
        return CHOSEN[name]
    parts = name.split("-")
    if len(parts) > 1 and snake(parts[0]) in words:
        return snake(parts[0]) + "-" + "_".join(snake(p) for p in parts[1:])
    return "_".join(snake(p) for p in parts)


def turned(line, table):
    """A line with the names of the table respelled, but for calls behind `c.`, whose names Rattle makes."""
    return TOKEN.sub(lambda m: m[1] if m[1] == "put-column" and line[: m.start()].endswith("c.") else table.get(m[1], m[1]), line)


def generated():
    """The names that Rattle makes: goals, and what an answer reads behind `c.`, `l.`, `w.` and `goal.`."""
    names = set()
    for path in files("*/proofs/**/*.antt"):
        text = path.read_text()
        names |= set(re.findall(r"\b(?:goal|c|l|w|g|κs)\.([\w'-]+)", text))
        names |= set(re.findall(r"\[\s*([a-z]+-[\w'-]+) \w+ ↦", text))
    return names


def main():
    outer, inner = declared()
    words = {snake(n) for n in outer if "-" not in n} | LIBRARY
    made = generated()
    table = {}
    for name in outer | inner:
        new = respelled(name, words if name in outer else set())
        if new != name:
            table[name] = new
    clash = {}
    for old, new in table.items():
        clash.setdefault(new, set()).add(old)
    for name in outer | inner:
        if name not in table and name in clash:
            clash[name].add(name)
    for new, olds in sorted(clash.items()):
        if len(olds) > 1:
            print("fall together:", new, "of", ", ".join(sorted(olds)), file=sys.stderr)
    for name in sorted(made & set(table)):
        print("also made by Rattle:", name, file=sys.stderr)
    if "--dry" in sys.argv:
        for old, new in sorted(table.items()):
            print(old, "->", new)
        return
    for path in files("*/specs/**/*.antt") + files("*/proofs/**/*.antt") + files("*/src/**/*.rt"):
        text = path.read_text()
        new = "\n".join(line if line.lstrip().startswith(("//", "--")) and "ghost" not in line else turned(line, table) for line in text.split("\n"))
        for (crate, module, name), other in SPLIT.items():
            if path.parts[1] == crate and "proofs" in path.parts and (path.stem == module or f"{module}.{{" in new and re.search(rf"{module}\.{{[^}}]*\b{name}\b", new)):
                new = re.sub(rf"(?<![\w'.-]){name}(?![\w'-])", other, new)
        if new != text:
            path.write_text(new)


main()
