#!/usr/bin/env python3
"""The documents name what stands in the tree.

- names in backquotes of PROMISES, DEFINITIONS, ARCHITECTURE, DECISIONS and CONTRIBUTING are crates, files, functions, clauses or definitions that stand;
- a row of PROMISES names functions of its crate, and clauses of theirs, and none that is public is left out; the laws of DEFINITIONS are those of
  `evm_cells`; a row of ARCHITECTURE names a crate that crates.txt has, and what it stands on; the README has each crate, and functions of it;
- links between documents, and the files that they name, are there;
- tables are whole;
- numbers that stand in several places agree.
"""
import pathlib
import re
import shutil
import subprocess
import sys

import cells

from crates import NAME, Crates
from sources import TOP, files
from tally import Tally

DOCUMENTS = {str(path.relative_to(TOP)): path.read_text() for path in
             [TOP / "README.md", *sorted((TOP / "docs").glob("*.md")), TOP / "docs" / "gallery" / "README.md"]}
NAMING = [f"docs/{name}.md" for name in ("PROMISES", "DEFINITIONS", "ARCHITECTURE", "DECISIONS", "CONTRIBUTING")]
SPAN = re.compile(r"`([^`\n]+)`")
# What stands in backquotes and is no name of ours: words of the script language, of std and of other tools, and words of examples.
WORDS = {word for form in cells.FORMS for word in form} | set("""
ok no true false syntax missing shelf memory form range taken kind used cycle dim line
Result Vec i32 pub requires rt python3 git out/ NEVM P5 FRAME H2 C420 evm-boxes zz
""".split())


# Tables

def tables(text: str):
    """Each table of a document: the number of its first line, and its rows as lists of cells."""
    block, start = [], 0
    for number, line in enumerate(text.splitlines() + [""], 1):
        if line.startswith("|"):
            start = start if block else number
            block.append([cell.strip() for cell in re.split(r"(?<!\\)\|", line)[1:-1]])
        elif block:
            yield start, block
            block = []


def check_tables(tally: Tally):
    for name, text in DOCUMENTS.items():
        for start, rows in tables(re.sub(r"(?ms)^```.*?^```$", lambda code: "\n" * code[0].count("\n"), text)):
            whole = len(rows) > 2 and all(re.fullmatch(r":?-+:?", cell) for cell in rows[1])
            tally.count(whole, f"{name}:{start}: a table without a head and rows, as one that a blank line cuts")
            wide = all(len(row) == len(rows[0]) for row in rows)
            tally.count(wide, f"{name}:{start}: a table whose rows have different numbers of columns")


# Links and files

def check_links(tally: Tally):
    for name, text in DOCUMENTS.items():
        folder = (TOP / name).parent
        for link in re.findall(r"\]\(([^)#:\s]+)(?:#[^)]*)?\)", text):
            tally.count((folder / link).exists(), f"{name}: the link to {link} leads nowhere")
        for path in re.findall(r"`((?:docs|checks|bench|examples|crates|python|\.ci)/[\w./-]*)`", text):
            tally.count((TOP / path).exists(), f"{name}: there is no {path}")


# Names

def names_in(cell: str) -> list[str]:
    return [span.split()[0] for span in SPAN.findall(cell)]


def is_known(span: str, known: set[str]) -> bool:
    """Whether what stands in backquotes is a name that there is, a file, or no name at all."""
    head = re.split(r"[\s(<\[]", span)[0]
    if head in WORDS or len(head) == 1 or (TOP / head).exists():
        return True
    if "/" in head or re.search(r"\.(md|rt|antt|py|txt|evm)$", head):
        path = head.replace("MODULE", "*").removeprefix("./").rstrip("/")
        return any(True for folder in ("", "checks/", "crates/*/", "python/", "python/*/") for _ in TOP.glob(folder + path))
    return not re.fullmatch(rf"{NAME}(::{NAME})*", head) or all(part in known for part in head.split("::"))


def names_of_checks() -> set[str]:
    """The functions, classes and constants of the checks."""
    text = "\n".join(line for lines in files(".py").values() for line in lines)
    return set(re.findall(r"^ *(?:def|class) (\w+)", text, re.M)) | set(re.findall(r"^([A-Z_]+)\b.* = ", text, re.M))


def check_names(tally: Tally, crates: Crates):
    known = crates.every_name() | planned() | names_of_checks()
    for name in NAMING:
        text = re.sub(r"(?ms)^```.*?^```$", "", DOCUMENTS[name])
        for span in sorted(set(SPAN.findall(text))):
            tally.count(is_known(span, known), f"{name}: there is no `{span}`")


def planned() -> set[str]:
    """The crates that ARCHITECTURE says are to come."""
    section = DOCUMENTS["docs/ARCHITECTURE.md"].partition("## Planned")[2].partition("\n## ")[0]
    return {name for _, rows in tables(section) for row in rows for name in names_in(row[0])}


# Promises and definitions

def sections(name: str, mark: str) -> list[tuple[str, str]]:
    """The head of each section of a document, and its text."""
    return [(head, text) for head, _, text in (section.partition("\n") for section in DOCUMENTS[name].split(f"\n{mark} ")[1:])]


def promised(head: list[str], row: list[str], before: list[str]) -> tuple[list[str], list[str]]:
    """The functions and the clauses that a row of PROMISES names; `both` are those of the row before."""
    if head[1].startswith("clause of"):
        return names_in(head[1]), names_in(row[1])
    calls, _, clauses = row[1].partition(", clause")
    return names_in(calls) or before, names_in(clauses) + (names_in(row[2]) if len(row) > 2 else [])


def check_promises(tally: Tally, crates: Crates):
    told = set()
    for title, text in sections("docs/PROMISES.md", "##"):
        crate, functions = names_in(title)[0], []
        told.add(crate)
        if crate not in crates.stands_on:
            tally.count(False, f"docs/PROMISES.md: there is no crate {crate}")
            continue
        for head, row in ((rows[0], row) for _, rows in tables(text) for row in rows[2:]):
            functions, clauses = promised(head, row, functions)
            for name in functions:
                there = name in crates.names[crate] or name.split("::")[-1] in crates.contracts[crate]
                tally.count(there, f"docs/PROMISES.md: {crate} has no `{name}`")
            for clause in clauses:
                stands = re.search(rf"\b{re.escape(clause)}\b", crates.contract(crate, functions))
                tally.count(stands, f"docs/PROMISES.md: {', '.join(functions)} of {crate} has no clause `{clause}`")
        spoken = {part for span in SPAN.findall(text) for part in re.findall(NAME, span)}
        for name in sorted(crates.public(crate)):
            tally.count(name.split("::")[-1] in spoken, f"docs/PROMISES.md says nothing of `{name}`, which is public in {crate}")
    silent = set(crates.stands_on) - told
    tally.count(not silent, f"docs/PROMISES.md says nothing of {silent}")


def check_laws(tally: Tally, crates: Crates):
    """The tables of laws of DEFINITIONS: each row is a clause of the function of its head, and what it states; and all clauses stand there."""
    heads = sections("docs/DEFINITIONS.md", "###")
    untold = crates.public("evm_cells") - {names_in(title)[0] for title, _ in heads}
    tally.count(not untold, f"docs/DEFINITIONS.md has no laws of {untold}")
    for title, text in heads:
        function, rows = names_in(title)[0], [row for _, rows in tables(text.partition("\n## ")[0]) for row in rows[2:]]
        contract = crates.contract("evm_cells", [function])
        for name in (name for row in rows for name in names_in(row[0])):
            tally.count(re.search(rf"\b{name}\b", contract), f"docs/DEFINITIONS.md: {function} has no clause or statement `{name}`")
        told = {name for row in rows for name in names_in(row[0])}
        for clause in re.findall(rf"ensures ({NAME})", contract):
            tally.count(clause in told, f"docs/DEFINITIONS.md: {function} has the clause `{clause}` too")


def check_definitions(tally: Tally, crates: Crates):
    """The tables of definitions: what stands under `name` is defined in the crate that the head of the section names, else in `evm_cells`."""
    for title, text in sections("docs/DEFINITIONS.md", "##"):
        named = [name for name in names_in(title) if name in crates.stands_on] or ["evm_cells"]
        defined = set().union(*(crates.definitions[crate] for crate in named))
        for head, row in ((rows[0], row) for _, rows in tables(text) for row in rows[2:]):
            for name in names_in(row[head.index("name")]) if "name" in head else []:
                tally.count(name in defined, f"docs/DEFINITIONS.md: {' and '.join(named)} defines no `{name}`")


# The map of crates, and what is proved of each

def check_proved(tally: Tally, crates: Crates):
    """The table of the README: a row for each crate, which names functions of its own."""
    section = DOCUMENTS["README.md"].partition("## What is proved")[2].partition("\n## ")[0]
    rows = [row for _, (_, _, *body) in tables(section) for row in body]
    carried = {name: names_in(row[-1]) for row in rows for name in names_in(row[0])}
    tally.count(set(carried) == set(crates.stands_on), f"README.md and crates.txt differ in {set(carried) ^ set(crates.stands_on)}")
    for crate in set(carried) & set(crates.stands_on):
        for name in carried[crate]:
            tally.count(name.split("::")[-1] in crates.contracts[crate], f"README.md: {crate} has no `{name}`")


def check_crates(tally: Tally, crates: Crates):
    section = DOCUMENTS["docs/ARCHITECTURE.md"].partition("## Crates")[2].partition("\n## ")[0]
    rows = [row for _, (_, _, *body) in tables(section) for row in body]
    built = {name: set(names_in(row[-1])) for row in rows for name in names_in(row[0])}
    tally.count(set(built) == set(crates.stands_on), f"docs/ARCHITECTURE.md and crates.txt differ in {set(built) ^ set(crates.stands_on)}")
    for crate, below in built.items():
        tally.count(below <= crates.below(crate), f"docs/ARCHITECTURE.md: {crate} does not stand on {below - crates.below(crate)}")
    early = planned() & set(crates.stands_on)
    tally.count(not early, f"docs/ARCHITECTURE.md: {early} are built, and no longer planned")
    known = crates.every_name() | planned()
    for name, text in DOCUMENTS.items():
        for word in sorted(set(re.findall(r"\bevm_\w+", text))):
            tally.count(word in known, f"{name}: there is no {word}")


# Numbers

# What a number is of, what it is, and where it stands: each place by a pattern, of which every match has to give the number.
NUMBERS = [
    ("a line", 4096, r"(?:lines?|blank line)\s(?:may\shave|has|of)\s(?:at\smost|more\sthan)\s([\d,]+)\sbytes|[Tt]he longest line, ([\d,]+) bytes"),
    ("a script", 67108864, r"a\sscript\s([\d,]{6,})|script\shas\smore\sthan\s([\d,]+)\sbytes"
                           r"|most bytes of a script, ([\d,]+)|script of ([\d,]+) spaces"),
    ("a byte too many", 67108865, r"[Aa]t most ([\d,]{6,}) bytes are taken|where byte ([\d,]+) was"),
    ("a script", "64 MiB", r"script\sof\sat\smost\s(\d+ \wiB)"),
    ("a file", 268435456, r"(?:has\smore|is\slonger)\sthan\s([\d,]{6,})\sbytes(?! are|; nothing)"
                          r"|\d+ MiB \(([\d,]+) bytes\)|file that is fetched, ([\d,]+)"),
    ("a file", "256 MiB", r"file[^.\n]*\sat\smost\s(\d+ \wiB)"),
    ("a file name", 64, r"(?:file name\*\* has|file\snames[^.]*:) 1 to (\d+)|`is_file_name name` \| 1 to (\d+)"),
    ("a name", 32, r"A \*\*name\*\* has 1 to (\d+) bytes|`is_name w` \| 1 to (\d+)"),
    ("dimension 2 and 3", cells.LIMITS[3], r"\|[^|\n]*2, 3 \| (\d+) \||([\d,]+) up to dimension 3|up to (\d+) on both sides"),
    ("dimension 4", cells.LIMITS[4], r"\| 4 \| (\d{6,}) \||(\d{6,}) in (?:4|four)"),
    ("dimension 5", cells.LIMITS[5], r"\| 5 \| (\d{6,}) \||(\d{6,}) in (?:5|five)"),
    ("dimension 6", cells.LIMITS[6], r"\| 6 \| (\d{6,}) \||(\d{6,}) in (?:6|six)"),
]
CONSTANTS = [
    ("crates/evm_script", "LINE_MAX", 4096), ("crates/evm_script", "line_max", 4096), ("crates/evm_outside", "FILE_MAX", 268435456),
    ("crates/evm_outside", "file_max", 268435456), ("crates/evm_tool", "script_limit", 67108864), ("crates/evm_outside", "file_name_max", 64),
    ("crates/evm_script", "name_max", 32),
]


def check_numbers(tally: Tally):
    for name, number, pattern in NUMBERS:
        found = [(document, match[match.lastindex]) for document, text in DOCUMENTS.items() for match in re.finditer(pattern, text)]
        tally.count(found, f"no document says how much {name} may have ({number})")
        for document, got in found:
            tally.count(got.replace(",", "") == str(number), f"{document}: {name} has {got}, where it is {number}")


def check_constants(tally: Tally):
    """The same numbers as code and definitions have them."""
    code = files(".rt", ".antt")
    for folder, name, number in CONSTANTS:
        lines = [line for path, text in code.items() if path.startswith(folder) and "/proofs/" not in path for line in text]
        found = {match[1] for line in lines if (match := re.search(rf"\b{name}(?:: \w+)? = (\d+)", line))}
        tally.count(found == {str(number)}, f"{folder}: {name} is {found}, where the documents have {number}")
    text = "\n".join(code.get("crates/evm_cells/specs/Limits.antt", []))
    for number in set(cells.LIMITS.values()):
        tally.count(str(number) in text, f"the definition of the limits of coordinates has no {number}")


def check_kit(tally: Tally):
    """The line of the kit that the README names is that of the kit that is here."""
    if shutil.which("rt"):
        version = subprocess.run(["rt", "version"], capture_output=True, text=True).stdout.strip()
        tally.count(f"`{version}`" in DOCUMENTS["README.md"], f"README.md names another kit than {version}")


def main() -> int:
    tally, crates = Tally("documents"), Crates()
    check_tables(tally)
    check_links(tally)
    check_names(tally, crates)
    check_promises(tally, crates)
    check_laws(tally, crates)
    check_definitions(tally, crates)
    check_proved(tally, crates)
    check_crates(tally, crates)
    check_numbers(tally)
    check_constants(tally)
    check_kit(tally)
    return tally.status()


if __name__ == "__main__":
    sys.exit(main())
