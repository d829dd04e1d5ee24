"""What the crates define, as the checks on documents ask it: names, contracts, and what stands on what."""
import re

import shape

from sources import TOP, files

NAME = r"[A-Za-z_][\w'₂-]*"
ITEM = re.compile(rf"\b(?:fn|struct|enum|trait|mod|const|type|ensures|requires|ghost) ({NAME})")
VARIANT = re.compile(rf"^ +({NAME})(?:\(.*\))?,$", re.M)
OWNER = re.compile(rf"impl(?:<.*?>)? ({NAME})")
PUBLIC = re.compile(rf"( *)pub fn ({NAME})")
DEFINITION = re.compile(rf" *(?:(?:pub|abbrev|unfoldable|opaque|data|record) )*({NAME})(?= [:({{])")


class Crates:
    def __init__(self):
        lines = [line for line in (TOP / "crates.txt").read_text().splitlines() if line and not line.startswith("#")]
        self.stands_on = {name.split()[0]: below.split() for name, _, below in (line.partition(":") for line in lines)}
        self.names = {crate: {crate} for crate in self.stands_on}          # items, variants, clauses, modules, definitions
        self.definitions = {crate: set() for crate in self.stands_on}      # what specs/ define
        self.contracts = {crate: {} for crate in self.stands_on}           # function -> the lines from its head to its body
        for path, lines in files(".rt", ".antt").items():
            crate = path.split("/")[1]
            if crate in self.names and "/proofs/" not in path:
                self.names[crate] |= set(re.split(r"[/.]", path))
                self.read_code(crate, lines) if path.endswith(".rt") else self.read_specs(crate, lines)

    def read_code(self, crate: str, lines: list[str]):
        text = "\n".join(line for line in lines if not line.lstrip().startswith("//"))
        self.names[crate] |= {*ITEM.findall(text), *VARIANT.findall(text)}
        for head, line in enumerate(lines):
            if shape.FN.match(line):
                end = next((k for k in range(head + 1, len(lines)) if re.match(r" *(\{|\}|///|pub fn|fn)", lines[k])), len(lines))
                self.contracts[crate].setdefault(re.search(rf"fn ({NAME})", line)[1], []).extend(lines[head:end])

    def read_specs(self, crate: str, lines: list[str]):
        found = {match[1] for line in lines if (match := DEFINITION.match(line))}
        self.names[crate] |= found
        self.definitions[crate] |= found

    def public(self, crate: str) -> set[str]:
        """The functions that others may call: free ones as their name, those of a type as `Type::name`."""
        folder = f"crates/{crate}/src/"
        code = {path: lines for path, lines in files(".rt").items() if path.startswith(folder) and "tests" not in path}
        root = code.get(folder + "lib.rt", [])
        shown = set(re.findall(NAME, " ".join(line for line in root if line.startswith(("pub use", "pub mod")))))
        found = set()
        for lines in code.values():
            owner = ""
            for line in lines:
                head, function = OWNER.match(line), PUBLIC.match(line)
                owner = head[1] if head else owner
                outer = owner if function and function[1] else function and function[2]
                if function and (lines is root or outer in shown):
                    found.add(f"{owner}::{function[2]}" if function[1] else function[2])
        return found

    def every_name(self) -> set[str]:
        return set().union(*self.names.values())

    def contract(self, crate: str, functions: list[str]) -> str:
        """The contracts of these functions, of whatever type each is."""
        return "\n".join(line for name in functions for line in self.contracts[crate].get(name.split("::")[-1], []))

    def below(self, crate: str) -> set[str]:
        """The crates that it stands on, at any depth."""
        near = {each for each in self.stands_on.get(crate, []) if each in self.stands_on}
        return near.union(*map(self.below, near))
