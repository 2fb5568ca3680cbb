#!/usr/bin/env python3
"""Lists the files of definitions on which the contract of `flumina` and its laws rest: what their reader has to read and believe.

Usage: tools/definitions.py                 prints the tables of docs/TRUST.md, and fails if they differ from those in it
       tools/definitions.py --write         writes them there
       tools/definitions.py --files [LAW]   a line for each file of the contract, or of a law, by its statement's name

The files of the contract are those in `specs/` that declare a name of its clauses, all files in `specs/` that those import, and so on; no
proof is among them. Those of a law are those that its statement cites, in the same way; of the law's own file only what it cites counts, and
the clauses of `flumina` that it takes as its premises do not, since the call has them. The types of the code that they speak of are declared
in `src/`, and those files are counted apart. Lines are counted without empty ones, comments and imports. The last lines say how many files of
the contract only the first faults of texts, the runs of `simulate` and `replay` on the net and the demo need: what is not cited any more where
`TextFaults.antt`, `Simulating.antt` with those of replays, or `Demos.antt` of `flu_command/specs` is left out.
"""
import re
import sys
from pathlib import Path

CRATES = Path(__file__).resolve().parent.parent / "crates"
TRUST = CRATES.parent / "docs" / "TRUST.md"
CALL = CRATES / "flu_top" / "src" / "top.rt"
SPECS = CRATES / "flu_top" / "specs"
COMMAND = CRATES / "flu_command" / "specs"
HEADLINE = SPECS / "Headline.antt"
BEGIN = "<!-- written by tools/definitions.py --write -->"
END = "<!-- end of what tools/definitions.py writes -->"
PARTS = {
    "the first faults of texts": {COMMAND / "TextFaults.antt"},
    "the runs of `simulate` and `replay` on the net": {
        COMMAND / "Simulating.antt",
        COMMAND / "Replaying.antt",
        CRATES / "flu_trace" / "specs" / "Replaying.antt",
    },
    "`demo`": {COMMAND / "Demos.antt"},
}
NAMES = re.compile(r"^\s*(?:ghost |pub )*use Rattle\.([\w.]+)\.\{([^}]*)\}", re.M)
WHOLE = re.compile(r"^\s*(?:ghost |pub )*use Rattle\.([\w.]+)(?: as (\w+))?;?$", re.M)
DECLARED = re.compile(r"^(?:abbrev |unfoldable )?pub (?:record |data )?(\w+)\b", re.M)


def words_in(text):
    return set(re.findall(r"\w+", text))


def clauses():
    """The words of the clauses of `flumina`: what is between its head and its body."""
    text = CALL.read_text()
    start = text.index("pub fn flumina")
    return words_in(re.sub(r"//.*", "", text[text.index("    ensures", start) : text.index("\n{\n", start)]))


def file_of(module):
    """The file of a module of definitions, or the source that declares a type; None where it is the kit's."""
    crate, _, rest = module.partition(".specs.")
    if not rest or not (CRATES / crate).is_dir():
        return None
    if rest.startswith("declared."):
        return CRATES / crate / "src" / (rest.split(".")[1] + ".rt")
    return CRATES / crate / "specs" / (rest.replace(".", "/") + ".antt")


def imported(text, words):
    """The modules of which a text imports some of these words."""
    named = [module for module, names in NAMES.findall(text) if words & words_in(names)]
    return named + [module for module, alias in WHOLE.findall(text) if (alias or module.split(".")[-1]) in words]


def closed(wanted, without=frozenset()):
    """The files of some modules, and all that they import; without some, and what they alone import."""
    found = set(without)
    wanted = list(wanted)
    while wanted:
        path = file_of(wanted.pop())
        if path is None or path in found:
            continue
        found.add(path)
        if path.suffix == ".antt":
            text = path.read_text()
            wanted += [module for module, _ in NAMES.findall(text)] + [module for module, _ in WHOLE.findall(text)]
    return found - without


def of_contract(without=frozenset()):
    return closed(imported(CALL.read_text(), clauses()), without)


def count(text):
    lines = [line.strip() for line in text.splitlines()]
    return sum(1 for line in lines if line and not line.startswith("--") and not re.match(r"(pub )?use ", line))


def parts_of(path):
    """The definitions of a file, each by its name: the lines from its first one to the next definition."""
    text = re.sub(r"^--.*$", "", path.read_text(), flags=re.M)
    starts = [(found.group(1), found.start()) for found in DECLARED.finditer(text) if not found.group(0).startswith("pub use")]
    ends = [start for _, start in starts[1:]] + [len(text)]
    return {name: text[start:end] for (name, start), end in zip(starts, ends)}


def of_law(law):
    """A law's own file, what of it the law cites, and the files that these definitions cite and all that they import."""
    path = next((path for path in sorted(SPECS.glob("*.antt")) if law in parts_of(path)), None)
    if path is None:
        sys.exit(f"no statement in {SPECS.relative_to(CRATES)} is named {law}")
    parts, cited, wanted = parts_of(path), {}, [law]
    while wanted:
        name = wanted.pop()
        if name not in cited:
            cited[name] = parts[name]
            wanted += words_in(parts[name]) & parts.keys()
    words = set().union(*map(words_in, cited.values()))
    premises = [file_of(module) for module, names in NAMES.findall(CALL.read_text()) if clauses() & words_in(names)]
    modules = [
        module
        for module, names in NAMES.findall(path.read_text())
        if words & words_in(names) - (clauses() if file_of(module) in premises else set())
    ]
    return path, "".join(cited.values()), closed(modules)


def measure(files):
    definitions = [path for path in files if path.suffix == ".antt"]
    return definitions, sum(count(path.read_text()) for path in definitions)


def tables():
    contract = of_contract()
    definitions, lines = measure(contract)
    code = len(contract) - len(definitions)
    yield "| Statement | Files of definitions | Lines | Files of code that declare their types |\n|---|---|---|---|"
    yield f"| the contract of `flumina` | {len(definitions)} | {lines:,} | {code} |"
    for law in [name for name, part in parts_of(HEADLINE).items() if re.match(r"abbrev pub \w+ : Type 0\n", part)]:
        path, own, files = of_law(law)
        found, more = measure(files - {path})
        yield f"| `{law}` | {len(found) + 1} | {more + count(own):,} | {len(files) - len(found)} |"
    yield "\nThe files of the contract:\n\n| Crate | Files of definitions, with their lines | Lines |\n|---|---|---|"
    for crate in sorted({path.relative_to(CRATES).parts[0] for path in definitions}):
        own = sorted(path for path in definitions if path.relative_to(CRATES).parts[0] == crate)
        yield f"| `{crate}` | {', '.join(f'{path.stem} {count(path.read_text())}' for path in own)} | {measure(own)[1]} |"
    yield "\n| Of these, for this alone | Files of definitions | Lines |\n|---|---|---|"
    for part, without in PARTS.items():
        alone, more = measure(contract - of_contract(without))
        yield f"| {part} | {len(alone)} | {more:,} |"


def print_files(law):
    files = of_contract()
    if law:
        path, own, files = of_law(law)
        print(f"{count(own):6} {path.relative_to(CRATES)}, what it cites of this file")
        files = files - {path}
    for path in sorted(measure(files)[0]):
        print(f"{count(path.read_text()):6} {path.relative_to(CRATES)}")


def main():
    words = sys.argv[1:]
    if "--files" in words:
        return print_files(next((word for word in words if not word.startswith("--")), None))
    written = f"{BEGIN}\n\n" + "\n".join(tables()) + f"\n\n{END}"
    text = TRUST.read_text()
    start, end = text.index(BEGIN), text.index(END) + len(END)
    if "--write" in words:
        TRUST.write_text(text[:start] + written + text[end:])
    else:
        print(written)
        if text[start:end] != written:
            sys.exit("docs/TRUST.md has other tables: tools/definitions.py --write")


main()
