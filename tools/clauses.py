#!/usr/bin/env python3
"""Lists the public clauses of each crate that no must-fail edit names, so that none is untested by accident, and checks what edits name.

Usage: tools/clauses.py [CRATE ..]

A public clause is an `ensures` of a public function or of a method of a trait. It is named FUNCTION.CLAUSE, or FUNCTION where the
clause has no name of its own, with the type or trait before a method, as `Outs::push.ok`. A law, which has no body, can have no edit:
its clauses are counted apart.

An edit says in one line `clause: NAME` which clause shows it wrong, by the same name. One in must-fail/ names a public clause of its crate,
or one of a trait that its crate keeps; one in edits/, which is tried by hand, may name a clause of a private function. The script says which
edits name none, and fails if there is one. The last line has the totals.
"""
import re
import sys
from pathlib import Path

TOP = Path(__file__).resolve().parent.parent / "crates"
OWNER = re.compile(r"^(?:pub )?(impl|trait)\b\s*(.*?)\s*\{?\s*$")
FUNCTION = re.compile(r"^\s*(pub(?:\(crate\))? )?(?:const )?fn (\w+)")
CLAUSE = re.compile(r"^\s*ensures\s+(?:(\w+)\s*)?\{")


def without_parameters(text):
    """A head of an impl or a trait without what is in angle brackets."""
    while True:
        shorter = re.sub(r"<[^<>]*>", "", text)
        if shorter == text:
            return text.strip()
        text = shorter


def owner_of(line):
    """The type of an impl or the name of a trait, and whether its methods are public with no word, as those of a trait are."""
    found = OWNER.match(line)
    if not found:
        return None
    kind, rest = found.group(1), without_parameters(found.group(2))
    name = rest.split(" for ")[-1] if kind == "impl" else rest
    return re.split(r"[:\s]", name.split("::")[-1])[0], kind == "trait" or " for " in rest


def exported_by(folder):
    """The modules that a crate's root makes public, and the names that it passes on."""
    root = folder / "src" / "lib.rt"
    text = root.read_text() if root.exists() else ""
    names = set()
    for path in re.findall(r"^pub use ([^;]+);", text, re.M):
        listed = re.search(r"\{(.*)\}", path, re.S)
        names |= {n.strip() for n in (listed.group(1) if listed else path.split("::")[-1]).split(",")}
    return set(re.findall(r"^pub mod (\w+);", text, re.M)), names


def is_public(path, modules, names, clause):
    """Whether a caller in another crate can name the function: its module is public, or the root passes on it or its type."""
    return path.stem in modules | {"lib"} or re.split(r"::|\.", clause)[0] in names


def clauses_of(path):
    """The clauses of a file's functions, each with whether its function is marked `pub` and whether it has an empty body."""
    owner, is_trait, function, is_open, found, waiting = None, False, None, False, [], []
    for line in path.read_text().splitlines():
        if line.startswith("}"):
            owner, is_trait = None, False
        head = owner_of(line)
        if head:
            owner, is_trait = head
        start = FUNCTION.match(line)
        if start:
            is_open = start.group(1) == "pub " or is_trait
            function = (f"{owner}::" if owner else "") + start.group(2)
            waiting = []
        clause = CLAUSE.match(line)
        if clause and function:
            waiting.append(function + (f".{clause.group(1)}" if clause.group(1) else ""))
        body = line.strip()
        if function and (body in ("{", "{}") or body.endswith("};") or body.endswith("}")) and not clause:
            found += [(name, is_open, body == "{}") for name in waiting]
            waiting = []
    return found + [(name, is_open, False) for name in waiting]


def edits_of(folder, where):
    """The edits of a crate in one of its folders, each with the names in its lines `clause:`."""
    edits = sorted(folder.glob(f"{where}/*.edit"))
    return {edit.name: [line[len("clause:"):].strip() for line in edit.read_text().splitlines() if line.startswith("clause:")] for edit in edits}


def faults_of(crate, where, edits, known, foreign):
    """What is wrong with the names of clauses in a crate's edits."""
    for edit, named in edits.items():
        if len(named) != 1:
            yield f"{crate}/{where}/{edit}: names {len(named)} clauses, and not one"
        elif named[0] not in known | foreign:
            yield f"{crate}/{where}/{edit}: there is no such clause: {named[0]}"


def main():
    clauses, traits = {}, set()
    for crate in sorted(path.name for path in TOP.iterdir() if path.is_dir()):
        modules, exported = exported_by(TOP / crate)
        clauses[crate] = [
            (name, is_open and is_public(path, modules, exported, name), has_no_body or path.stem == "laws")
            for path in sorted((TOP / crate).glob("src/**/*.rt"))
            for name, is_open, has_no_body in clauses_of(path)
        ]
        heads = re.findall(r"^pub trait (\w+)", "\n".join(path.read_text() for path in (TOP / crate).glob("src/**/*.rt")), re.M)
        traits |= {name for name, _, _ in clauses[crate] if name.split("::")[0] in heads}
    all_clauses = all_laws = all_edits = all_bare = 0
    faults = []
    for crate in sys.argv[1:] or clauses:
        public = {name for name, is_open, _ in clauses[crate] if is_open}
        laws = [name for name, is_open, is_law in clauses[crate] if is_open and is_law]
        owed = [name for name, is_open, is_law in clauses[crate] if is_open and not is_law]
        edits = edits_of(TOP / crate, "must-fail")
        by_hand = edits_of(TOP / crate, "edits")
        faults += faults_of(crate, "must-fail", edits, public, traits)
        faults += faults_of(crate, "edits", by_hand, {name for name, _, _ in clauses[crate]}, traits)
        bare = [name for name in owed if [name] not in edits.values()]
        print(f"{crate}: {len(owed)} clauses, {len(laws)} of laws, {len(edits)} edits, {len(by_hand)} by hand, {len(bare)} clauses that no edit names")
        for name in bare:
            print(f"    {name}")
        all_clauses, all_laws, all_edits, all_bare = all_clauses + len(owed), all_laws + len(laws), all_edits + len(edits), all_bare + len(bare)
    print(f"{all_clauses} clauses, {all_laws} of laws, {all_edits} edits, {all_bare} clauses that no edit names")
    for fault in faults:
        print(fault)
    sys.exit(1 if faults else 0)


main()
