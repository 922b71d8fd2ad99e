#!/usr/bin/env python3
"""Spells this repository's own definitions and lemmas as today's Rattle spells its words: in snake case.

    python3 KIT/port/port.py                once, at the top; KIT is the folder of Rattle
    python3 tools/respell.py                once, after it

Names that files of specs/ and proofs/ declare lose their dashes and capitals within: `matchesLater` becomes `matches_later`.
Where two names would fall together, the definition of specs/ keeps the plain name, and a lemma gets `_lem` behind it; a
constructor or a field gets a name of its own (MEMBERS).
Types, modules, names of src/ and the goals that a function's own proof file answers stay as they are.
The texts of edits are respelled too. Prints each name that met another."""
import collections
import os
import re

NAME = re.compile(r"(?<![\w'′+-])[A-Za-z_][\w'′-]*")
DECLARED = re.compile(
    r"^ *(?:(?:unfoldable|abbrev|pub|data|record|ruleset) )*([^\s(){}.;,@\"«»:=]+)(?: *[\[({][^)}]*[)}\]])* :(?=\s|$)", re.M
)
RECORD = re.compile(r"^( *)(?:pub )?record [^\n]*where\n", re.M)
LIBRARY = re.compile(r"^use (?:Rattle\.std|borrow|lib|mathlib|native|Prim)\b[^\n{]*\{([^}]*)\}", re.M)
OF_FUNCTION = re.compile(r"/proofs/.+/(?:Proof|Answers|Invariants)\.antt$")

# Constructors and fields that met a definition, as the rule for lemmas would spell them: in these files, where such words stand
# before them, they are these.
REFUSALS = {
    "over_limit": "count_over_limit",
    "named_twice": "name_twice",
    "unknown_name": "name_unknown",
    "unbound_variable": "variable_unbound",
    "twin_principal": "principal_twin",
}
LAWS = "crates/laws_file"
MEMBERS = [
    *(
        (file, rf"(?<!\.)(?<![\w-]){name}_lem\b", new)
        for name, new in REFUSALS.items()
        for file in (f"{LAWS}/specs/AtFault.antt", f"{LAWS}/proofs/Accepted.antt", f"{LAWS}/refused/seven_before_six.edit", "crates/fill_output/proofs/NeverThirty.antt")
    ),
    *(
        (file, rf"((?:OverLimit\.|^  )){name}_domains_lem\b", rf"\1domains_of_{name}s")
        for name in ("object", "subject")
        for file in (f"{LAWS}/specs/Rules.antt", f"{LAWS}/proofs/Counts.antt")
    ),
    (f"{LAWS}/specs/Rules.antt", r"^  named_twice_lem\b", "  twice_itself"),
    (f"{LAWS}/proofs/Repeats.antt", r"NamesAgain\.named_twice_lem\b", "NamesAgain.twice_itself"),
    *(
        (file, rf"((?:NamesUnknown\.|^  )){name}_lem\b", rf"\1{new}")
        for name, new in (("subject_of_entry", "entry_subject"), ("subject_domain", "listed_subject"), ("object_domain", "listed_object"))
        for file in (f"{LAWS}/specs/Rules.antt", f"{LAWS}/proofs/Unknown.antt")
    ),
    (f"{LAWS}/specs/Rules.antt", r"\bon_line_lem\b", "unbound"),
    (f"{LAWS}/proofs/InEntries.antt", r"\bon_line_lem\b", "unbound"),
    *((f"{LAWS}/{file}.antt", rf"\b{name}_lem\b", name) for name in ("no_twins", "variables_bound") for file in ("specs/AtFault", "proofs/Accepted")),
    ("crates/demands/specs/Answered.antt", r"\bno_line_lem\b", "lineless"),
    ("crates/demands/proofs/Answered.antt", r"\bno_line_lem\b", "lineless"),
    ("crates/demands/proofs/Exactly.antt", r"\bn\.no_line_lem\b", "n.lineless"),
    ("crates/file_read/specs/Readable.antt", r"\bwell_spaced_lem\b", "spaced"),
    ("crates/file_read/proofs/Pages.antt", r"\bwell_spaced_lem\b", "spaced"),
    ("crates/file_read/proofs/Asked.antt", r"\bwell_spaced_lem\b", "spaced"),
    ("crates/file_listing/proofs/Small.antt", r"\bwell_spaced_lem\b", "spaced"),
    *(("crates/file_names/specs/Mapping.antt", rf"\b{name}_lem\b", name) for name in ("few_objects", "few_functions")),
    *(("crates/file_names/proofs/Mapped.antt", rf"(maps\.|^      ){name}_lem\b", rf"\1{name}") for name in ("few_objects", "few_functions")),
]


def files(*endings):
    for folder, _, names in os.walk("crates"):
        for name in sorted(names):
            if name.endswith(endings):
                yield os.path.join(folder, name)


def read(path):
    with open(path, encoding="utf-8") as f:
        return f.read()


def write(path, text):
    with open(path, "w", encoding="utf-8") as f:
        f.write(text)


def fields(text):
    """The names of the fields of a file's records."""
    found = set()
    for record in RECORD.finditer(text):
        for line in text[record.end() :].split("\n"):
            bare = line.strip()
            if not bare or bare.startswith("--"):
                continue
            if len(line) - len(line.lstrip()) <= len(record[1]):
                break
            field = re.match(r" *(?:pub )?([^\s(){}.;,:]+) :", line)
            if field:
                found.add(field[1])
    return found


def in_snake_case(name):
    if not name[0].islower():
        return name
    return re.sub(r"(?<=[a-z0-9])[A-Z]", lambda m: "_" + m[0].lower(), name).replace("-", "_").replace("′", "'")


def spellings(declared):
    """The new spelling of each name that changes."""
    meeting = collections.defaultdict(set)
    for name in declared:
        meeting[in_snake_case(name)].add(name)
    new = {}
    for plain, names in sorted(meeting.items()):
        # A definition, then a name that is spelled so already, then a lemma.
        first = min(names, key=lambda n: (not re.search("[a-z][A-Z]", n), n != plain, n))
        for name in names:
            new[name] = plain if name == first else plain + "_lem"
            if len(names) > 1:
                print(f"{name} -> {new[name]}")
            assert name == first or new[name] not in meeting
    return {name: now for name, now in new.items() if name != now}


def main():
    declared, of_records = set(), set()
    for path in files(".antt"):
        if not OF_FUNCTION.search(path):
            text = read(path)
            declared |= set(DECLARED.findall(text))
            of_records |= fields(text)
    new = spellings(declared)
    for path in files(".antt", ".rt", ".edit"):
        text = read(path)
        of_function = OF_FUNCTION.search(path)
        kept = {word.strip() for words in LIBRARY.findall(text) for word in words.split(",")}
        if of_function:
            imported = {word.strip() for words in re.findall(r"^use Rattle\.[^\n{]*\{([^}]*)\}", text, re.M) for word in words.split(",")}
            kept |= set(DECLARED.findall(text)) - imported

        def spelled(match):
            name, behind_dot = match[0], text[: match.start()].endswith(".")
            if name in kept or name not in new:
                return name
            if behind_dot and of_function and name not in of_records:
                return name
            # In source and edits a name with no capital and no dash is one of src/.
            if path.endswith((".rt", ".edit")) and name == new[name].removesuffix("_lem"):
                return name
            return new[name]

        turned = NAME.sub(spelled, text)
        if turned != text:
            write(path, turned)
    for path, pattern, new in MEMBERS:
        write(path, re.sub(pattern, new, read(path), flags=re.M))


if __name__ == "__main__":
    main()
