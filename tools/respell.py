#!/usr/bin/env python3
"""Respells the repository's own definitions and lemmas: tools/respell.py [--list]

Words in snake case, types and modules in camel case, no hyphen in a name of ours. It takes the names that specs/ and proofs/ define (a
definition, a lemma, a field, a constructor, and what a `where` or a `let` binds), and writes each in its new spelling wherever it stands
in specs/, proofs/, the clauses of src/ and the edits of must-fail/. What is declared in src/ keeps its name, and so does what Rattle
makes of it. Run once, after the toolchain's own port.py; --list shows the names and says where two fall together."""
import collections
import glob
import os
import re
import sys

ROOT = os.path.dirname(os.path.dirname(os.path.abspath(__file__)))
WORD = re.compile(r"[^\W\d][\w'-]*")
MODIFIERS = r"(?:(?:abbrev|unfoldable|opaque|pub|data|record|private|instance) )*"
TOP = re.compile(r" *" + MODIFIERS + r"([^\W\d][\w'-]*)(?: [({].*)? : ")
LET = re.compile(r"\blet ([^\W\d][\w'-]*)(?: :| =)")
USE = re.compile(r"^(?:ghost )?(?:pub )?use ([^\s{]*)\{([^}]*)\}", re.M)


def respelled(word):
    if "-" in word:
        word = word.replace("-", "_")
    if word[0].islower():
        word = re.sub(r"(?<=[a-z0-9'_])([A-Z])", lambda m: "_" + m[1].lower(), word)
        word = re.sub(r"__+", "_", word)
    elif "_" in word:
        # a type or a predicate: `Found_at` is FoundAt
        word = "".join(part[:1].upper() + part[1:] for part in word.split("_"))
    return word


def is_goal(line):
    """Whether a line of a Proof.antt answers a goal of the code: its name is Rattle's."""
    return " : tie." in line or "→ statement" in line


def defined_in(text, name):
    words = set()
    for line in text.split("\n"):
        if line.lstrip().startswith("--"):
            continue
        if os.path.basename(name) == "Proof.antt" and is_goal(line):
            continue
        if found := TOP.match(line):
            words.add(found[1])
        words.update(found[1] for found in LET.finditer(line))
    return words


# Where a definition and a law, or a field and what its type names, would fall together, the law or the field gets another name.
APART = {
    "added-back": "added_comes_back",
    "taken_back": "taken_comes_back",
    "displacement-back": "displacement_comes_back",
    "drain-back": "drain_comes_back",
    "emptied-back": "emptied_comes_back",
    "handed-back": "handed_comes_back",
    "judged-back": "judged_comes_back",
    "opened-back": "opened_comes_back",
    "by_itself": "goes_by_itself",
    "data-fits": "data_within",
    "window-fits": "window_within",
    "cursor-fits": "cursor_within",
    "desk-checks": "desk_checks_hold",
    "displaced-bits": "displaced_bits_are",
    "held-at": "held_at_is",
    "in-turn": "in_turn_same",
    "listed_by": "listed_by_is",
    "low-bits": "low_bits_are",
    "message-at": "message_at_is",
    "no_number": "no_number_is",
    "nothing-held": "nothing_is_held",
    "places-sound": "places_are_sound",
    "put-bit": "put_bit_is",
    "sequence-word": "sequence_fits",
    "serialized-bits": "serialized_bits_are",
    "tables-of": "tables_of_is",
    "told-all": "told_all_is",
    "too_long": "too_long_is",
}
# Where only the lemma of one file is meant: another file's word of the same spelling is the code's, or another lemma's.
ONLY_IN = {
    "by_itself": "crates/claims_isolation/proofs/Apart.antt",
    "taken_back": "crates/bunch/",
    "listed_by": "crates/exports_field/",
    "no_number": "crates/bitio_bits/proofs/",
    "too_long": "crates/bitio/",
    "displaced-bits": "crates/bunch_judging/proofs/Ledger.antt crates/bunch_judging/proofs/Displacing.antt",
}


def own_names():
    names = collections.defaultdict(set)
    for path in sorted(glob.glob(os.path.join(ROOT, "crates/*/specs/**/*.antt"), recursive=True) + glob.glob(os.path.join(ROOT, "crates/*/proofs/**/*.antt"), recursive=True)):
        with open(path, encoding="utf-8") as file:
            for word in defined_in(file.read(), path):
                names[word].add(os.path.relpath(path, ROOT))
    return names


def replaced(text, turned, path):
    """The text in its new spelling. In a comment and in a page only what stands between backquotes is a name for sure."""
    is_antt = path.endswith(".antt")
    # what the file brings in from the toolchain's library keeps its name
    foreign = {word for found in USE.finditer(text) if not found[1].startswith("Rattle.") or found[1].startswith("Rattle.std.") for word in WORD.findall(found[2])}

    def word(found):
        old = found[0]
        new = None if old in foreign else turned.get(old)
        if old in foreign:
            return old
        if not new or any(old == w and not any(path.startswith(p) for p in places.split()) for w, places in ONLY_IN.items()):
            return turned_plainly.get(old, old) if old in ONLY_IN else old
        return new

    turned_plainly = {old: respelled(old) for old in ONLY_IN}
    quoted = lambda text: re.sub(r"`[^`\n]*`", lambda m: WORD.sub(word, m[0]), text)
    lines = []
    for line in text.split("\n"):
        if path.endswith(".md"):
            line = quoted(line)
        elif path.endswith(".edit") and line.startswith("#"):
            line = quoted(line)
        else:
            mark = "--" if is_antt else "//"
            at = len(line) if mark not in line else line.index(mark)
            if at == 0 or line[at - 1] in " \t":
                code, comment = line[:at], line[at:]
            else:
                code, comment = line, ""
            line = WORD.sub(word, code) + quoted(comment)
        lines.append(line)
    return "\n".join(lines)


def main():
    names = own_names()
    turned = {word: APART.get(word, respelled(word)) for word in names}
    turned = {word: new for word, new in turned.items() if new != word}
    if "--list" in sys.argv:
        for word, new in sorted(turned.items()):
            print(word, new, len(names[word]), *sorted(names[word])[:2])
        return
    patterns = ("crates/*/specs/**/*.antt", "crates/*/proofs/**/*.antt", "crates/*/src/**/*.rt", "crates/*/must-fail/*.edit", "README.md", "docs/*.md")
    files = changed = 0
    for pattern in patterns:
        for path in sorted(glob.glob(os.path.join(ROOT, pattern), recursive=True)):
            with open(path, encoding="utf-8") as file:
                text = file.read()
            new = replaced(text, turned, os.path.relpath(path, ROOT))
            files += 1
            if new != text:
                changed += 1
                with open(path, "w", encoding="utf-8") as file:
                    file.write(new)
    print(f"respelled: {len(turned)} names, {changed} of {files} files")


main()
