#!/usr/bin/env python3
"""Brings the names of this repository's definitions and lemmas to snake case, as today's Rattle writes them.

usage: python3 tools/spell.py      at the top of the repository, once, after the kit's port.py

A name is a definition's or a lemma's, a field's or a local one's, declared in specs/ or proofs/ with a dash or with capitals
inside, and beginning with a small letter. It is renamed wherever it stands in an .antt file, and in the clauses of .rt files,
but not where it was imported from the library. Goals of a proof file and what the check generates keep their names, and so do
types, modules, functions of src/ and all strings. It stops, and changes nothing, where two names of one file would fall together.
"""

import os
import re
import sys

WORD = r"[^\s(){}\[\].,;λ\"⟨⟩]+"
DECLARED = re.compile(
    r"^\s*(?:(?:abbrev|unfoldable|pub|opaque|instance)\s+)*((?:" + WORD + r"\s+)*" + WORD + r")\s+:\s"
)
IMPORT = re.compile(r"^\s*(?:ghost )?use (Rattle\.(\w+)|[A-Za-z]\w*)[^\n]*?\{([^}]*)\}", re.M)
PROOF = re.compile(r"/proofs/.+/(Proof|Answers|Invariants)\.antt$")
GENERATED = re.compile(r"(loop|returns|if|in|overflow|Need|invariant|decreases|else|then|end)-")
TOKEN = re.compile(r"--[^\n]*|//[^\n]*|\"(?:[^\"\\\n]|\\.)*\"|" + WORD + r"|\.|.", re.S)
# A lemma or a field whose name would fall together with that of the definition that it is about.
APART = {
    "with-entry": "with_entry_is",
    "is-page": "page_is_there",
    "fed-all": "fed_all_is",
    "rule-from": "rule_at_least",
    "as-strict": "as_strict_does",
    "text-notes": "text_notes_are",
    "sum-of": "total_is_sum",
    "is-taken": "tells_taken",
    "key-t3": "key_t3_is",
    "key-t4b": "key_t4b_is",
    "is-steady": "steady_is",
    "notes-fit": "notes_all_fit",
    "z-at": "z_at_place",
}
# The same where port.py had respelled the lemma before: in the files whose path has the word.
APART_IN = {
    "by_number": ("demands/proofs/Where", "by_number_is"),
    "in_order": ("reader/specs/", "in_order_is"),
    "goes_on": ("sorting/specs/Answers", "goes_on_is"),
}
KEYWORDS = {"record", "module", "data", "pub", "abbrev", "unfoldable"}


def snake(name):
    if name in APART:
        return APART[name]
    name = re.sub(r"(?<=[a-z0-9])([A-Z])", lambda m: "_" + m[1], name)
    return name.replace("-", "_").lower() if re.search(r"[A-Z-]", name) else name


def due(name):
    return bool(re.search(r"-|[a-z0-9][A-Z]", name)) and name[0].islower() and not re.search(r"[^\w'\-]", name)


def files(root):
    for folder, folders, names in os.walk(os.path.join(root, "crates")):
        folders[:] = sorted(f for f in folders if f != "out")
        for name in sorted(names):
            if name.endswith((".antt", ".rt")):
                yield os.path.join(folder, name)


def declared(text, proof):
    found = set()
    for line in text.split("\n"):
        m = DECLARED.match(line)
        if m and not line.lstrip().startswith("--") and not (proof and re.search(r":\s+(tie|goal)\.", line)):
            found.update(n for n in m[1].split() if n not in KEYWORDS)
    return found


def foreign(text, own):
    """The names that the file imports from elsewhere than this repository."""
    names = set()
    for m in IMPORT.finditer(text):
        if m[1].startswith("Rattle.") and m[2] in own:
            continue
        names.update(n.strip().split(" as ")[-1].strip() for n in m[3].split(","))
    return names


def turned(path, text, renamed, own):
    """The text with its names renamed, and which names became which."""
    kept, became, out, last = foreign(text, own), {}, [], ""
    proof = bool(PROOF.search(path))
    for m in TOKEN.finditer(text):
        token = m[0]
        if token.startswith(("--", "//")):
            token = re.sub(r"`([^`]*)`", lambda c: "`" + re.sub(WORD, lambda w: snake(w[0]) if w[0] in renamed and w[0] not in kept else w[0], c[1]) + "`", token)
        elif token in APART_IN and APART_IN[token][0] in path:
            token = APART_IN[token][1]
        elif token in renamed and token not in kept and not token.startswith('"'):
            # a field of the record of facts, which the check made
            if not (proof and last == "." and GENERATED.match(token)):
                became.setdefault(snake(token), set()).add(token)
                token = snake(token)
        elif re.match(WORD + r"$", token):
            became.setdefault(token, set()).add(token)
        out.append(token)
        last = m[0]
    return "".join(out), {new: olds for new, olds in became.items() if len(olds) > 1}


def main():
    root = sys.argv[1] if len(sys.argv) > 1 else "."
    own = set(os.listdir(os.path.join(root, "crates")))
    texts = {}
    for path in files(root):
        with open(path, encoding="utf-8") as it:
            texts[path] = it.read()
    names = set()
    for path, text in texts.items():
        if path.endswith(".antt"):
            names |= declared(text, bool(PROOF.search(path)))
    renamed = {n for n in names if due(n)}
    out, together = {}, []
    for path, text in texts.items():
        out[path], fell = turned(path, text, renamed, own)
        if path.endswith(".rt") or PROOF.search(path):
            # a function and what its contract calls it have one name
            continue
        together += [f"{path}: {', '.join(sorted(olds))} would all be {new}" for new, olds in sorted(fell.items())]
    if together:
        print("\n".join(together))
        return 1
    for path, text in out.items():
        if text != texts[path]:
            with open(path, "w", encoding="utf-8") as it:
                it.write(text)
    print(f"{len(renamed)} names, in {sum(out[p] != texts[p] for p in out)} files")
    return 0


if __name__ == "__main__":
    sys.exit(main())
