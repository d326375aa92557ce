#!/usr/bin/env python3
"""Spells the definitions and lemmas of this repository as today's Rattle does: words in snake case.

usage: respell.py [--check] ROOT

Run once, after port.py, on a tree that port.py has turned. A name that an .antt file of crates/ declares and that begins with a small
letter gets underscores for dashes and for capitals. What stays: names of the goals that Rattle makes (declared at a type of the generated
modules tie, goal and given), functions of src/, strings, and names in capitals. Must-fail edits and the pages of docs/ follow.
--check writes nothing, and lists the names that would fall together with another.
"""
import os
import re
import subprocess
import sys

WORD = re.compile(r"""[^\s(){}\[\];,."«»`]+""")
DECLARED = re.compile(r"^ *(?:(?:abbrev|unfoldable|pub|data|record|mutual|let) +)*([^\s(){}\[\];,.\"«»`]+)((?: \{[^{}\n]*\})*) : *(.*)$")
USE = re.compile(r"\buse ([\w'.]+?)\.\{([^}]*)\}")
LABEL = re.compile(r"^(tie|goal|given|needs|lts)\.")

# Lemmas that would meet the definition that they are about, once that one is in snake case: they get `_law` behind their name.
LAWS = {
    "answers_at": ["table_columns/proofs/Laws/Columns", "table_columns/proofs/Laws/Rows"],
    "is_block": ["model/proofs/Laws/Blocks", "model/proofs/Laws/Listing"],
    "next_row": ["table_columns/proofs/Laws/Frames", "table_columns/proofs/refill/Proof"],
    "node_in": ["bank/proofs/Laws/Words", "bank/proofs/Laws/Finding", "bank_fill/proofs/Laws/Left", "bank_t1/proofs/Laws/T1"],
    "rule_fits": ["model/proofs/Laws/Proposed"],
    "size_fits": ["model/proofs/Laws/RunStep", "model/proofs/Promises/Sound"],
    "split_at": ["model/proofs/Laws/Down"],
    "table_fits": ["sound/proofs/Laws/Members", "sound/proofs/Laws/Proposal"],
    "target_found": ["list_view/proofs/lookup/find_target/Proof", "list_view/proofs/Looks"],
}
# The same, of lemmas whose names have dashes and that meet a definition in snake case.
EXCEPT = {"answer-in": "answer_in_law", "is-taken": "is_taken_law"}


def spelled(name):
    if name in EXCEPT:
        return EXCEPT[name]
    words = re.sub(r"(?<=[a-z0-9])[A-Z]+", lambda m: "_" + m[0].lower(), name)
    return words.replace("-", "_")


def files(root, *endings):
    for top in ("crates", "docs"):
        for folder, dirs, names in os.walk(os.path.join(root, top)):
            dirs[:] = sorted(d for d in dirs if d not in ("out", ".git", "landings"))
            for n in sorted(names):
                if n.endswith(endings):
                    yield os.path.join(folder, n)
    if ".md" in endings:
        yield os.path.join(root, "README.md")


def code(line):
    """The line without its comment."""
    return re.split(r"(?:^|(?<=\s))--(?=\s|$)", line)[0]


def read(path):
    with open(path, encoding="utf-8") as f:
        return f.read()


def main(argv):
    check = "--check" in argv
    root = [a for a in argv if a != "--check"][0]
    own, labels = {}, {}
    crates = set(os.listdir(os.path.join(root, "crates")))
    texts = {p: read(p) for p in files(root, ".antt", ".rt")}
    for p, t in texts.items():
        for path, names in USE.findall(t):
            steps = path.split(".")
            if steps[0] != "Rattle" or steps[1] not in crates:
                labels.setdefault(p, set()).update(WORD.findall(names))
        if not p.endswith(".antt"):
            continue
        for line in t.split("\n"):
            m = DECLARED.match(code(line))
            if not m:
                continue
            name = m[1]
            if LABEL.match(m[3]) or name in ("invariant-loop", "decreases-loop") or re.search(r"-spec$", name):
                labels.setdefault(p, set()).add(name)
            elif re.match(r"[a-z]", name) and re.search(r"[A-Z-]", name) and re.fullmatch(r"[\w'₀-₉-]+", name):
                own.setdefault(name, set()).add(p)
    table = {n: spelled(n) for n in own}
    # names that fall together
    back = {}
    for n, s in table.items():
        back.setdefault(s, set()).add(n)
    for s, ns in sorted(back.items()):
        dashed = sorted(n for n in ns if "-" in n)
        if len(ns) == 2 and len(dashed) == 1:
            table[dashed[0]] = s + "_law"
        elif len(ns) > 1:
            print("together:", s, sorted(ns))
    after = set(table.values())
    for n in sorted(n for n in after if n.endswith("_law") and any(re.search(rf"(?<![\w'-]){n}(?![\w'-])", t) for t in texts.values())):
        print("there already:", n)
    hits = {}
    for p, t in texts.items():
        body = "\n".join(code(l) for l in t.split("\n")) if p.endswith(".antt") else re.sub(r"//.*", "", t)
        words = [(m[0], body[m.start() - 1 : m.start()]) for m in WORD.finditer(body)]
        used = {w for w, _ in words}
        bare = {w for w, b in words if b != "."}
        for n in used & set(table):
            if n in labels.get(p, ()):
                continue
            if table[n] in bare and os.path.relpath(p, root)[7:-5] not in LAWS.get(table[n], ()):
                hits.setdefault((n, table[n]), []).append(os.path.relpath(p, root))
    for (n, s), ps in sorted(hits.items()):
        print("meets:", n, s, ps[:6], len(ps))
    lab = set().union(*labels.values()) if labels else set()
    print("names of a library or of a goal that are also own:", sorted(lab & set(table)))
    rust = set()
    for p, t in texts.items():
        if p.endswith(".rt"):
            rust |= set(re.findall(r"\b(?:fn|const|static|struct|mod|enum) (\w+)", t))
    print("as functions of src/:", sorted(s for s in table.values() if s in rust))
    print(len(table), "names")
    if check:
        return

    def turn(path, text):
        mine = labels.get(path, ())
        inside = os.path.relpath(path, os.path.join(root, "crates"))

        def word(m):
            w = m[0]
            if inside.removesuffix(".antt") in LAWS.get(w, ()):
                return w + "_law"
            if w not in table or w in mine:
                return w
            before = text[: m.start()]
            if re.search(r"(?:^|[^\w.])(?:tie|goal|given|needs)\.$", before[-8:]):
                return w
            return table[w]

        return WORD.sub(word, text)

    # Pages and edits also have names that port.py turned in the crates.
    there = set(table.values())
    for p, t in texts.items():
        if p.endswith(".antt"):
            there |= {m[1] for m in (DECLARED.match(code(line)) for line in t.split("\n")) if m}

    def turn_text(text):
        def word(m):
            w = m[0]
            if w in table:
                return table[w]
            return spelled(w) if re.fullmatch(r"[a-z][\w'-]*", w) and re.search(r"[A-Z-]", w) and spelled(w) in there else w

        return WORD.sub(word, text)

    def turn_page(text):
        return re.sub(r"^```.*?^```|`[^`\n]+`", lambda m: turn_text(m[0]), text, flags=re.S | re.M)

    for p, t in list(texts.items()) + [(p, read(p)) for p in files(root, ".edit", ".md")]:
        new = turn_text(t) if p.endswith(".edit") else turn_page(t) if p.endswith(".md") else turn(p, t)
        if new != t:
            with open(p, "w", encoding="utf-8") as f:
                f.write(new)
    for c in sorted(os.listdir(os.path.join(root, "crates"))):
        subprocess.run(["rt", "fmt"], cwd=os.path.join(root, "crates", c), stdout=subprocess.DEVNULL, stderr=subprocess.DEVNULL)


main(sys.argv[1:])
