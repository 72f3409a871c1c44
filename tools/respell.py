#!/usr/bin/env python3
"""Brings the names of definitions and lemmas to today's spelling: words in snake case, types and facts in upper camel case.

usage: python3 tools/respell.py            at the top of the repository, once, right after Rattle's own porting script
       python3 tools/respell.py --map      prints the map and writes nothing

It reads which names specs/ and proofs/ declare (the proof of a single function aside, whose names are made by the check), and which of them the
porting script already respelled; and it turns those names, and no others, in .antt files, in the clauses of .rt files, in must-fail edits, and
between backquotes in the documents. Functions of src/, exported C names, strings, inputs and outputs have no such names and stay.
It stops, before it writes, where two names would fall together.
"""
import collections
import glob
import re
import subprocess
import sys

TOKEN = re.compile(r"[A-Za-z_][A-Za-z0-9_'\u2032]*(?:-[A-Za-z0-9_'\u2032]+)*")
DECLARED = re.compile(r"^\s*(?:(?:abbrev|unfoldable|pub|data|record|ruleset)\s+)*([^\s:(){}]+) :(?!=)(.*)$")
BROUGHT = re.compile(r"^\s*(?:ghost )?(?:pub )?use ([^{;\n]+)\.\{([^}]*)\}", re.M)
# chosen by hand, where two names would fall together: a lemma that would have a definition's name, and a list of C forms
CHOSEN = {
    "count-store": "count_store_lem",
    "unless-refused": "unless_refused_lem",
    "free-from": "free_from_lem",
    "free-mark": "free_mark_lem",
    "continuation-mark": "continuation_mark_lem",
    "head-mark": "head_mark_lem",
    "head-link": "head_link_lem",
    "piece-at": "piece_at_lem",
    "top-bit": "top_bit_lem",
    "left_over": "left_over_lem",
    "free_one": "free_one_lem",
    "free_in": "free_in_lem",
    "inForm": "forms_of",
    "lastReference": "last_reference_answer",
    "chain-tests": "chain_tests_lem",
    "part-start": "part_start_lem",
    "sized-body": "sized_body_lem",
    "free-after": "free_after_lem",
    "bad-settings": "bad_settings_lem",
    "is-head": "is_head_lem",
    "next-part": "next_part_lem",
    "taken_free": "taken_free_lem",
    "still-free": "still_free_lem",
}
FACT = re.compile(r"(?:^|→)\s*Type \d\s*$")


def snake(name):
    name = name.replace("\u2032", "'").replace("-", "_")
    return re.sub(r"(?<=[a-z0-9])([A-Z])", lambda m: "_" + m.group(1).lower(), name) if name[0].islower() else name


def camel(name):
    parts = re.split(r"[-_]", name.replace("\u2032", "'"))
    return "".join(p[:1].upper() + p[1:] for p in parts)


def lemma_files():
    for p in sorted(glob.glob("crates/*/specs/**/*.antt", recursive=True)) + sorted(glob.glob("crates/*/proofs/**/*.antt", recursive=True)):
        if "/specs/" in p or not p.endswith(("/Proof.antt", "/Answers.antt", "/Invariants.antt")):
            yield p


def declared(lines):
    """Name and type of what the lines declare: at the top level, in a module, a record, a data type or a where."""
    lines = list(lines)
    for k, line in enumerate(lines):
        m = DECLARED.match(line)
        if m and not line.startswith("--"):
            kind = m.group(2)
            for more in lines[k + 1:]:
                if not re.match(r"\s+→", more):
                    break
                kind += " " + more.strip()
            yield m.group(1), kind.strip()


def brought(own):
    """The names that the files bring in from Rattle's own libraries."""
    found = set()
    for p in glob.glob("crates/**/*.*t*", recursive=True):
        if p.endswith((".antt", ".rt")):
            with open(p, encoding="utf-8") as f:
                for path, words in BROUGHT.findall(f.read()):
                    if path.split(".")[0] != "Rattle" or path.split(".")[1] not in own:
                        found.update(w.strip().split(" as ")[0] for w in words.split(","))
    return found


def names():
    found = {}
    for p in lemma_files():
        with open(p, encoding="utf-8") as f:
            for name, kind in declared(f.read().split("\n")):
                found.setdefault(name, set()).add(kind)
    return found


def turned(found):
    to = {}
    library = brought({p.split("/")[1] for p in glob.glob("crates/*/src")})
    for name, kinds in found.items():
        if not TOKEN.fullmatch(name):
            continue
        if name in library:
            print(f"left: {name} is a library's too", file=sys.stderr)
            continue
        if name in CHOSEN:
            new = CHOSEN[name]
        elif any(FACT.search(k) for k in kinds) and name[0].islower():
            new = camel(name)
        elif name[0].isupper():
            new = name
        else:
            new = snake(name)
        if new != name:
            to[name] = new
    return to


def fall_together(to, found):
    bad = []
    back = collections.defaultdict(list)
    for old, new in to.items():
        back[new].append(old)
    for new, olds in back.items():
        if len(olds) > 1 or (new in found and new not in to):
            bad.append(f"{' and '.join(olds)} would be {new}" + (", which is there" if new in found else ""))
    return bad


def files():
    out = subprocess.run(["git", "ls-files", "--cached", "--others", "--exclude-standard"], capture_output=True, text=True, check=True).stdout
    return sorted(out.split("\n"))


def main(argv):
    found = names()
    to = turned(found)
    bad = fall_together(to, found)
    swap = lambda text: TOKEN.sub(lambda m: to.get(m.group(0), m.group(0)), text)
    texts = {}
    functions = set()
    for p in glob.glob("crates/*/src/**/*.rt", recursive=True):
        with open(p, encoding="utf-8") as f:
            functions.update(re.findall(r"\bfn (\w+)", f.read()))
    # a name that is bound or brought in where the new spelling would meet it; a definition may have the name of the function that it is of
    for p in files():
        if p.startswith("crates/") and p.endswith((".antt", ".rt")):
            with open(p, encoding="utf-8") as f:
                texts[p] = f.read()
            words = set(TOKEN.findall(texts[p]))
            for w in words:
                if w in to and to[w] in words and to[w] not in to and to[w] not in functions:
                    bad.append(f"{p}: {w} would be {to[w]}, which the file has already")
    if "--map" in argv:
        for old in sorted(to):
            print(old, to[old])
    if bad:
        print("\n".join(bad), file=sys.stderr)
        return 1
    if "--map" in argv:
        return 0
    for p, text in texts.items():
        new = swap(text)
        if new != text:
            with open(p, "w", encoding="utf-8") as f:
                f.write(new)
    # edits and documents still have the names that stood before the porting script: they go by the same rule
    olden = dict(to)
    for name in subprocess.run(["git", "grep", "-hoE", r"^(pub |abbrev |unfoldable )*[A-Za-z][A-Za-z0-9′'-]* :", "HEAD", "--", "crates"], capture_output=True, text=True).stdout.split("\n"):
        m = re.search(r"(\S+) :$", name)
        if m and m.group(1) not in olden and m.group(1) not in found:
            new = snake(m.group(1))
            if new in found or new in to.values():
                olden[m.group(1)] = new
    swap_olden = lambda text: TOKEN.sub(lambda m: olden.get(m.group(0), m.group(0)), text)
    for p in files():
        if p.endswith(".edit"):
            with open(p, encoding="utf-8") as f:
                text = f.read()
            head, *rest = text.split("\n")
            new = "\n".join(swap_olden(l) if re.match(r"^(old|new):", l) else l for l in [head, *rest])
        elif p.endswith(".md") and not p.startswith("crates/"):
            with open(p, encoding="utf-8") as f:
                text = f.read()
            new = re.sub(r"`[^`\n]+`", lambda m: m.group(0) if "/" in m.group(0) else swap_olden(m.group(0)), text)
        else:
            continue
        if new != text:
            with open(p, "w", encoding="utf-8") as f:
                f.write(new)
    return 0


if __name__ == "__main__":
    raise SystemExit(main(sys.argv[1:]))
