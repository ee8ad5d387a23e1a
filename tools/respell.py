#!/usr/bin/env python3
"""Respells the names that crates/*/specs and crates/*/proofs define: camel case becomes snake case, a dash or a middle dot between words an underscore.

Run once, at the top of the repository, right after the toolchain's port.py. It prints each name with its new spelling, and names that would fall
together. Names of Rattle sources, of types and of modules stay as they are, and so do strings, inputs and outputs.
"""
import glob
import re
import sys

# What ends a name in antt, in a source's clause, in an edit and in a comment.
NAME = re.compile(r"[^\s(){}\[\].;,:|◌\"`→λ⊢=]+")
CAMEL = re.compile(r"^[a-zα-ω][a-z0-9_]*(?:[A-Z]+[a-z0-9₀-₉_]*)+['′]?$")
DASHED = re.compile(r"^[^\W\d_][\w'≤≡≢ℕ]*(?:-[\w'≤≡≢ℕ]+)+$")
HEAD = re.compile(r"^\s*(?:(?:abbrev|unfoldable|pub|unfold|private|infix[lr]?\s+\d+)\s+)*(?P<name>[^\s(){}.;,\"]+)(?=\s[^=]*?:\s|\s*:\s)")
DOTTED = re.compile(r"(?<=[a-z_])·(?=[a-z])")
# Names of Rattle's own making, in a function's proof.
MADE = re.compile(r"/proofs/(?:.*/)?(?:Proof|Answers|Invariants)\.antt$")
# A lemma whose new name a definition has, and a definition whose new name a lemma has: the lemma gets _lem.
LEMMAS = """all-weigh at-sample base-at entry-passes in-file in-pieces left-from most-sites need-before on-ground rounded-up same-name two-names
two-numbers""".split()
# Lemmas that port.py had given such a name already, with their files.
GIVEN = {
    "crates/shell/proofs/Laws/Sentences.antt": "most_bytes",
    "crates/janlishuk/proofs/Laws/Call.antt": "by_number",
    "crates/janlishuk/proofs/Calls.antt": "by_number",
}


def snake(name):
    """Returns the name in snake case."""
    parts = re.sub(r"(?<=[a-z0-9])(?=[A-Z])", "_", name)
    return parts.lower()


def respelled(name):
    """Returns how a name that was defined here is spelled now."""
    if CAMEL.match(name):
        return snake(name)
    if DASHED.match(name):
        to = "_".join(it if it[0].isupper() else snake(it) for it in name.split("-"))
        return to + "_lem" if name in LEMMAS else to
    return name


def main():
    antt = sorted(it for it in glob.glob("crates/**/*.antt", recursive=True) if "/out/" not in it)
    sources = sorted(it for it in glob.glob("crates/*/src/**/*.rt", recursive=True))
    edits = sorted(glob.glob("crates/*/must-fail/*.edit"))
    pages = ["README.md", *sorted(glob.glob("docs/*.md"))]
    texts = {it: open(it, encoding="utf-8").read() for it in antt + sources + edits + pages}
    defined = {}
    for file in antt:
        if MADE.search(file):
            continue
        for line in texts[file].split("\n"):
            found = HEAD.match(line)
            if not found or line.lstrip().startswith(("--", "use ", "mod ", "pub mod ", "let ", "λ", "in ")):
                continue
            for name in found["name"].split("◌"):
                if name and respelled(name) != name:
                    defined.setdefault(name, file)
    seen = {}
    for file in antt + sources:
        for it in NAME.findall(texts[file]):
            seen.setdefault(it, file)
    new = {}
    for name in sorted(defined):
        to = respelled(name)
        if to in seen:
            print(f"falls together: {name} -> {to}: {defined[name]}, {seen[to]}")
        if to in new:
            print(f"falls together: {name}, {new[to]} -> {to}")
        new[to] = name
        print(f"{name} -> {to}: {defined[name]}")
    if "--try" in sys.argv:
        return
    for file, text in texts.items():
        if file in GIVEN:
            text = NAME.sub(lambda it: it[0] + "_lem" if it[0] == GIVEN[file] else it[0], text)
        if file in pages:
            # in a page only what stands in backquotes is a name
            turned = re.sub(r"`[^`\n]+`", lambda it: NAME.sub(lambda n: respelled(n[0]) if n[0] in defined else n[0], it[0]), text)
        else:
            turned = NAME.sub(lambda it: respelled(it[0]) if it[0] in defined else it[0], text)
        if file.endswith((".antt", ".rt")):
            turned = DOTTED.sub("_", turned.replace("ListN·length", "list_length"))
        if turned != text:
            open(file, "w", encoding="utf-8").write(turned)


main()
