#!/usr/bin/env python3
"""Brings the repository's own names to today's spelling: definitions, lemmas, fields and variables in snake case.

usage: python3 tools/spelling.py        at the top of the repository, once, on what port.py left

A name of specs/ or of a lemma file of proofs/ that begins with a small letter has its dashes turned to underscores and its humps to
an underscore and a small letter. Left alone are names that a file brings in from elsewhere than this repository, names that the check
makes (behind `tie.`), texts in quotes, and all that begins with a capital. Where a lemma would have its definition's name, it has
`_lem` after it; the other names that would fall together stand in APART. In README.md and the
pages of docs/ the names that the repository has are respelt.
"""
import os
import re
import sys

TOKEN = re.compile(r"[^\W\d][\w'ᵢ₀-₉-]*")
QUOTED = re.compile(r'b?"(?:[^"\\\n]|\\.)*"')

# Names that would fall together with another, and what they are called instead.
APART = {
    "atom-of": "atom_of_lem",
    "before-search": "before_the_search",
    "after-search": "after_the_search",
    "bond-bytes": "bond_bytes_lem",
    "file-of": "is_file",
    "limit-default": "limit_default_lem",
    "limit-kept": "limit_kept_lem",
    "lists-rings": "lists_rings_lem",
    "near-misses": "all_missed",
    "not-long": "not_long_lem",
    "rings-of": "rings_of_lem",
    "rings-text": "rings_text_lem",
    "rings-within": "rings_within_lem",
    "told-census": "told_census_lem",
    "first-of": "first_of_lem",
    "inOrder": "is_in_order",
    "in-row": "within_row",
    "same-pair": "has_same_pair",
    "T-or-l": "true_or_left",
    "T-or-r": "true_or_right",
}
# A lemma that has its definition's name already, in one file.
LEMMAS = {
    ("crates/molfile/proofs/Faults.antt", "is_digit"): "is_digit_lem",
    ("crates/network/proofs/Stands.antt", "in-row"): "in_row_lem",
    ("crates/molfile/proofs/Judged.antt", "in-row"): "in_row_lem",
    ("crates/validator/proofs/faults/bond_fault/Proof.antt", "in-row"): "in_row_lem",
}


def files(*ends):
    for folder, dirs, names in os.walk("crates"):
        dirs[:] = sorted(d for d in dirs if d != "out")
        for name in sorted(names):
            if name.endswith(ends):
                yield os.path.join(folder, name)


def read(path):
    with open(path, encoding="utf-8") as file:
        return file.read()


def lemma_file(path):
    parts = path.split("/")
    return parts[2] == "specs" or len(parts) == 4


def snake(name):
    return re.sub(r"([a-z0-9])([A-Z])", lambda m: m[1] + "_" + m[2].lower(), name.replace("-", "_"))


def spellings():
    with open("crates.txt", encoding="utf-8") as file:
        own = {line.split(":")[0].strip() for line in file if ":" in line and not line.startswith("#")}
    foreign, names = set(), set()
    for path in files(".antt"):
        text = read(path)
        for found in re.finditer(r"^\s*(?:pub )?use ([\w.·-]+?)\.\{([^}]*)\}", text, re.M):
            crate = found[1].split(".")
            if not (crate[0] == "Rattle" and crate[1] in own):
                foreign |= {item.split(" as ")[-1].strip() for item in found[2].split(",")}
        if lemma_file(path):
            text = re.sub(r"--.*", "", text)
            names |= set(TOKEN.findall(re.sub(r"^\s*(?:pub )?use .*$", "", text, flags=re.M)))
    turned = {n: snake(n) for n in names - foreign if n[0].islower() and snake(n) != n}
    turned.update(APART)
    return turned


def respell(text, turned, path):
    def word(found):
        name, at = found[0], found.start()
        if text[max(0, at - 4) : at] == "tie." or text[at - 1 : at] == "/":
            return name
        return LEMMAS.get((path, name)) or turned.get(name, name)

    return TOKEN.sub(word, text)


def page_word(name, turned, names):
    """A word of a page: a name of the repository, or else as it stands."""
    if not name[0].islower() or name in ("must-fail", "list-rings", "start-here"):
        return name
    return turned.get(name) or (snake(name) if snake(name) in names else name)


def main():
    turned = spellings()
    for path in files(".antt", ".rt", ".edit"):
        before, parts, last = read(path), [], 0
        for quote in QUOTED.finditer(before):
            parts += [respell(before[last : quote.start()], turned, path), quote[0]]
            last = quote.end()
        parts.append(respell(before[last:], turned, path))
        after = "".join(parts)
        if after != before:
            with open(path, "w", encoding="utf-8") as file:
                file.write(after)
    names = {name for path in files(".antt") for name in TOKEN.findall(read(path))}
    for path in ["README.md"] + [os.path.join(d, f) for d, _, fs in os.walk("docs") for f in sorted(fs) if f.endswith(".md")]:
        before = read(path)
        after = TOKEN.sub(lambda m: page_word(m[0], turned, names), before)
        if after != before:
            with open(path, "w", encoding="utf-8") as file:
                file.write(after)
    print(f"{len(turned)} names respelt", file=sys.stderr)


if __name__ == "__main__":
    main()
