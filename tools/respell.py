#!/usr/bin/env python3
"""Brings the definitions and lemmas of crates/ to the spelling of today's Rattle: words in snake case.

    tools/respell.py [--dry]      at the top of the repository, once, behind port.py

Types, modules, facts and operators keep their names, and so do the names that Rattle makes of the code. With --dry it
changes nothing and lists the names that would fall together.
"""
import collections
import glob
import re
import sys

TOKEN = re.compile(r"[^\s(){}\[\],;.:⌜⌝\"`|]+")
DECLARED = re.compile(
    r"^\s*(?:(?:pub|abbrev|unfoldable)\s+)*([^\s(){}:;,.=]+(?:\s+[^\s(){}:;,.=]+)*)\s+:(?:\s+(\S.*))?$"
)
CAMEL = re.compile(r"^[a-z][a-z0-9]*[A-Z]")
WORDS = {"data", "record", "module", "use", "mod", "open", "ruleset", "infix", "infixl", "infixr", "where", "let", "in"}

# A lemma that would have its function's name, and a definition that would have a struct's field's.
SPECIAL = {
    "lastOffset": "last_offset_of",
    "notImplemented": "is_not_implemented",
    "textField": "text_field_of",
    "readOut": "read_out_of",
    "oemName": "oem_name_field",
    "freeUse": "free_use_field",
    "a-number": "wants_number",
    "a-text": "wants_text",
}
LEMMAS = (
    "before-zero cct-value ends_by energy-bank in-format is-there known-if none_over number-bytes refused-text stages-in "
    "stores-text text-bytes"
)
SPECIAL.update({old: old.replace("-", "_") + "_lem" for old in LEMMAS.split()})


def spelled(name):
    """The name in snake case, or the name itself where that is its spelling."""
    if name in SPECIAL:
        return SPECIAL[name]
    if "◌" in name or not re.match(r"^[a-z]", name):
        return name
    name = re.sub(r"([a-z0-9])([A-Z])", r"\1_\2", name)
    name = re.sub(r"([A-Z])([A-Z][a-z])", r"\1_\2", name)
    return name.replace("-", "_").lower()


def declared(text, of_proof):
    """The names that a file declares. In a function's proof, those of goals and of the theorem are Rattle's."""
    for line in text.split("\n"):
        found = DECLARED.match(line)
        if not found or line.lstrip().startswith("--"):
            continue
        names, its_type = found.group(1).split(), found.group(2) or ""
        if names[0] in WORDS:
            continue
        if of_proof and (its_type.startswith("tie.") or "statement" in its_type):
            continue
        yield from names


def respell(text, names, behind_dot):
    """The text with each name of `names`; behind a dot only where `behind_dot` of the word before it says so."""
    def word(found):
        old = found.group(0)
        if old not in names:
            return old
        before = re.search(r"([^\s(){}\[\],;.:⌜⌝\"`|]*)\.$", text[: found.start()][-80:])
        if before and not behind_dot(before.group(1), old):
            return old
        return names[old]
    return TOKEN.sub(word, text)


def in_lines(text, mark, names, behind_dot):
    """The same line by line; in a comment only the names in camel case, which are no English words."""
    camel = {old: new for old, new in names.items() if CAMEL.match(old)}
    out = []
    for line in text.splitlines(keepends=True):
        at = line.find(mark)
        if at < 0:
            out.append(respell(line, names, behind_dot))
        else:
            out.append(respell(line[:at], names, behind_dot) + respell(line[at:], camel, behind_dot))
    return "".join(out)


def main():
    dry = "--dry" in sys.argv
    libraries = glob.glob("crates/*/specs/*.antt") + glob.glob("crates/*/proofs/*.antt")
    proofs = sorted(set(glob.glob("crates/*/proofs/**/*.antt", recursive=True)) - set(libraries))
    edits = glob.glob("crates/*/must-fail/*.edit") + glob.glob("wrong-answers/*/*.edit")
    sources = glob.glob("crates/*/src/*.rt")
    pages = glob.glob("docs/*.md") + ["README.md", "oracle/README.md", "wrong-answers/README.md"]
    texts = {f: open(f).read() for f in libraries + proofs + edits + sources + pages}

    shared, fields, all_names = {}, set(), set()
    for file in libraries:
        for name in declared(texts[file], False):
            shared[name] = spelled(name)
            all_names.add(spelled(name))
        for line in texts[file].split("\n"):
            found = re.match(r"^\s+pub ", line) and DECLARED.match(line)
            if found:
                fields.update(found.group(1).split())
    shared = {old: new for old, new in shared.items() if old != new}

    # Names that fall together: two of ours, or a new name with a word that a file has already.
    by_new = collections.defaultdict(set)
    for old, new in shared.items():
        by_new[new].add(old)
    for new, olds in sorted(by_new.items()):
        if len(olds) > 1:
            print("falls together:", new, "of", *sorted(olds))
    for file in libraries + sources:
        words = set(TOKEN.findall(re.sub(r"--.*|//.*", "", texts[file])))
        for old, new in sorted(shared.items()):
            if old in words and new in words:
                print("stands already:", file, old, "->", new)
    if dry:
        return

    for file, text in texts.items():
        aliases = set(re.findall(r"^use \S+ as (\w+)", text, re.M)) - {"tie"}
        names = dict(shared)
        if file in pages:
            def span(found):
                return TOKEN.sub(
                    lambda w: spelled(w.group(0)) if spelled(w.group(0)) in all_names else w.group(0), found.group(0)
                )
            new = re.sub(r"`[^`\n]+`", span, text)
        elif file in proofs:
            for name in declared(text, True):
                if spelled(name) != name:
                    names[name] = spelled(name)
            new = in_lines(text, "--", names, lambda word, old: old in fields or word in aliases)
        elif file in libraries:
            new = in_lines(text, "--", names, lambda word, old: True)
        elif file in sources:
            camel = {old: new for old, new in names.items() if CAMEL.match(old)}
            new = respell(text, camel, lambda word, old: True)
        else:
            new = in_lines(text, "#", names, lambda word, old: True)
        if new != text:
            with open(file, "w") as out:
                out.write(new)


main()
