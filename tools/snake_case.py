#!/usr/bin/env python3
"""Spells the repository's own definitions in snake case, as Rattle's library does.

usage: tools/snake_case.py      at the top of the repository, once

Takes every name in lower camel case, or with a dash, that a file of specs/ or a file of lemmas in proofs/ declares, also
a field or a constructor, and rewrites it in every .rt and .antt file below crates/. Names of the code, of types, and names
that the check makes stay. A lemma with a dash gets `_lem` behind its name where a function or a definition has that name.
It stops, and writes nothing, where a new name is in use already.
"""

import os
import re
import sys

DECLARED = re.compile(r"^(?:(?:abbrev|unfoldable) )?(?:pub )?([a-z][\w-]*)(?: \(.*\)| \{.*\})? : ")
PART = re.compile(r"^  (?:pub )?([a-z]\w*) : ")
JOINT = re.compile(r"(?<=[a-z0-9])(?=[A-Z])|(?<=[A-Z])(?=[A-Z][a-z])|-")


def files():
    for folder, _, names in os.walk("crates"):
        for name in sorted(names):
            if name.endswith((".rt", ".antt")):
                yield os.path.join(folder, name)


def is_declaring(path):
    parts = path.split(os.sep)
    return path.endswith(".antt") and parts[2] in ("specs", "proofs") and len(parts) == 4


def main():
    texts = {}
    for path in files():
        with open(path, encoding="utf-8") as f:
            texts[path] = f.read()
    own = set()
    for path, text in texts.items():
        if is_declaring(path):
            for line in text.splitlines():
                found = DECLARED.match(line) or PART.match(line)
                if found and JOINT.search(found.group(1)):
                    own.add(found.group(1))
    if not own:
        print("no such name is left")
        return 0
    used = {}
    for path, text in texts.items():
        for word in re.findall(r"[\w'-]+", text):
            used.setdefault(word, path)
    new = {name: JOINT.sub("_", name).lower() for name in own}
    plain = {it for name, it in new.items() if "-" not in name}
    for name, it in new.items():
        if "-" in name and (it in used or it in plain):
            new[name] = it + "_lem"
    together = {a for a in new for b in new if a != b and new[a] == new[b]}
    if together:
        print("fall together: " + " ".join(sorted(together)), file=sys.stderr)
        return 2
    taken = {name for name in new if new[name] in used and new[name] not in OF_THE_CODE}
    if taken:
        for name in sorted(taken):
            print(f"{name}: {new[name]} stands in {used[new[name]]}", file=sys.stderr)
        return 2
    pattern = re.compile(r"(?<![\w'-])(" + "|".join(sorted(new, key=len, reverse=True)) + r")(?![\w'-])")
    for path, text in texts.items():
        turned = pattern.sub(lambda m: new[m.group(1)], text)
        if turned != text:
            with open(path, "w", encoding="utf-8") as f:
                f.write(turned)
    print(f"{len(new)} names")
    return 0


# A definition may have the name of the function that it describes: they are told apart by where they stand.
# `taken_up` is a test's.
OF_THE_CODE = """
command_with edge_line edge_lines edge_proper fresh_text is_name is_short is_sink is_source is_utf8 kind_name kind_named
kind_tail line_with taken_up word_named worker_line worker_lines worker_proper
""".split()

if __name__ == "__main__":
    raise SystemExit(main())
