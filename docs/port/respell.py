#!/usr/bin/env python3
"""Brings the names of this repository's own definitions and lemmas to the spelling of today's Rattle, once, right after port.py.

usage: python3 docs/port/respell.py [FOLDER]     FOLDER: the checkout, '.' if not given

A word is in snake case; a dash stays only where it joins two names of the library. Turned are the names that specs/ and the lemma files of proofs/ define,
wherever they stand in .antt and .rt files, and the helpers that a Proof.antt defines for itself. The names that Rattle makes, those of src/, types, modules,
strings, inputs and outputs stay. In a comment a name with dashes is turned between backquotes alone. It prints names that would fall together, and stops.
"""

import os
import re
import sys

TOP = sys.argv[1] if len(sys.argv) > 1 else "."
LIBRARY = set("length map take drop append set get_or get reverse replicate sum max min filter paste".split())

# Names that would fall together with another, and what they are called instead. The last two lemmas port.py had turned already.
OTHER = {
    "closing-rule": "closing_rule_lem", "entry-bytes": "entry_bytes_lem", "fetch-reply": "fetch_reply_lem", "first-refused": "first_refused_lem",
    "form-entry": "form_entry_lem", "form-of": "form_of_lem", "fromOn": "from_on_at", "image-of": "image_of_lem", "inOrder": "bodies_in_order",
    "led-to": "led_to_lem", "losing-answer": "losing_answer_lem", "named-plays": "named_plays_lem", "newest-first": "newest_first_lem",
    "no-effects": "without_effects", "offsets-of": "offsets_are_of", "opening-at": "opening_tag_at", "p5-listing": "p5_listing_lem",
    "pair-of": "pair_of_lem", "rules-of": "rules_are", "run-held": "run_held_lem", "set-in": "set_in_lem", "tag-at": "tag_at_lem",
    "tags-left": "tags_left_lem", "target-of": "target_of_lem", "won-before": "won_before_lem",
    "bit-and": "bit_of_and", "bit-or": "bit_of_or", "bit-xor": "bit_of_xor", "bit-shr": "bit_of_shr",
    "mask_below": "mask_below_lem", "no_length": "no_length_lem",
}

# Parameters and an import under another name, which no line defines.
BOUND = {"closedTarget": "is_closed", "isFetchable": "is_fetchable"}

# These stand in modules that do not see each other.
APART = {"after_fetch", "after_read", "at_start", "end_state"}

NAME = re.compile(r"[^\s(){}\[\];,.:\"`⟨⟩⟦⟧|@\\]+")
DEFINES = re.compile(r"^(\s*)((?:abbrev|unfoldable|pub|opaque|instance)\s+)*([^\s(){}:;,.λ]+)(\s+\{[^}]*\})?\s+:(\s|$)(.*)$")


def snake(name):
    """The name in snake case."""
    name = re.sub(r"([a-z0-9])([A-Z])(?=[a-z0-9?'_-]|$)", lambda m: m.group(1) + "_" + m.group(2).lower(), name)
    parts = name.split("-")
    out = parts[0]
    for left, right in zip(parts, parts[1:]):
        both = left in LIBRARY and right in LIBRARY
        out += ("-" if both else "_") + right
    return out


def files(ending):
    for folder, dirs, names in os.walk(os.path.join(TOP, "crates")):
        dirs[:] = sorted(d for d in dirs if d != "out")
        for n in sorted(names):
            if n.endswith(ending):
                yield os.path.join(folder, n)


def defined(path):
    """The names that a file defines, with the text of the type's first line."""
    found = {}
    lines = open(path, encoding="utf-8").read().split("\n")
    for i, line in enumerate(lines):
        m = DEFINES.match(line)
        if m and not line.lstrip().startswith("--"):
            kind = m.group(6).strip() or (lines[i + 1].strip() if i + 1 < len(lines) else "")
            found.setdefault(m.group(3), kind)
    return found


def turns(name):
    return re.match(r"[a-z]", name) and not name.startswith("the-") and (re.search(r"[a-z0-9][A-Z]", name) or "-" in name)


def turn(text, table, dotted):
    """The text with the names of the table turned; one with dashes after a dot only where it is in dotted, in a comment only between backquotes."""

    def one(m):
        w = m.group(0)
        if w not in table:
            return w
        if "-" in w and text_at[m.start() - 1 : m.start()] == "." and w not in dotted:
            return w
        return table[w]

    out = []
    for line in text.split("\n"):
        mark = re.search(r"(^|\s)(--|//)\s", line)
        body, note = (line[: mark.start()], line[mark.start() :]) if mark else (line, "")
        text_at = body
        body = NAME.sub(one, body)
        if note:
            text_at = note
            plain = {w: v for w, v in table.items() if "-" not in w}
            note = NAME.sub(lambda m: plain.get(m.group(0), m.group(0)), note)
            note = re.sub(r"`([^`\s]+)`", lambda m: "`" + table.get(m.group(1), m.group(1)) + "`", note)
        out.append(body + note)
    return "\n".join(out)


def main():
    table, fields, own, local = dict(BOUND), set(), {}, {}
    for p in files(".antt"):
        names = defined(p)
        if os.path.basename(p) == "Proof.antt":
            local[p] = {n: k for n, k in names.items()}
            continue
        for n, k in names.items():
            own.setdefault(n, p)
            if turns(n) or n in OTHER:
                table[n] = OTHER.get(n, snake(n))
    for p in files(".antt"):
        if os.path.basename(p) != "Proof.antt":
            for m in re.finditer(r"^  +pub ([a-z][\w'-]*) :", open(p, encoding="utf-8").read(), re.M):
                fields.add(m.group(1))
    # names that fall together
    new = {}
    bad = False
    for n, v in sorted(table.items()):
        new.setdefault(v, []).append(n)
    for v, ns in sorted(new.items()):
        if (len(ns) > 1 or (v in own and v not in table)) and v not in APART:
            bad = True
            print(f"fall together: {v}: {' '.join(ns)}{' and ' + own[v] if v in own else ''}")
    kit = {}
    for p in files(".antt"):
        for m in re.finditer(r"^(?:pub )?use (?:Rattle\.std|mathlib|Prim|lib|borrow|native|denote|base)[\w.'-]*\.\{([^}]*)\}", open(p, encoding="utf-8").read(), re.M):
            for w in m.group(1).split(","):
                kit.setdefault(w.strip().split(" as ")[-1], p)
    for v in sorted(set(new) & set(kit)):
        bad = True
        print(f"a name of the kit: {v}: {' '.join(new[v])} and {kit[v]}")
    if bad:
        raise SystemExit(1)
    count = 0
    for p in list(files(".antt")) + list(files(".rt")):
        text = open(p, encoding="utf-8").read()
        here = dict(table)
        if p in local:
            for n, k in local[p].items():
                if k.startswith("tie.") or n.endswith("-spec") or n.endswith("_spec"):
                    here.pop(n, None)
                elif turns(n) and not n.startswith(("invariant-", "decreases-")):
                    here[n] = snake(n)
        done = turn(text, here, fields)
        if done != text:
            open(p, "w", encoding="utf-8").write(done)
            count += 1
    print(f"{len(table)} names, {count} files")


main()
