#!/usr/bin/env python3
"""Brings the repository's own names of definitions, fields and lemmas to the spelling of the library: snake case for what is no type, a dash
only between two names, as in length-splice. Run once, at the top, after the toolchain's own script; docs/PORT.md says when it ran.

usage: tools/respell_names.py [--list]     rewrites crates/; with --list it prints old and new and changes nothing
"""
import glob
import os
import re
import sys

WORD = r"[^\s(){}\[\];,.:«»\"`]+"
TOKEN = re.compile(r"[^\s(){}\[\];,.:«»\"`|&!?*/+<>=%^~#\\]+")

# Names of the library that stand in lemmas of ours: what a dash may join.
LIBRARY = set("""take drop length append map set zero suc nil cons get_or xor and or add sub mul div mod not min max lt le eq splice paste
replicate zeros part reverse filter fold sum bit_and bit_or bit_xor""".split())

# Where the rule gives a name that is taken, or one that reads badly.
BY_HAND = {
    # a field of a record beside the test that it names
    "count-ok": "count_passes",
    "random-ok": "random_passes",
    "filler-ok": "filler_passes",
    "list-ok": "list_passes",
    "passphrase-ok": "passphrase_passes",
    "keyWhole": "is_key_whole",
    "rowsOk": "are_rows_ok",
    # tests that a call's arguments are bytes and numbers of their width, beside the laws about them
    "formatTyped": "is_format_typed",
    "slotTyped": "is_slot_typed",
    "callTyped": "is_call_typed",
    "callsTyped": "are_calls_typed",
    # definitions beside a law of that name
    "noKey": "no_key_bytes",
    "inOrder": "put_in_order",
    # a law that would have its function's name
    "are-bytes": "are_bytes_lem",
    "content-in": "content_in_lem",
    "content-of": "content_of_lem",
    "derivation-cost": "derivation_cost_lem",
    "holds-units": "holds_units_lem",
    "in-payload": "in_payload_lem",
    "name-widths": "name_widths_lem",
    "names-ok": "names_ok_lem",
    "record-fields": "record_fields_lem",
    "record-ok": "record_ok_lem",
    "rot-word": "rot_word_lem",
    "sectors-in": "sectors_in_lem",
    "tweak-bytes": "tweak_bytes_lem",
}

# The same, for names that the toolchain's script had turned already.
BY_FILE = {
    "crates/ledger/proofs/ReadingLaws.antt": {"slot_ok": "slot_ok_lem", "all_apart": "all_apart_lem"},
    "crates/cipher/proofs/ScheduleLaws.antt": {"next_word": "next_word_lem"},
    "crates/cipher/proofs/next_word/Proof.antt": {"next_word": "next_word_lem"},
    "crates/cuts/proofs/StageLaws.antt": {"in_head": "in_head_lem"},
}

# A library has this crate's name now, and a module of the toolchain's the file's.
PATHS = [
    (re.compile(r"Rattle\.sha1\."), "Rattle.sha_1."),
    (re.compile(r"\bsha1::"), "sha_1::"),
    (re.compile(r"Rattle\.rules\.specs\.Contracts\b"), "Rattle.rules.specs.Promises"),
]
MOVED = [("crates/sha1", "crates/sha_1"), ("crates/rules/specs/Contracts.antt", "crates/rules/specs/Promises.antt")]


def files():
    return sorted(glob.glob("crates/*/specs/**/*.antt", recursive=True) + glob.glob("crates/*/proofs/**/*.antt", recursive=True))


def declared():
    """The names of definitions, fields and lemmas, each with the set of its kinds: field, spec, law or proof."""
    found = {}
    for f in files():
        record = False
        for line in open(f, encoding="utf-8"):
            m = re.match(r"^(?:pub )?(?:record|data) (" + WORD + ")", line)
            if m:
                record = True
                found.setdefault(m.group(1), set()).add("type")
                continue
            if re.match(r"^\S", line) and not line.startswith("--"):
                record = False
            m = re.match(r"^(\s*)(?:abbrev |unfoldable )?(?:pub )?(" + WORD + r"(?: " + WORD + r")*) : ", line)
            if m and (not m.group(1) or re.match(r"^\s+pub |^\s+(?:abbrev|unfoldable) ", line) or record or re.match(r"^  \S", line)):
                for n in m.group(2).split(" "):
                    if n in ("abbrev", "pub", "unfoldable"):
                        continue
                    kind = "field" if record and m.group(1) else "proof" if f.endswith("/Proof.antt") else "spec" if "/specs/" in f else "law"
                    found.setdefault(n, set()).add(kind)
    return found


def snake(part):
    if not part or part[0].isupper():
        return part
    return re.sub(r"(?<=[a-z0-9])([A-Z])(?=[a-z0-9]|$)", lambda m: "_" + m.group(1).lower(), part)


def renamed(names):
    bare = {snake(n) for n in names if "-" not in n} | LIBRARY
    out = {}
    for n, kinds in names.items():
        if n in BY_HAND:
            out[n] = BY_HAND[n]
            continue
        if kinds == {"proof"} and re.search(r"-spec$|-requires$|^(loop|returns|mul|add|sub|cast|slice|array|part)\b", n):
            continue
        if n.startswith("Need-") or not re.search(r"[a-zA-Z]", n):
            continue
        parts = [snake(p) for p in n.split("-")]
        new = parts[0]
        for i in range(1, len(parts)):
            whole = "field" not in kinds and left_names(parts, i, bare) and right_names(parts, i, bare)
            new += ("-" if whole else "_") + parts[i]
        if new != n:
            out[n] = new
    return out


def is_name(words, bare):
    return "_".join(words) in bare or not re.search(r"[a-z]", words[0]) or words[0][0].isupper()


def left_names(parts, i, bare):
    return any(is_name(parts[j:i], bare) for j in range(i))


def right_names(parts, i, bare):
    return any(is_name(parts[i:j], bare) for j in range(i + 1, len(parts) + 1))


def main(argv):
    names = declared()
    table = renamed(names)
    if argv == ["--list"]:
        for a, b in sorted(table.items()):
            print(a, b, ",".join(sorted(names[a])))
        return 0
    for f in files() + sorted(glob.glob("crates/*/src/**/*.rt", recursive=True)):
        old = open(f, encoding="utf-8").read()
        own = table | BY_FILE.get(f, {})
        new = "\n".join(respelled(l, own) for l in old.split("\n"))
        if new != old:
            open(f, "w", encoding="utf-8").write(new)
    move()
    return 0


def move():
    for a, b in MOVED:
        if os.path.exists(a):
            os.rename(a, b)
    for f, a, b in [("crates/rules/specs/Lib.antt", r"\bContracts\b", "Promises"), ("crates.txt", r"\bsha1\b", "sha_1")]:
        text = open(f, encoding="utf-8").read()
        open(f, "w", encoding="utf-8").write(re.sub(a, b, text))


def respelled(line, table):
    """A comment's dashes are English, so of those names only the others are turned there."""
    comment = line.lstrip().startswith(("--", "//"))
    words = {a: b for a, b in table.items() if "-" not in a} if comment else table
    line = TOKEN.sub(lambda m: words.get(m.group(0), m.group(0)), line)
    for a, b in PATHS:
        line = a.sub(b, line)
    return line


if __name__ == "__main__":
    raise SystemExit(main(sys.argv[1:]))
