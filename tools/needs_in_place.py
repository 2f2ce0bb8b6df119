#!/usr/bin/env python3
"""Takes out of proof files what the search closes.

In a Proof.antt a goal may be declared whose answer is the search alone. This takes

    add-i : tie.Need-overflow_add-i invariant_loop decreases_loop
    add-i c = search rules

out of the file and writes `(λ add-i. search rules)` for `add-i` in the list of `tie.spec`, so that what stands above the list is what had to be
thought of. A goal that is named anywhere else stays. In an Answers.antt such an answer is needless, since the check tries the search on
each goal that has none: it is taken out, and a file that has no other is named, to be removed.

usage: tools/needs_in_place.py crates/NAME/proofs/FUNCTION/FILE ..., then rt fmt in the crate's folder
"""
import os
import re
import sys

DECLARED = re.compile(r"(?m)^(\S+) : tie\.Need-\S+(?: [^\n]*)?\n\1 c( κs)? = search rules\n\n?")
ANSWERED = re.compile(r"(?m)(?:^-- src/[^\n]*\n)?^pub (\S+) : goal\.\1\n\1 c = search rules\n\n?")


def in_place(text):
    """The text of a Proof.antt with such goals in the list, and how many there were."""
    count = 0
    for goal in DECLARED.finditer(text):
        name, more = goal.group(1), goal.group(2) or ""
        rest = text.replace(goal.group(0), "", 1)
        uses = list(re.finditer(r"(?<![^\s()])" + re.escape(name) + r"(?![^\s()])", rest))
        if len(uses) != 1 or "tie.spec" not in rest[: uses[0].start()]:
            continue
        at, end = uses[0].span()
        text = f"{rest[:at]}(λ {name}{more}. search rules){rest[end:]}"
        count += 1
    return text, count


def main():
    total = 0
    for path in sys.argv[1:]:
        with open(path, encoding="utf-8") as file:
            text = file.read()
        is_answers = os.path.basename(path) == "Answers.antt"
        text, count = ANSWERED.subn("", text) if is_answers else in_place(text)
        if count:
            with open(path, "w", encoding="utf-8") as file:
                file.write(text)
        if is_answers and " : goal." not in text:
            print(f"{path}: no answer is left")
        total += count
    print(total)


if __name__ == "__main__":
    main()
