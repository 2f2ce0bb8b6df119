#!/usr/bin/env python3
"""Brings the Proof.antt files of a crate to the names that the checker gives today to goals, places and fields. The checker lists each old name
with its new one; this goes by that list, and by the order of the answers where a name is gone.

usage: tools/respell_proofs.py NAME..      in the repository: for each crate, runs the checker for the list, and rewrites its Proof.antt files
"""
import difflib
import glob
import json
import os
import re
import subprocess
import sys
import tempfile

TOKEN = r"[^\s(){}\[\];,.:«»\"`|]+"


# What stands behind a step's name in a path.
OF_A_STEP = "result ensures new auto invariant true false branch is given told taken left".split()


# What tools/respell_names.py called fields of records, where a step has a function's name.
STEPS = {f"{n}_passes": f"{n}_ok" for n in ("count", "random", "filler", "list", "passphrase")}


def norm(word):
    word = word.lower().replace("-", "_")
    word = STEPS.get(word, word)
    return word[: -len("_lem")] if word.endswith("_lem") else word


def lists(crate):
    """The checker's list for each function of the crate, by the path of its folder."""
    with tempfile.TemporaryDirectory() as d:
        subprocess.run(["rt", "check", "--generated", d, "--old-names"], cwd="crates/" + crate, stdout=subprocess.DEVNULL, stderr=subprocess.DEVNULL)
        names = json.load(open(d + "/names.json", encoding="utf-8"))
    out = {}
    for key, it in names.items():
        m = re.match(r"Rattle-" + crate + r"-proofs\.(.*)\.Lts$", key)
        if m:
            out[m.group(1).replace(".", "/")] = it
    return out


def lent(crate):
    """The names of the parameters by &mut of each function that any crate declares, in order, by the function's name."""
    out = {}
    for f in glob.glob("crates/*/src/**/*.rt", recursive=True):
        text = open(f, encoding="utf-8").read()
        for m in re.finditer(r"\bfn (\w+)(?:<[^>]*>)?\(([^{]*?)\)\s*(?:->|requires|ensures|where|\{)", text, re.S):
            out.setdefault((f.split("/")[1], m.group(1)), []).append(re.findall(r"(\w+)\s*:\s*&(?:'\w+ )?mut ", m.group(2)))
    return out


def named(crate):
    """The names of the parameters of each function of the crate, by the function's name."""
    out = {}
    for f in glob.glob(f"crates/{crate}/src/**/*.rt", recursive=True):
        text = open(f, encoding="utf-8").read()
        for m in re.finditer(r"\bfn (\w+)(?:<[^>]*>)?\(([^{]*?)\)\s*(?:->|requires|ensures|where|\{)", text, re.S):
            out.setdefault(m.group(1), set()).update(re.findall(r"(\w+)\s*:\s", m.group(2)))
    return out


def entries(text):
    """What stands before the proof itself, the line that states it, and the entries of its list."""
    m = re.search(r"^pub " + TOKEN + r" : \{M.*$", text, re.M)
    at = text.rfind("(tie.spec")
    if not m or at < 0:
        return None
    out, depth, word = [], 0, ""
    for ch in text[at + len("(tie.spec") :]:
        depth += ch in "([{"
        depth -= ch in ")]}"
        if depth < 0:
            break
        if ch.isspace() and depth == 0:
            out += [word] if word else []
            word = ""
        else:
            word += ch
    out += [word] if word else []
    return text[: m.start()].rstrip("\n") + "\n", out


def declared_need(head, name):
    m = re.search(r"^" + re.escape(name) + r" : tie\.Need-(" + TOKEN + ")", head, re.M)
    return m.group(1) if m else None


def old_need(head, entry, olds=()):
    """The old name of the goal that an entry answers."""
    if entry.startswith("("):
        m = re.match(r"\(λ (" + TOKEN + ")", entry)
        return m.group(1) if m else entry
    name = declared_need(head, entry.split(" ")[0]) or entry
    return entry if norm(name) not in olds and norm(entry) in olds else name


def pair(olds, needs):
    """For each need of the checker the index of the entry that answers it, or None."""
    a, b = [norm(o) for o in olds], [norm(n[0]) for n in needs]
    if a == b or len(a) == len(b):
        return list(range(len(b)))
    out = [None] * len(b)
    for tag, i1, i2, j1, j2 in difflib.SequenceMatcher(None, a, b, autojunk=False).get_opcodes():
        if tag == "equal" or (tag == "replace" and i2 - i1 == j2 - j1):
            for k in range(j2 - j1):
                out[j1 + k] = i1 + k
    return out


def paths_of(text, fields, callee, muts, facts):
    """The paths of one definition: the first field that is none of the way back is a place's, and every place has the fields of those before it;
    what a call changed goes by the names of its parameters."""
    inner, call_of = set(), {}

    def way(m):
        """A way back that is used for its fields alone is not needed."""
        uses = re.findall(r"(?<![\w'.-])" + re.escape(m.group(1)) + r"(?![\w'-])(\.)?", text)
        return f"let {m.group(1)} = {m.group(2)} in" if all(uses[1:]) else m.group(0)

    text = re.sub(r"\blet (" + TOKEN + r") = (" + TOKEN + r")(?:\.before)+ in(?=\s)", way, text)
    for name, step, way in facts:
        text = re.sub(TOKEN + r"(?:\.before)*\." + step + r"(?:-[\w-]*)?\." + re.escape(way) + r"(?![\w'-])", "c." + name, text)
    arm = re.search(r"tie\.Need-(?:" + TOKEN + r"-)?(in-[A-Z]\w*)", text) or re.search(r"tie\.(?:After|In)-(?:" + TOKEN + r"-)?([iI]n-[A-Z]\w*)", text)
    if arm:
        text = re.sub(TOKEN + r"(?:\.before)*\.enum[-_]told(?:" + TOKEN + r")?\.given\.1", "c.i" + arm.group(1)[1:] + ".is", text)
    for m in re.finditer(r"\blet (" + TOKEN + r")(?: : [^\n=]*?)? = ([^\n]*?) in(?=\s)", text):
        last = re.search(r"\.(" + TOKEN + ")$", m.group(2))
        if last and last.group(1) != "before":
            inner.add(m.group(1))
            call_of[m.group(1)] = callee.get(fields.get(norm(last.group(1))))

    def lent_name(call, i):
        for names in muts.get(call, []) if call else [n for c in sorted({c for c in callee.values()}) for n in muts.get(c, [])]:
            if i < len(names):
                return names[i]
        return None

    def is_place(m):
        if m.group(1) == ")":
            return re.match(r" in(?=\s)", text[m.end() :]) is not None
        v = re.escape(m.group(1))
        return m.group(1) == "c" or re.search(r"\(" + v + r" : tie\.|\blet " + v + " = ", text) is not None

    def path(m):
        if m.group(1) in ("tie", "use"):
            return m.group(0)
        spelled = re.sub(r"\.last(?=\.\d)", ".new", re.sub(r"\.kept(?=\.\d)", ".auto", m.group(2)))
        words, call, k = spelled.split(".")[1:], call_of.get(m.group(1)), 0
        while k < len(words) and words[k] == "before":
            k += 1
        if k == len(words):
            return m.group(0)
        words = words[k:]
        if m.group(1) not in inner and norm(words[0]) in fields and (words[1:2] and words[1] in OF_A_STEP or len(words) == 1 and is_place(m)):
            words[0] = fields[norm(words[0])]
            call = callee.get(words[0], call)
        elif words[0].startswith("loop") and norm(words[0]) in fields and m.group(1) not in inner:
            words[0] = fields[norm(words[0])]
        for k, w in enumerate(words):
            if w.isdigit() and (words[k - 1] in ("new", "auto") if k else False):
                words[k] = lent_name(call, int(w)) or w
        return m.group(1) + "." + ".".join(words)

    return re.sub(r"(\)|" + TOKEN + r")((?:\." + TOKEN + ")+)", path, text)


class Way:
    """The ways back from place to place: a lemma of the file that takes a place is given that very place, as many steps back as there are today."""

    def __init__(self, text, it):
        names = dict(zip((p[0] for p in it["places"]), it["places_by_name"]))
        above = {p[0]: p[1] for p in it["places"]}
        self.parent = {}
        for p, arm in zip(it["places"], it["arms"]):
            # the places of an arm are one
            up = p[0]
            for _ in range(arm[1] if arm else 1):
                up = above.get(up)
            self.parent[names[p[0]]] = names.get(up)
        self.goal = {n[1]: at[1] for n, at in zip(it["needs"], it["asked_at"])}
        self.takes, self.gives, self.notes = {}, {}, []
        place = r"tie\.(" + TOKEN + r")((?: [\w-]+)*)"
        for m in re.finditer(r"^(?:abbrev |pub )*(" + TOKEN + r") :\s+(?:\(" + TOKEN + r" : )?" + place + r"\)?(?:\s*\([^)]*\))*\s*→\s*(?:tie\.(" + TOKEN + r")((?: [\w-]+)*)\s*$)?", text, re.M):
            if m.group(2) in self.parent:
                self.takes[m.group(1)] = m.group(2)
                if m.group(4) in self.parent:
                    self.gives[m.group(1)] = m.group(4)

    def steps(self, a, b):
        n = 0
        while a is not None and a != b:
            a, n = self.parent.get(a), n + 1
        return n if a == b else None

    def definition(self, text):
        m = re.search(r"^(?:abbrev |pub )*(" + TOKEN + r") :.*?^\1 (" + TOKEN + r")([^=\n]*)=", text, re.M | re.S)
        if not m:
            return text
        goal = re.search(r"^(?:abbrev |pub )*" + re.escape(m.group(1)) + r" :\s+tie\.Need-(" + TOKEN + ")", text, re.M)
        at = self.goal.get(goal.group(1)) if goal else self.takes.get(m.group(1))
        if at is None:
            return text
        self.at, head, body = {m.group(2): at}, text[: m.end()], text[m.end() :]
        got = self.atom(body.strip(), 0) if m.group(1) in self.gives else None
        if got and got[1] == len(body.strip()) and got[2] is not None:
            return head + " " + self.back(got[0], got[2], self.gives[m.group(1)])[0] + body[len(body.rstrip()) :]
        return head + self.lets(body)

    def lets(self, body):
        out = ""
        while True:
            m = re.search(r"\blet (" + TOKEN + r") = ", body)
            if not m:
                return out + self.calls(body)
            end = re.compile(r" in(?=\s)").search(body, m.end())
            value, rest = body[m.end() : end.start()], body[end.end() :]
            got = self.atom(value, 0)
            out += self.calls(body[: m.end()])
            if got and got[1] == len(value) and got[2] is not None:
                want = [self.takes[f] for f in re.findall(r"(" + TOKEN + r") " + re.escape(m.group(1)) + r"(?![\w'.-])", rest) if f in self.takes]
                base, place = got[0], got[2]
                value, self.at[m.group(1)] = self.back(base, place, want[0]) if want else (base, place)
                out += value
            else:
                out += self.calls(value)
                self.at.pop(m.group(1), None)
            out, body = out + " in", rest

    def back(self, base, place, want):
        n = self.steps(place, want)
        if n is None:
            self.notes.append(f"no way from {place} to {want}")
            return base, place
        return base + ".before" * n, want

    def atom(self, text, i):
        """At i: the text of a value with no way back behind it, where it and the way end, and its place or None."""
        if text[i : i + 1] == "(":
            depth, j = 0, i
            while True:
                depth += text[j] in "([{"
                depth -= text[j] in ")]}"
                j += 1
                if depth == 0:
                    break
            inner = text[i + 1 : j - 1]
            f = inner.split(" ")[0]
            base, place = "(" + self.calls(inner) + ")", self.gives.get(f) if re.match(re.escape(f) + r" \S", inner) and self.one(inner) else None
        else:
            m = re.compile(r"[^\s(){}\[\];,.:«»\"`|]+").match(text, i)
            if not m:
                return None
            base, j = m.group(0), m.end()
            place = self.at.get(base)
            one = self.one(text[i:]) if base in self.gives else None
            if one:
                base, j, place = self.calls(text[i : i + one]), i + one, self.gives[base]
                return base, j, place
        m = re.compile(r"(?:\.before)+(?![\w'-])").match(text, j)
        if m and text[m.end() : m.end() + 1] != ".":
            j = m.end()
        elif text[j : j + 1] == ".":
            place = None
        return base, j, place

    def one(self, text):
        """Where the application of a lemma to one place ends, or None."""
        m = re.match(TOKEN + " ", text)
        if not m:
            return None
        got = self.atom(text, m.end())
        return got[1] if got and (got[1] == len(text) or text[got[1] : got[1] + 1] in " )\n") else None

    def calls(self, text):
        out, i = "", 0
        pattern = re.compile(r"(?<![\w'.-])(" + "|".join(re.escape(f) for f in sorted(self.takes, key=len, reverse=True)) + r") (?=[^\s=:→])") if self.takes else None
        while pattern:
            m = pattern.search(text, i)
            if not m:
                break
            got = self.atom(text, m.end())
            if not got or got[2] is None:
                out, i = out + text[i : m.end()], m.end()
                continue
            out += text[i : m.end()] + self.back(got[0], got[2], self.takes[m.group(1)])[0]
            i = got[1]
        return out + text[i:]


def respell(text, it, muts, params, function):
    cut = entries(text)
    if cut is None:
        return None, ["no list"]
    head, answers = cut
    notes = []
    loops = {norm(o): n for (o, n), _ in it["loops"]}
    count = 2 * len(it["loops"])
    stated, answers = answers[:count], answers[count:]
    needs = it["needs"]
    olds = {norm(n[0]) for n in needs}
    match = pair([old_need(head, a, olds) for a in answers], needs)
    if "-v" in sys.argv:
        print([old_need(head, a, olds) for a in answers], [n[0] for n in needs], match)
    used = {m for m in match if m is not None}
    for i, a in enumerate(answers):
        if i not in used and not re.match(r"\(λ .*search rules\)$", a, re.S):
            notes.append("answer left out: " + a[:60])
    # goals
    goal = {}
    for j, m in enumerate(match):
        if m is not None:
            goal[norm(old_need(head, answers[m]))] = needs[j][1]
            goal[norm(old_need(head, answers[m], olds))] = needs[j][1]
    for o, n in needs:
        goal.setdefault(norm(o), n)
    head = re.sub(r"\btie\.Need-(" + TOKEN + ")", lambda m: "tie.Need-" + goal.get(norm(m.group(1)), m.group(1)), head)
    # loops
    head = re.sub(r"\btie\.(invariant|decreases)[-_](" + TOKEN + ")", lambda m: f"tie.{m.group(1)}-{loops.get(norm(m.group(2)), m.group(2))}", head)
    # places
    places = {norm(p[0]): n for p, n in zip(it["places"], it["places_by_name"])}
    head = re.sub(r"\btie\.((?:After|At|In|Then|Else|Start)(?:" + TOKEN + ")?)", lambda m: "tie." + places.get(norm(m.group(1)), m.group(1)), head)
    # fields of places
    fields, callee = {}, {}
    for p in it["places"]:
        o, n = p[2]
        if o:
            if norm(o) in fields and fields[norm(o)] != n:
                notes.append(f"field {o}: {fields[norm(o)]} and {n}")
            fields[norm(o)] = n
            if p[3]:
                callee[n] = (p[3].split("::")[0], p[3].split("::")[-1])

    facts = set()
    for arm in it["arms"]:
        for f in arm[2] if arm else []:
            if f[2]:
                facts.add((f"{arm[0]}.{f[0]}", f[1].replace("_", "[-_]"), ".".join(f[2])))
    head = "\n\n".join(paths_of(part, fields, callee, muts, facts) for part in head.split("\n\n"))

    # parameters by their names in the source
    for name in params.get(function, ()):
        if "_" in name:
            head = re.sub(r"\." + name.replace("_", "-") + r"(?![\w'-])", "." + name, head)
    # parameters that had a number, and what is told of them
    for o, n in it["args"]:
        o, n = o.split(" .")[-1].lstrip("."), n.split(" .")[-1].lstrip(".")
        if o != n:
            head = re.sub(r"\." + re.escape(o) + r"(?![\w'-])", "." + n, head)

    head = head.replace(".well-formed", ".well_formed")
    head = re.sub(r"\.inv(?![\w'-])", ".invariant", head)
    head = re.sub(r"(-test|\bif[\w-]*)\.taken(?![\w'-])", r"\1.true", head)
    head = re.sub(r"(-test|\bif[\w-]*)\.left(?![\w'-])", r"\1.false", head)
    head = re.sub(r"(-arg-[\w-]+)\.given\.0(?![\w'-])", r"\1.given", head)
    head = re.sub(r"(\((?:digest_of|compression_of) [^()]*\))\.size-[\w-]+", r"\1.size", head)
    head = re.sub(r"\.pre\b", ".requires", head)
    way = Way(head, it)
    head = "\n\n".join(way.definition(part) for part in head.split("\n\n"))
    notes += way.notes
    lines = []
    for j, m in enumerate(match):
        a = answers[m] if m is not None else None
        if a is None or re.match(r"\(λ " + TOKEN + r"( κs)?\. search rules\)$", a):
            tail = " κs" if needs[j][1].endswith("requires") or re.search(r"-requires(-|$)", needs[j][1]) else ""
            a = f"(λ c{tail}. search rules)"
        inline = re.match(r"\(λ (" + TOKEN + r")[^.]*\.", a)
        if inline and "search rules)" not in a:
            way.at = {inline.group(1): it["asked_at"][j][1]}
            a = way.calls(paths_of(a, fields, callee, muts, facts))
        lines.append("    " + a)
    lines = ["    " + s for s in stated] + lines
    proof = f"\npub {function}_spec : {{M : Type 1}} → statement M\n{function}_spec =\n    tie.close\n    (tie.spec\n"
    return head + proof + "\n".join(lines) + ")\n", notes


def main(argv):
    muts = lent(None)
    for crate in (c for c in argv if c != "-v"):
        params = named(crate)
        for path, it in sorted(lists(crate).items()):
            f = f"crates/{crate}/proofs/{path}/Proof.antt"
            if not os.path.exists(f):
                continue
            text, notes = respell(open(f, encoding="utf-8").read(), it, muts, params, path.split("/")[-1])
            for n in notes:
                print(f"{f}: {n}")
            if text:
                open(f, "w", encoding="utf-8").write(text)
    return 0


if __name__ == "__main__":
    raise SystemExit(main(sys.argv[1:]))
