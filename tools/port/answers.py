#!/usr/bin/env python3
"""answers.py NAMES CRATE [FUNCTION..]: turns crates/CRATE/proofs/F/Proof.antt, a proof of the older form, to Invariants.antt and Answers.antt.

NAMES is the folder of `rt check --generated NAMES --old-names`, run in the crate. A goal that the older file left to the search is left out.
What cannot be turned by itself is said, a line each.
"""
import json
import os
import re
import subprocess
import sys

OLDER = os.environ.get("OLDER", "6cac6c75339a9f547821c2c6f8b8af2d3f2b974e")
TOP = ["args", "requires", "ranges", "type_inv", "utf8", "well_formed", "well-formed", "lifetimes"]
STEP = re.compile(r"\bc((?:\.before)*)\.([A-Za-z0-9_'-]+)((?:\.[A-Za-z0-9_'-]+)*)")
NOTS = r"(?:not-true|not-false|not_so|yet-so|not_yet|turned_on|turned-off) (?:_|[\w'.₀-₉-]+) (c\.if-not-[\w-]+\.(?:true|false))"
NEGATED = re.compile(rf"\({NOTS}\)|(?<![\w'.-]){NOTS}")
HEAD = re.compile(r"^((?:pub |abbrev |unfoldable |data |record )*)([^\s:(){},]+)((?:\s+(?:\{[^}]*\}|\([^)]*\)))*)\s+:(?:\s|$)")
KINDS = {"array-read": "element_copy_out", "array-write": "element_copy_in"}
ENDS = {"holds": "init", "less": "smaller", "again": "preserved"}


def norm(name):
    return name.removesuffix("_lem").replace("-", "_").lower()


def blocks(text):
    """The declarations of a file: (name, lines), comments with the declaration below them; and the head of the file."""
    lines = text.split("\n")
    head, decls, waiting = [], [], []
    name = None
    for line in lines:
        if re.match(r"(use|infix[lr]?)\s", line):
            head.append(line)
            continue
        m = HEAD.match(line) if line[:1] not in (" ", "\t", "") and not line.startswith("--") else None
        opens = re.match(r"^(mutual|module|section|data|record|open)(?=\s)", line)
        if line.startswith("--"):
            waiting.append(line)
            name = None if not decls else name
            continue
        if m or opens:
            name = m[2] if m else line.split()[1] if len(line.split()) > 1 else line
            decls.append([name, waiting + [line]])
            waiting = []
        elif decls:
            decls[-1][1] += waiting + [line]
            waiting = []
        elif line.strip():
            head.append(line)
    return head, [(n, "\n".join(ls).strip("\n")) for n, ls in decls]


def old_text(top, crate, inside):
    r = subprocess.run(["git", "show", f"{OLDER}:crates/{crate}/proofs/{inside}/Proof.antt"], cwd=top, capture_output=True, text=True)
    if r.returncode:
        r = subprocess.run(["git", "show", f"HEAD:crates/{crate}/proofs/{inside}/Proof.antt"], cwd=top, capture_output=True, text=True)
    return r.stdout if not r.returncode else ""


class Turn:
    def __init__(self, names, crate, inside, cycle=False):
        self.crate, self.inside, self.said, self.cycle = crate, inside, [], cycle
        self.path = f"Rattle.{crate}.proofs.{inside.replace('/', '.')}"
        self.data = names
        self.up = {p[0]: p[1] for p in names["places"]}
        self.labels = {p[0]: p[2] for p in names["places"]}
        self.kind = {p[0]: p for p in names["places"]}
        self.clauses = {p[0]: c["fields"] for p, c in zip(names["places"], names["clauses"]) if c and c.get("fields")}
        self.arms = {p[0]: a for p, a in zip(names["places"], names["arms"]) if a}
        self.typed = {p[0]: dict((b, a) for a, b in t) for p, t in zip(names["places"], names["typed"])}

    def say(self, text):
        self.said.append(f"{self.crate}::{self.inside}: {text}")

    def chain(self, place):
        seen = []
        while place is not None and place not in seen:
            seen.append(place)
            place = self.up.get(place)
        return seen

    def label(self, place, label, befores):
        """The step of today for a step of the older proof at a goal of this place."""
        if label in TOP:
            return norm(label)
        chain = self.chain(place)
        for p in chain:
            old, new = self.labels[p]
            if old and norm(old) == norm(label):
                return new
        for p in chain:
            for known, name in self.typed.get(p, {}).items():
                if norm(known) == norm(label):
                    return "\0" + known
        found = {new for old, new in self.labels.values() if old and norm(old) == norm(label)}
        if len(found) == 1:
            return found.pop()
        short = re.sub(r"\d+$", "", label)
        found = [self.labels[p][1] for p in chain if self.labels[p][0] and norm(re.sub(r"\d+$", "", self.labels[p][0])) == norm(short)]
        if len(found) == 1:
            return found[0]
        self.say(f"no step {label} at {place}: {found}")
        return label

    def known(self, place, known):
        for p in self.chain(place):
            for k, name in self.typed.get(p, {}).items():
                if norm(k) == norm(known):
                    return name
        return None

    def body(self, place, text):
        """A term with the paths of today."""
        aliases = set()
        for m in re.finditer(r"\blet ([A-Za-z0-9_']+) = c((?:\.before)*) in\b", text):
            aliases.add(m[1])
        for a in aliases:
            text = re.sub(rf"\n?[ \t]*\blet {a} = c(?:\.before)* in\b", "", text)
            text = re.sub(rf"(?<![\w'.-]){re.escape(a)}\.(?=[A-Za-z])", "c.", text)
            if re.search(rf"(?<![\w'.-]){re.escape(a)}(?![\w'.-])", text):
                self.say(f"a place is handed on: {a}")
                text = re.sub(rf"(?<![\w'.-]){re.escape(a)}(?![\w'.-])", "c", text)

        for m in re.finditer(r"\blet ([A-Za-z0-9_']+) = (c(?:\.before)*\.([A-Za-z0-9_'-]+)(\.ensures)?) in\b", text):
            if m[3] in TOP or m[3] == "before" or re.search(rf"λ[^.]*(?<![\w'.-]){re.escape(m[1])}(?![\w'-])[^.]*\.", text):
                continue
            text = re.sub(rf"(?<![\w'.-]){re.escape(m[1])}\.(?=[A-Za-z0-9])", m[2] + ".", text)
            of = [p for p in self.chain(place) if self.labels[p][0] and norm(self.labels[p][0]) == norm(m[3])]
            if m[4] and of and self.clauses.get(of[0]) and len(re.findall(rf"(?<![\w'.-]){re.escape(m[1])}(?![\w'-])", text)) == 1:
                text = re.sub(rf"\n?[ \t]*{re.escape(m[0])}", "", text)

        def step(m):
            label, after = m[2], m[3].split(".")[1:]
            if label not in TOP:
                for p in self.chain(place):
                    if p not in self.arms:
                        continue
                    name, _, fields = self.arms[p]
                    fits = [(len(path), field) for field, of, path in fields if norm(of) == norm(label) and [norm(x) for x in after[: len(path)]] == [norm(x) for x in path]]
                    if fits:
                        n, field = max(fits)
                        return ".".join([f"c.{name}.{field}", *after[n:]])
            if label == "before":
                self.say("a place is handed on: " + m[0])
                return m[0]
            if label == "requires" and self.cycle:
                # the older clause had the measure's value in front of the function's own; omega knows that value now
                if after[:1] != ["1"]:
                    return "c.measure"
                after = after[1:]
            if label == "requires" and self.data["pre"] and after:
                after[0] = self.data["pre"]["fields"][int(after[0])] if isinstance(self.data["pre"], dict) and after[0].isdigit() else after[0]
            if label == "requires":
                return ".".join(["c.requires", *after])
            new = self.label(place, label, m[1].count("before"))
            of = [p for p in self.chain(place) if self.labels[p][0] and norm(self.labels[p][0]) == norm(label)]
            fields = self.clauses.get(of[0]) if of else None
            if of and after[:1] in (["new"], ["auto"]) and len(after) > 1 and after[1].isdigit():
                k = 1
                while k < len(after) and after[k] == "1":
                    k += 1
                names = self.data["params"].get(self.kind[of[0]][3] or "", [])
                if k < len(after) and after[k] == "0" and k - 1 < len(names):
                    return ".".join([f"c.{new}", after[0], names[k - 1], *after[k + 1 :]])
                self.say(f"no parameter for {m[0]}: {names}")
            if fields and after[:1] == ["ensures"]:
                if len(after) == 1:
                    whole = [f"c.{new}.ensures.{it}" for it in fields]
                    return "(" + ", (".join(whole) + ")" * len(whole)
                if after[1].isdigit():
                    k, i = 0, 1
                    while k < len(fields) - 1 and i < len(after) and after[i] == "1":
                        k, i = k + 1, i + 1
                    i += k < len(fields) - 1 and after[i : i + 1] == ["0"]
                    return ".".join([f"c.{new}.ensures.{fields[k]}", *after[i:]])
            if new.startswith("\0"):
                return f"c.type_inv.{self.known(place, label)}{m[3]}"
            return f"c.{new}{m[3]}"

        text = STEP.sub(step, text)
        if self.cycle:
            text = re.sub(r",\s*c\.measure(?=[,)])", "", text)
            text = re.sub(r"\bomega \((\w+)\)", r"omega \1", text)
            if "c.measure" in text:
                self.say("the measure's value is cited")
        calls = {p[2][1] for p in self.data["places"] if p[3]} | {p[3].split("::")[-1] for p in self.data["places"] if p[3]}

        def plain(m):
            # of a call's result the fact is plain today, of a field it is of its `not`
            fact = m[1] or m[2]
            of = re.match(r"c\.if-not-([\w-]+)\.", fact)[1]
            return fact if any(of == it or of.startswith(it + "-") for it in calls) else m[0]

        text = NEGATED.sub(plain, text)
        text = re.sub(r"(c\.type_inv\.[\w-]+)\.given\b", r"\1", text)
        if re.search(r"\bc\.before\b", text):
            self.say("a path by places is left")
        return text


def helpers_of(text, helpers):
    """The helpers that a text names, and those that they name."""
    below, more = [], True
    while more:
        more = False
        for n, t in helpers:
            if (n, t) not in below and re.search(rf"(?<![\w'.-]){re.escape(n)}(?![\w'-])", text + "\n".join(x for _, x in below)):
                below.append((n, t))
                more = True
    return below


def first_comment(text):
    """The comment at a file's head, or nothing."""
    first = re.match(r"((?:--[^\n]*\n)+)", text)
    return first[1] if first else ""


def turn(top, names, crate, inside):
    at = os.path.join(top, "crates", crate, "proofs", inside)
    with open(os.path.join(at, "Proof.antt"), encoding="utf-8") as file:
        text = file.read()
    key = f"Rattle-{crate}-proofs.{inside.replace('/', '.')}.Lts"
    if key not in names:
        return [f"{crate}::{inside}: no names for it: {key}"]
    it = Turn(names[key], crate, inside)
    _, old = blocks(old_text(top, crate, inside))
    head, decls = blocks(text)
    old_need = {}
    olds = [(n, re.search(r":\s*tie\.Need-([^\s]+)", t)) for n, t in old]
    olds = [m[1] for n, m in olds if m]
    ours = [n for n, t in decls if re.search(r":\s*tie\.Need-", t)]
    if len(olds) != len(ours):
        it.say(f"{len(ours)} goals, {len(olds)} in the older file")
    for n, need in zip(ours, olds):
        old_need[n] = need
    data = names[key]
    needs = [(o, n, place) for (o, n), (place, _) in zip(data["needs"], data["asked_at"])]
    taken, goal_of = set(), {}
    for n in ours:
        want = norm(old_need.get(n, n))
        for a, b in KINDS.items():
            want = re.sub("^" + norm(a) + "_", norm(b) + "_", want)
        want = re.sub("_(holds|less|again)$", lambda m: "_" + ENDS[m[1]], want)
        for i, (o, new, place) in enumerate(needs):
            if i not in taken and norm(o) == want:
                taken.add(i)
                goal_of[n] = (new, place)
                break
    # what is left, by its place in the order
    rest = [n for n in ours if n not in goal_of]
    for n in rest:
        k = ours.index(n)
        before = [i for i, (o, new, place) in enumerate(needs) if k and ours[k - 1] in goal_of and new == goal_of[ours[k - 1]][0]]
        nxt = before[0] + 1 if before else 0
        if nxt < len(needs) and nxt not in taken and norm(needs[nxt][0]).rsplit("_", 1)[-1] == norm(old_need.get(n, n)).rsplit("_", 1)[-1]:
            taken.add(nxt)
            goal_of[n] = needs[nxt][1:]
    loops = {norm(l[0][0]): (l, c) for l, c in zip(data["loops"], data["changed"])}
    answers, invariants, helpers = [], [], []
    for n, t in decls:
        if re.search(r":\s*tie\.Need-", t):
            if n not in goal_of:
                if not re.search(r"= *search rules\s*$", t):
                    it.say(f"no goal for {n} ({old_need.get(n)})")
                continue
            new, place = goal_of[n]
            lines = t.split("\n")
            comments = [l for l in lines if l.startswith("--")]
            code = "\n".join(l for l in lines if not l.startswith("--"))
            m = re.match(rf"(?s){re.escape(n)} : tie\.Need-[^\n]*\n((?:unfolding [^\n]*\n)?)(.*)$", code)
            if not m:
                it.say(f"a form of its own: {n}")
                continue
            eq = m[2]
            e = re.match(rf"(?s){re.escape(n)} ([^=\n]*?)\s*=(.*)$", eq)
            if not e:
                it.say(f"a form of its own: {n}")
                continue
            args = e[1].split()
            rhs = it.body(place, e[2])
            if re.fullmatch(r"\s*search rules\s*", rhs) and not m[1]:
                continue
            fields = data["asked"].get(needs[[x[1] for x in needs].index(new)][0])
            if fields:
                rhs = as_record(rhs, fields)
            if re.search(r"\bκs\b", rhs):
                it.say(f"κs in {n}")
            answers.append("\n".join(comments + [f"pub {new} : goal.{new}"] + ([m[1].rstrip()] if m[1] else []) + [f"{new} {' '.join(given(args))} ={rhs}"]))
        elif re.search(r":\s*tie\.(invariant|decreases)-", t):
            m = re.search(r"(?s)^(.*?)abbrev ((?:invariant|decreases)-(\S*)) : tie\.\S+\n\S+ ?([^=]*?)=(.*)$", t)
            if not m:
                it.say(f"a form of its own: {n}")
                continue
            loop = loops.get(norm(m[3])) or loops.get(norm(m[3].replace("-", "")))
            if not loop:
                it.say(f"no loop {m[3]}: {list(loops)}")
                continue
            invariants.append(loop_text(it, m, *loop))
        elif re.search(r":\s*.*\bstatement\b", t) and "tie.close" in t or n.endswith("-spec") and "tie.spec" in t:
            continue
        else:
            helpers.append((n, t))
    uses = [l for l in head if l.startswith("use ") and not re.search(r"\.(Statement\.\{statement\}|Tie as tie)$", l)]
    # helpers that invariants need
    inv = "\n".join(invariants)
    below = helpers_of(inv, helpers)
    comment = first_comment(text)
    os.makedirs(at, exist_ok=True)
    os.remove(os.path.join(at, "Proof.antt"))
    written = []
    if invariants:
        with open(os.path.join(at, "Invariants.antt"), "w", encoding="utf-8") as file:
            pubs = [re.sub(rf"(?m)^((?:abbrev |unfoldable )*)(?={re.escape(n)}\b)", r"\1pub ", t, count=1) if not re.search(rf"(?m)^(?:abbrev |unfoldable )*pub ", t) else t for n, t in helpers if (n, t) in below]
            file.write(comment + "\n".join(uses) + f"\nuse {it.path}.Given as goal\n\n" + "\n\n".join(pubs + invariants) + "\n")
        written.append("Invariants")
    rest = [(n, t) for n, t in helpers if (n, t) not in below]
    if answers or rest:
        own = f"use {it.path}.Invariants.{{{', '.join(n for n, _ in helpers if (n, _) in below)}}}\n" if below else ""
        with open(os.path.join(at, "Answers.antt"), "w", encoding="utf-8") as file:
            file.write(comment + "\n".join(uses) + "\n" + own + f"use {it.path}.Goals as goal\n\n" + "\n\n".join([t for _, t in rest] + answers) + "\n")
        written.append("Answers")
    if not written:
        os.rmdir(at)
    return it.said


def turn_cycle(top, names, crate, inside):
    """The proof of functions that call one another: one Invariants.antt and one Answers.antt for all of them."""
    at = os.path.join(top, "crates", crate, "proofs", inside)
    with open(os.path.join(at, "Proof.antt"), encoding="utf-8") as file:
        text = file.read()
    key = f"Rattle-{crate}-proofs.{inside.replace('/', '.')}.Lts-"
    its = {norm(k[len(key) :]): Turn(names[k], crate, f"{inside}: {k[len(key):]}", True) for k in names if k.startswith(key)}
    if not its:
        return [f"{crate}::{inside}: no names for it: {key}"]
    listed = subprocess.run(["git", "ls-tree", "-r", "--name-only", OLDER, f"crates/{crate}/proofs"], cwd=top, capture_output=True, text=True).stdout.split("\n")
    older = [os.path.dirname(x).split("/proofs/", 1)[1] for x in listed if x.endswith("/Proof.antt")]
    older = [x for x in older if x[:1] == "+" and "+" + x[1:].replace("+", "_") == inside]
    _, old = blocks(old_text(top, crate, older[0] if older else inside))
    head, decls = blocks(text)
    goals = r"(?s):\s*\(t : ℕ\) →\s*(\S+)-lts\.Need-(\S+)"
    olds = [m for m in (re.search(goals, t) for n, t in old) if m]
    ours = [(n, m) for n, m in ((n, re.search(goals, t)) for n, t in decls) if m]
    said = [] if len(olds) == len(ours) else [f"{crate}::{inside}: {len(ours)} goals, {len(olds)} in the older file"]
    want = {}
    for i, (n, m) in enumerate(ours):
        need = olds[i][2] if len(olds) == len(ours) and norm(olds[i][1]) == norm(m[1]) else m[2]
        want[n] = (norm(m[1]), need)
    goal_of, taken = {}, set()
    for n, (fn, need) in want.items():
        data = its[fn].data
        w = norm(need)
        for a, b in KINDS.items():
            w = re.sub("^" + norm(a) + "_", norm(b) + "_", w)
        w = re.sub("_(holds|less|again)$", lambda m: "_" + ENDS[m[1]], w)
        for i, ((o, new), (place, _)) in enumerate(zip(data["needs"], data["asked_at"])):
            if (fn, i) not in taken and norm(o) in (w, w.removeprefix("overflow_")):
                taken.add((fn, i))
                goal_of[n] = (fn, o, new, place)
                break
    answers, invariants, measures, helpers, uses_in = [], [], [], [], []
    for n, t in decls:
        comments = [l for l in t.split("\n") if l.startswith("--")]
        code = "\n".join(l for l in t.split("\n") if not l.startswith("--"))
        if n in want:
            fn, need = want[n]
            it = its[fn]
            stem = it.data["stem"]
            if n not in goal_of:
                if not re.search(r"= *(search rules|tt)\s*$", t):
                    it.say(f"no goal for {n} ({need})")
                continue
            _, o, new, place = goal_of[n]
            m = re.search(rf"(?ms)^((?:unfolding [^\n]*\n)?){re.escape(n)} ([^=\n:]*?)\s*=(.*)$", code)
            if not m:
                it.say(f"a form of its own: {n}")
                continue
            args = m[2].split()
            if m[3].strip() == "tt" or m[3].strip() == "search rules" and not m[1]:
                continue
            rhs = it.body(place, m[3])
            fields = it.data["asked"].get(o)
            if fields:
                rhs = as_record(rhs, fields)
            if re.search(r"\bκs\b", rhs):
                it.say(f"κs in {n}")
            answers.append("\n".join(comments + [f"pub {stem}{new} : goal.{stem}{new}"] + ([m[1].rstrip()] if m[1] else []) + [f"{stem}{new} {' '.join(given(args))} ={rhs}"]))
            continue
        m = re.search(r"(?ms)^abbrev (\S+) : (\S+)-lts\.(invariant|decreases)-(\S+)\s*\n\1 ?([^=]*?)=(.*)$", code)
        if m and norm(m[2]) in its:
            it = its[norm(m[2])]
            loops = {norm(l[0][0]): (l, c) for l, c in zip(it.data["loops"], it.data["changed"])}
            loop = loops.get(norm(m[4])) or loops.get(norm(m[4].replace("-", "")))
            if not loop:
                it.say(f"no loop {m[4]}: {list(loops)}")
                continue
            invariants.append(loop_text(it, [None, None, f"{m[3]}-", None, m[5], m[6]], *loop, stem=it.data["stem"]))
            continue
        m = re.search(r"(?ms)^abbrev μ-(\S+) : Measures .*?\nμ-\1 κs a =(.*)$", code)
        if m and norm(m[1]) in its:
            it = its[norm(m[1])]
            name = next(k[len(key) :] for k in names if k.startswith(key) and norm(k[len(key) :]) == norm(m[1]))
            params = next((x.data["params"][f"{crate}::{name}"] for x in its.values() if f"{crate}::{name}" in x.data["params"]), None)
            if not params:
                it.say(f"no parameters known of {name}")
                continue

            def place_of(w):
                k = w[1].count("1")
                if k >= len(params) or not w[2]:
                    it.say(f"a form of its own in the measure: {w[0]}")
                    return w[0]
                return f"l.{params[k]}"

            term = re.sub(r"(?<![\w'.-])a((?:\.1)*)(\.0)?(?![\w'-])", place_of, m[2])
            measures.append(f"abbrev pub decreases-{name} : goal.decreases-{name}\ndecreases-{name} l ={term}")
            continue
        if re.search(r"(?m)^(abbrev )?\S+[-_](at|below|claims) :", code) and re.search(r": ℕ →\s*(In \d|\S+-lts\.Claims)", code) or re.search(r"\bstatement\b", code):
            continue
        helpers.append((n, t))
    gone = re.compile(r"\.Kinds as |\.Reads as |\.Lts-\S+ as |^use borrow\.Fn\.(Kinds|PlainCycle)\.|" + re.escape(inside) + r"\.(\{|Tie\.)")
    heads = re.sub(r"\{\s*([^}]*?),?\s*\}", lambda m: "{" + re.sub(r"\s+", " ", m[1]) + "}", "\n".join(whole_uses(text)))
    uses = [l for l in heads.split("\n") if l.startswith("use ") and not gone.search(l)]
    inv = "\n".join(invariants + measures)
    below = helpers_of(inv, helpers)
    comment = first_comment(text)
    path = f"Rattle.{crate}.proofs.{inside.replace('/', '.')}"
    os.remove(os.path.join(at, "Proof.antt"))
    pubs = [re.sub(rf"(?m)^((?:abbrev |unfoldable )*)(?={re.escape(n)}\b)", r"\1pub ", t, count=1) if not re.search(r"(?m)^(?:abbrev |unfoldable )*pub ", t) else t for n, t in helpers if (n, t) in below]
    with open(os.path.join(at, "Invariants.antt"), "w", encoding="utf-8") as file:
        file.write(comment + "\n".join(uses_of(uses, "\n".join(pubs + invariants + measures))) + f"\nuse {path}.Given as goal\n\n" + "\n\n".join(pubs + measures + invariants) + "\n")
    rest = [t for n, t in helpers if (n, t) not in below]
    if answers or rest:
        own = f"use {path}.Invariants.{{{', '.join(n for n, _ in helpers if (n, _) in below)}}}\n" if below else ""
        with open(os.path.join(at, "Answers.antt"), "w", encoding="utf-8") as file:
            file.write(comment + "\n".join(uses_of(uses, "\n".join(rest + answers))) + "\n" + own + f"use {path}.Goals as goal\n\n" + "\n\n".join(rest + answers) + "\n")
    return said + [x for it in its.values() for x in it.said]


def whole_uses(text):
    """The `use` lines of a file, each on one line."""
    return [re.sub(r"\s+", " ", m[0]) for m in re.finditer(r"(?m)^use [^\n{]*(?:\{[^}]*\})?(?: as \S+)?", text)]


def uses_of(uses, body):
    """The `use` lines that a file's text needs."""
    kept = []
    for line in uses:
        m = re.fullmatch(r"(use .*\.)\{(.*)\}", line)
        if not m:
            kept.append(line)
            continue
        names = []
        for name in [x.strip() for x in m[2].split(",") if x.strip()]:
            shown = name.split(" as ")[-1]
            parts = [p for p in re.split("◌", shown) if p]
            fits = all(p in body for p in parts) if "◌" in shown else re.search(rf"(?<![\w'.-]){re.escape(shown)}(?![\w'-])", body)
            if fits:
                names.append(name)
        if names:
            kept.append(m[1] + "{" + ", ".join(names) + "}")
    return kept


def top_parts(text, mark):
    """Where `mark` stands outside all brackets."""
    depth, found, i = 0, [], 0
    while i < len(text):
        depth += {"(": 1, "[": 1, "{": 1, ")": -1, "]": -1, "}": -1}.get(text[i], 0)
        if not depth and text.startswith(mark, i):
            found.append(i)
        i += 1
    return found


def as_record(body, fields):
    """A product of facts as a record with the clauses' names."""
    cut = 0
    for m in re.finditer(r"\bin\b(?=\s)", body):
        before = body[: m.start()]
        if not sum({"(": 1, "[": 1, "{": 1, ")": -1, "]": -1, "}": -1}.get(x, 0) for x in before):
            cut = m.end()
    lead, last = body[:cut], body[cut:].strip()
    if last.startswith(("elim", "search", "record", "omega", "grind", "absurd")):
        return body
    parts = None
    if last.startswith("(") and last.endswith(")"):
        inner, depth, whole = last[1:-1].strip().removesuffix(","), 0, True
        for x in inner:
            depth += {"(": 1, "[": 1, "{": 1, ")": -1, "]": -1, "}": -1}.get(x, 0)
            whole = whole and depth >= 0
        if whole:
            inner = inner.rstrip()
            inner = inner[:-1] if inner.endswith(",") else inner
            at = top_parts(inner, ",")
            if len(at) >= len(fields) - 1 and at:
                at = at[: len(fields) - 1]
                parts = [inner[a:b].strip() for a, b in zip([0, *[x + 1 for x in at]], [*at, len(inner)])]
                if inner[at[-1] + 1 :].count(",") and len(top_parts(inner, ",")) > len(fields) - 1:
                    parts[-1] = f"({parts[-1]})"
            elif len(at) == 1 and len(fields) > 2:
                rest = as_record(inner[at[0] + 1 :], fields[1:])
                m = re.fullmatch(r"\s*record \{ (.*) \}", rest, re.S)
                if m:
                    return f"{lead} record {{ {fields[0]} = {inner[: at[0]].strip()}; {m[1]} }}"
    if not parts:
        n = len(fields)
        parts = [f"({last})" + ".1" * i + (".0" if i < n - 1 else "") for i in range(n)]
    return f"{lead} record {{ " + "; ".join(f"{f} = {x}" for f, x in zip(fields, parts)) + " }"


def with_other_binder(body, name):
    """The body with another name where a λ binds this one again."""
    while True:
        m = re.search(rf"λ ((?:[^.()]|\([^()]*\))*?)(?<![\w'.-]){re.escape(name)}(?![\w'₀-₉-])([^.]*)\.(?=\s)", body)
        if not m:
            return body
        depth, end = 0, m.end()
        while end < len(body) and depth >= 0:
            depth += {"(": 1, "[": 1, "{": 1, ")": -1, "]": -1, "}": -1}.get(body[end], 0)
            end += 1
        inner = body[m.start() : end - (depth < 0)]
        body = body[: m.start()] + re.sub(rf"(?<![\w'.₀-₉-]){re.escape(name)}(?![\w'₀-₉-])", name + "'", inner) + body[end - (depth < 0) :]


def given(args):
    """The arguments of an answer: without the lifetimes."""
    return [it for it in args if it != "κs"] or ["c"]


def loop_text(it, m, loop, changed, stem=""):
    """An invariant or a measure over the record of the variables, from one over the variables in a row."""
    name, args, body = m[2].split("-")[0], m[4].split(), m[5]
    (old, new), names = loop
    new = stem + new
    now = [n for n, c in zip(names, changed) if c]
    if len(args) != len(names) + len(now):
        it.say(f"loop {new}: {args} for {names}, of which {now} change")
        return f"abbrev pub {name}-{new} : goal.{name}-{new}\n{name}-{new} l ={body}"
    to = {a: f"l.initial.{n}" if c else f"l.{n}" for a, n, c in zip(args, names, changed)}
    to |= {a: f"l.{n}" for a, n in zip(args[len(names) :], now)}
    for a in to:
        body = with_other_binder(body, a)
        if a != "_" and re.search(rf"λ (?:[^.]* )?\(?{re.escape(a)}[ .:)]|\({re.escape(a)} :|let {re.escape(a)} ", body):
            it.say(f"loop {new}: {a} is bound again")
    text = re.sub(r"(?<![\w'₀-₉.-])([A-Za-z_][\w'₀-₉-]*)", lambda w: to.get(w[1], w[1]), body)
    return f"abbrev pub {name}-{new} : goal.{name}-{new}\n{name}-{new} l ={text}"


def main(argv):
    folder, crate, *only = argv
    top = subprocess.run(["git", "rev-parse", "--show-toplevel"], capture_output=True, text=True).stdout.strip()
    with open(os.path.join(folder, "names.json"), encoding="utf-8") as file:
        names = json.load(file)
    proofs = os.path.join(top, "crates", crate, "proofs")
    for at, _, files in sorted(os.walk(proofs)):
        inside = os.path.relpath(at, proofs)
        if "Proof.antt" in files and (not only or inside in only):
            for line in (turn_cycle if os.path.basename(inside)[:1] == "+" else turn)(top, names, crate, inside):
                print(line)


if __name__ == "__main__":
    main(sys.argv[1:])
