#!/usr/bin/env python3
"""respell.py [FOLDER]: brings the repository's own definitions and lemmas to snake case, in crates/*/{specs,proofs,src} of FOLDER.

Run once, after the kit's port.py. A word that begins with a small letter and has capitals further on is turned (`wordAt` to `word_at`), also
a part of a lemma's name between dashes; so is a dash in a name that specs/ defines (`path-emit` to `path_emit`). Text in quotes, types, modules
and Rust names stay. The choice between two values is
the library's, which base copied. --report prints names that fall together with others, and writes nothing.
"""
import os
import re
import sys

WORD = re.compile(r"""(?P<text>"(?:\\.|[^"\\])*")|(?P<word>[A-Za-z_◌][\w'₀-₉◌-]*)""")
DEFINED = re.compile(r"(?m)^\s*(?:(?:pub|abbrev|unfoldable|opaque|data|record|mutual|where)\s+)*([^\s:(){},;.]+)(?:\s+(?:\{[^}]*\}|\([^)]*\)))*\s*:(?=\s)")
# Names that the check makes of Rust names, as steps of a proof: a file that cites them is written anew.
MADE = {"is_Known", "is_Block", "read_Walk"}
# Where the new spelling is taken by a definition: another name.
TAKEN = {
    "is-call": "is_called",
    "is-over": "is_over_lem",
    "a-number": "a_numeral",
    "a-constant": "one_constant",
    "a-rule": "one_rule",
    "a-spelling": "one_spelling",
    "a-value": "one_value",
    "an-entry": "one_entry",
    "an-operation": "one_operation",
    "an-operator": "one_operator",
    "in-cycle": "inside_cycle",
    "in-otherwise": "inside_otherwise",
    "is-choice": "is_a_choice",
    "is-file": "is_a_file",
    "operation-in": "operation_inside",
    "rule-in": "rule_inside",
    "past-names": "past_names_lem",
    "some-operators": "some_operators_lem",
    "walk-bytes": "walk_bytes_lem",
}
# Where it is taken by a lemma: the lemma gets `_lem`. Each name with the folders or files in which it is that lemma.
LEMMAS = {
    "all_give": ["crates/cases/"],
    "all_hold": ["crates/cases/", "crates/ownwalk/"],
    "all_sound": ["crates/loading/proofs/Exact"],
    "as_one": ["crates/"],
    "a_word": ["crates/objects/"],
    "at_rest": ["crates/walker/"],
    "back_at": ["crates/meter/proofs/Stands"],
    "is_word": ["crates/parts/"],
    "labelled_by": ["crates/precedence/"],
    "name_by": ["crates/rulerows/"],
    "names_in": ["crates/parts/proofs/Blank"],
    "of_part": ["crates/parts/"],
    "one_each": ["crates/parts/", "crates/partpairs/"],
    "one_more": ["crates/walker/"],
    "one_name": ["crates/"],
    "past_all": ["crates/"],
    "same_end": ["crates/figure/"],
    "same_key": ["crates/figure/"],
    "some_words": ["crates/objects/"],
    "starts_from": ["crates/meter/"],
    "text_at": ["crates/linker/"],
    "the_word": ["crates/objects/"],
    "to_end": ["crates/finishing/"],
}


def turned_part(part):
    if not re.match(r"[a-z]", part) or not re.search(r"[A-Z]", part):
        return part
    return re.sub(r"(?<=[a-z0-9'₀-₉])([A-Z])", lambda m: "_" + m[1].lower(), part)


def turned(word, dashed):
    if word in MADE or word.startswith(("Need-", "After-", "Then-", "Else-", "At-")):
        return word
    if word in TAKEN and word in dashed:
        return TAKEN[word]
    new = "-".join(turned_part(part) for part in word.split("-"))
    return new.replace("-", "_") if word in dashed else new


def files(top):
    for at, folders, names in os.walk(os.path.join(top, "crates")):
        folders[:] = sorted(it for it in folders if it not in ("out", "must-fail"))
        for name in sorted(names):
            if name.endswith((".antt", ".rt")):
                yield os.path.join(at, name)


def blank(text):
    return re.sub(r'"(?:\\.|[^"\\])*"|--[^\n]*', " ", text)


def dashed_names(top):
    found = set()
    for path in files(top):
        if "/specs/" in path:
            with open(path, encoding="utf-8") as file:
                found |= {it for it in DEFINED.findall(blank(file.read())) if "-" in it and re.match(r"[a-z]", it)}
    return found


def clause_parts(text):
    """Splits a Rust file into parts that are clauses (or ghost imports) and parts that are not."""
    at = 0
    for m in re.finditer(r"(?m)^\s*ghost use [^;]*;|\b(?:requires|ensures|ghost)\b[^{};]*\{|//[^\n]*", text):
        if m.start() < at:
            continue
        if not m[0].endswith("{"):
            yield text[at : m.start()], False
            yield m[0], True
            at = m.end()
            continue
        depth, end = 1, m.end()
        while depth and end < len(text):
            depth += {"{": 1, "}": -1}.get(text[end], 0)
            end += 1
        yield text[at : m.start()], False
        yield text[m.start() : end], True
        at = end
    yield text[at:], False


def turned_text(text, dashed, path):
    def to(m):
        if m["text"]:
            return m[0]
        if any(it in path for it in LEMMAS.get(m[0], [])) and "/specs/" not in path:
            return m[0] + "_lem"
        return turned(m[0], dashed)

    return WORD.sub(to, text)


def with_the_library_choice(text):
    """Takes `if◌then◌else◌` from the library in the place of the copy of it in base."""
    name = "if◌then◌else◌"
    if "\nabbrev pub " + name in text:
        text = re.sub(r"\ninfixr 10 if◌then◌else◌\nabbrev pub if◌then◌else◌ [^\n]*\nif true [^\n]*\nif false [^\n]*\n", "\n", text)
        return text.replace("Prelude.{", "Prelude.{" + name + ", ", 1)
    m = re.search(r"(?m)^((?:ghost )?use )Rattle\.base\.specs\.Common\.\{([^}]*)\}(;?)\n", text)
    if not m or name not in m[2].split(", "):
        return text
    rest = [it for it in m[2].split(", ") if it != name]
    own = f"{m[1]}Rattle.base.specs.Common.{{{', '.join(rest)}}}{m[3]}\n" if rest else ""
    text = text[: m.start()] + own + text[m.end() :]
    there = re.search(r"(?m)^(?:ghost )?use Rattle\.std\.specs\.Prelude\.\{[^}]*", text)
    if there:
        return text[: there.end()] + ", " + name + text[there.end() :]
    return text[: m.start()] + f"{m[1]}Rattle.std.specs.Prelude.{{{name}}}{m[3]}\n" + text[m.start() :]


def main(argv):
    report = "--report" in argv
    top = next((it for it in argv if not it.startswith("--")), ".")
    dashed = dashed_names(top)
    words, new = {}, {}
    for path in files(top):
        with open(path, encoding="utf-8") as file:
            text = file.read()
        parts = [(text, True)] if path.endswith(".antt") else list(clause_parts(text))
        out = "".join(turned_text(it, dashed, path) if is_clause else it for it, is_clause in parts)
        for it, is_clause in parts:
            if is_clause:
                for m in WORD.finditer(it):
                    if not m["text"] and not any(it in path for it in LEMMAS.get(m[0], [])):
                        words.setdefault(m[0], set()).add(path)
                        to = turned(m[0], dashed)
                        if to != m[0]:
                            new.setdefault(to, {}).setdefault(m[0], set()).add(path)
        out = with_the_library_choice(out)
        if out != text and not report:
            with open(path, "w", encoding="utf-8") as file:
                file.write(out)
    for to, olds in sorted(new.items()):
        if len(olds) > 1 or to in words:
            places = {it: len(at) for it, at in olds.items()}
            both = set().union(*olds.values()) & words.get(to, set())
            at = list(olds.values())
            both |= {it for i, a in enumerate(at) for b in at[i + 1 :] for it in a & b}
            print(f"falls together: {to}: {places}, before in {len(words.get(to, set()))} files, both in {len(both)}: {sorted(both)[:3]}")


if __name__ == "__main__":
    main(sys.argv[1:])
