#!/usr/bin/env python3
"""edits.py TURNED INDEX: writes the edit files anew in today's spelling.

TURNED is a checkout in which port.py and respell.py ran over each file and, beside it, over the file as an edit changes it; INDEX lists (edit, file, the
file as changed). The lines that differ there are the edit's pairs here. What does not stand once in today's file is said.
"""
import difflib
import json
import os
import re
import subprocess
import sys


def pairs(before, after, now, say):
    a, b = before.split("\n"), after.split("\n")
    found = []
    for kind, i, j, k, l in difflib.SequenceMatcher(None, a, b, autojunk=False).get_opcodes():
        if kind == "equal":
            continue
        olds, news = a[i:j], b[k:l]
        if kind == "insert" or len(olds) != len(news) and not (len(news) < len(olds)):
            say(f"lines {olds} become {news}")
            return None
        news += [""] * (len(olds) - len(news))
        for old, new in zip(olds, news):
            if old == new:
                continue
            lead = len(old) - len(old.lstrip())
            if new and new[:lead] == old[:lead]:
                old, new = old[lead:], new[lead:]
            elif not new:
                old = old.lstrip()
            if now.count(old) != 1 and lead:
                say(f"stands {now.count(old)} times: {old}")
                return None
            if now.count(old) != 1:
                say(f"stands {now.count(old)} times: {old}")
                return None
            # what is the same at the ends of a long line goes, as long as the rest stands once
            s = 0
            while s < min(len(old), len(new)) and old[s] == new[s]:
                s += 1
            e = 0
            while e < min(len(old), len(new)) - s and old[-1 - e] == new[-1 - e]:
                e += 1
            words = [m.start() for m in re.finditer(r"(?<=\s)\S", old)]
            starts = [0] + [w for w in words if w <= s]
            ends = [w for w in words if w > len(old) - e] + [len(old)]
            best = (old, new)
            if len(old) > 100 and new:
                for x in reversed(starts):
                    done = False
                    for y in ends:
                        cut = old[x:y].rstrip()
                        if cut.strip() and now.count(cut) == 1 and len(cut) >= 30:
                            tail = len(old) - x - len(cut)
                            best = (cut, new[x : len(new) - tail])
                            done = True
                            break
                    if done:
                        break
            found.append(best)
    return found


def main(turned, index):
    top = subprocess.run(["git", "rev-parse", "--show-toplevel"], capture_output=True, text=True).stdout.strip()
    with open(index) as file:
        entries = json.load(file)
    by = {}
    for edit, path, changed in entries:
        by.setdefault(edit, {})[path] = changed
    done = bad = 0
    for edit, of in sorted(by.items()):
        with open(os.path.join(top, edit), encoding="utf-8") as file:
            lines = file.read().split("\n")
        said = []
        new_pairs = {}
        for path, changed in of.items():
            try:
                now = open(os.path.join(top, path), encoding="utf-8").read()
            except OSError:
                said.append(f"no {path}")
                continue
            found = pairs(open(os.path.join(turned, path)).read(), open(os.path.join(turned, changed)).read(), now, said.append)
            if found == []:
                said.append(f"{path}: no change")
            new_pairs[path] = found
        if said:
            bad += 1
            for s in said:
                print(f"{edit}: {s[:400]}")
            continue
        parts = edit.split("/")
        base = os.path.join(*parts[:2]) if parts[0] == "crates" else os.path.join("crates", parts[2]) if parts[1] == "edits" else ""
        out, current, written = [], None, set()
        for line in lines:
            if line.startswith("file: "):
                current = os.path.normpath(os.path.join(base, line[6:]))
                out.append(line)
                if current not in written:
                    written.add(current)
                    for old, new in new_pairs[current]:
                        out += [f"old: {old}", f"new: {new}".rstrip()]
            elif not line.startswith(("old: ", "new:")):
                out.append(line)
        with open(os.path.join(top, edit), "w", encoding="utf-8") as file:
            file.write("\n".join(out))
        done += 1
    print(f"{done} edits written, {bad} left")


if __name__ == "__main__":
    main(*sys.argv[1:])
