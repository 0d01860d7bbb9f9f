#!/usr/bin/env python3
"""names.py TABLE FILE..: brings the names of definitions and lemmas that pages cite in backquotes to today's spelling, by a table of lines
`crate<TAB>file<TAB>old<TAB>new` (docs/port-names.tsv). A name that has two new spellings is left and said."""
import collections
import re
import sys

table, *pages = sys.argv[1:]
to = collections.defaultdict(set)
with open(table, encoding="utf-8") as file:
    for line in file:
        if not line.startswith("#") and line.count("\t") == 3:
            _, _, old, new = line.rstrip("\n").split("\t")
            to[old].add(new)
for page in pages:
    with open(page, encoding="utf-8") as file:
        text = file.read()

    def named(m):
        if len(to.get(m[0], ())) > 1:
            print(f"{page}: {m[0]} is {' or '.join(sorted(to[m[0]]))}")
            return m[0]
        return next(iter(to.get(m[0], {m[0]})))

    out = re.sub(r"`[^`\n]*`", lambda span: re.sub(r"[A-Za-z_][\w'′₀-₉-]*", named, span[0]), text)
    if out != text:
        with open(page, "w", encoding="utf-8") as file:
            file.write(out)
