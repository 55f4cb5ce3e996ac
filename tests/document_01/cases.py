#!/usr/bin/env python3
"""Writes crates/document_01/stdin and stdout: what is asked about texts of document 01, and what must be answered.

The answers come from a second reading of document 01 that shares nothing with the tool chain: `reading` has its sections 2 and 3, `rules` section 4,
`meaning` section 5. `read_cases`, `check_cases` and `run_cases` say what the lines ask. Run it again after a change; it must leave both files as they
are (`--check` says whether it would).

A line of stdin is `"` and a title, or a letter, numbers in hex and a text. In a text `\\` begins `\\n`, `\\t`, `\\r`, `\\\\`, `\\xHH`, a mark `\\(`, or `\\)`
with a number in hex and `;`: what was written since the mark, so many times in all.
"""
import os
import sys

import asking
import check_cases
import read_cases
import run_cases

for cases in (read_cases, check_cases, run_cases): cases.cases()

here = os.path.join(os.path.dirname(os.path.abspath(__file__)), "..", "..", "crates", "document_01")
for file, lines in (("stdin", asking.asks), ("stdout", asking.answers)):
    text = "\n".join(lines) + "\n"
    path = os.path.join(here, file)
    if "--check" in sys.argv[1:]:
        if open(path).read() != text:
            sys.exit("document_01/%s is not what the cases make" % file)
    else:
        with open(path, "w") as out:
            out.write(text)
