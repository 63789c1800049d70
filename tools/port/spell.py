#!/usr/bin/env python3
"""Spells this repository's own definitions and lemmas as today's Rattle does, after /opt/rattle/port/port.py.

usage: python3 tools/port/spell.py     at the top of a checkout in which port.py ran and nothing else did

spell.tsv beside it has a row for each name: old, a tab, new. Where a lemma would meet a definition it gets `_lem`.
LOCAL has names that port.py gave and that would meet a definition, each in the one file that has them.
"""
import os
import re
import subprocess
import sys

HERE = os.path.dirname(os.path.realpath(__file__))
SNAKE = "/opt/rattle/port/notes/2026-11-18-names-are-in-snake-case/snake.py"
LOCAL = [
    ("crates/moves/proofs/Refusals.antt", "in_then"),
    ("crates/moves/proofs/Stopping.antt", "by_zero"),
    ("crates/decide/proofs/Mapped.antt", "head_in"),
    ("crates/names/proofs/NamesCases.antt", "free_array"),
    ("crates/fits/proofs/FitsLaw.antt", "fits_in"),
]

for path, name in LOCAL:
    with open(path, encoding="utf-8") as f:
        text = f.read()
    with open(path, "w", encoding="utf-8") as f:
        f.write(re.sub(rf"(?<![\w'-]){name}(?![\w'-])", name + "_lem", text))
targets = ["crates", "docs", "README.md"]
sys.exit(subprocess.run([sys.executable, SNAKE, "--table", os.path.join(HERE, "spell.tsv"), "--only", "antt,rt,md", *targets]).returncode)
