"""Tests that what docs/PROOFS.md and the mutations name exists."""
import glob
import os
import re
import sys

sys.dont_write_bytecode = True
from traces import ROOT, check  # noqa: E402


def definition_files():
    """docs/PROOFS.md names definition files that exist, each with its number of lines that are not empty, and the total number of lines of each of its lists.
    docs/DEFINITIONS.md says what each file of these lists defines."""
    with open(os.path.join(ROOT, "docs", "PROOFS.md"), encoding="utf-8") as page:
        text = page.read()
    # A crate and its files, in a row of a table or in a sentence.
    crates = re.compile(r"`(cops\w*)`(?::| \|)((?:\s\w+ \d+,?)+)")
    named = re.compile(r"(\w+) (\d+)")
    files = [(crate, name, int(lines)) for crate, names in crates.findall(text) for name, lines in named.findall(names)]
    check("the page of proofs names files", len(files) > 100, True)
    check("it names each once", len({it[:2] for it in files}), len(files))
    check("each is one of a crate", len(re.findall(r"\b[A-Z]\w+ \d+", text)), len(files))
    for crate, name, lines in files:
        with open(os.path.join(ROOT, "crates", crate, "specs", f"{name}.antt"), encoding="utf-8") as file:
            check(f"the lines of {crate}/specs/{name}.antt", sum(1 for line in file if line.strip()), lines)
    lists = re.findall(r"these files, (\d+) lines.*?\n\n(.*?)\n\n", text, re.DOTALL)
    check("the page has three lists of what is to be believed", len(lists), 3)
    with open(os.path.join(ROOT, "docs", "DEFINITIONS.md"), encoding="utf-8") as page:
        defined = re.findall(r"^\| `(cops\w*)` \| `(\w+)` \| \w", page.read(), re.MULTILINE)
    for stated, rows in lists:
        found = [(crate, name, int(lines)) for crate, names in crates.findall(rows) for name, lines in named.findall(names)]
        check("the lines of a list", sum(lines for *_, lines in found), int(stated))
        check("the page of definitions has the files of a list", [it[:2] for it in found if it[:2] not in defined], [])
    whole = int(re.search(r"which makes (\d+) for the whole promise", text)[1])
    check("the lines of the lists together", sum(int(stated) for stated, _ in lists), whole)


def mutations():
    """Each mutation can be applied, also those that the gate does not try: the text that it replaces occurs in its file exactly once."""
    paths = sorted(glob.glob(os.path.join(ROOT, "crates", "*", "must-fail", "*.edit")) + glob.glob(os.path.join(ROOT, "crates", "*", "tried", "*.edit")))
    check("there are mutations", len(paths) > 0, True)
    for path in paths:
        crate, source = os.path.dirname(os.path.dirname(path)), ""
        with open(path, encoding="utf-8") as file:
            lines = file.read().split("\n")
        for line in lines:
            word, _, text = line.partition(": ")
            if word == "file":
                with open(os.path.join(crate, text), encoding="utf-8") as file:
                    source = file.read()
            elif word == "old":
                check(f"{os.path.relpath(path, ROOT)} finds its place", source.count(text), 1)
                source = source.replace(text, "")
