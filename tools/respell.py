"""Brings the repository's own definitions and lemmas to the spelling of today's Rattle, by the list beside this script.

usage: python3 tools/respell.py [FOLDER]

Run once, at the top of the repository or of FOLDER, right after the kit's port.py. It turns the names of respell.names in
specs/, proofs/ and the clauses and `ghost use` lines of src/, writes the line that asks the check to try its tactics, and
leaves strings, exported names and functions as they are. A name with a capital stands in no code, so it is turned in
comments too; one with a dash may be a word of English there, and is turned in a comment between backticks or behind `#` alone.
"""
import glob
import os
import re
import sys

HERE = os.path.dirname(os.path.realpath(__file__))
TOKEN = re.compile(r"[^\s(){}\[\];,.\"`⟨⟩#]+")
CITED = re.compile(r"(?<=[`#])[^\s`#(),;:]+")
TACTICS = "#![tactic(auto)]\n"


def names():
    with open(os.path.join(HERE, "respell.names"), encoding="utf-8") as lines:
        return dict(line.split() for line in lines)


def turned(line, new, comment, code):
    """A line with its names turned: all of them in clauses and proofs, those with a capital in code and comments."""
    cut = line.find(comment)
    text, said = (line, "") if cut < 0 else (line[:cut], line[cut:])
    whole = {old: name for old, name in new.items() if not (code and "-" in old)}
    text = TOKEN.sub(lambda found: whole.get(found.group(), found.group()), text)
    said = TOKEN.sub(lambda found: new.get(found.group(), found.group()) if "-" not in found.group() else found.group(), said)
    return text + CITED.sub(lambda found: new.get(found.group(), found.group()), said)


def clause(line):
    return re.match(r"\s*(ghost |requires|ensures|×|→|\{ ?let )", line) or "≡" in line or "ghost use" in line


def respell(path, new):
    with open(path, encoding="utf-8") as file:
        text = file.read()
    lines = text.split("\n")
    if path.endswith(".antt"):
        lines = [turned(line, new, "--", False) for line in lines]
    else:
        lines = [turned(line, new, "//", not clause(line)) for line in lines]
    done = "\n".join(lines)
    if os.path.basename(path) in ("lib.rt", "main.rt") and TACTICS not in done:
        head = re.match(r"(?:\s*//[^\n]*\n)*", done).end()
        done = done[:head] + TACTICS + "\n" + done[head:].lstrip("\n")
    if done != text:
        with open(path, "w", encoding="utf-8") as file:
            file.write(done)
    return done != text


def main():
    top = sys.argv[1] if len(sys.argv) > 1 else "."
    new = names()
    paths = [path for kind in ("src", "specs", "proofs") for ending in ("rt", "antt")
             for path in glob.glob(os.path.join(top, "crates", "*", kind, "**", "*." + ending), recursive=True)]
    print("respell: %d of %d files changed" % (sum(respell(path, new) for path in sorted(paths)), len(paths)))


main()
