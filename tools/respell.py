#!/usr/bin/env python3
"""Spells the repository's own definitions and lemmas in snake case, as the installed Rattle wants them.

usage: python3 tools/respell.py        at the top of the repository, once, after the kit's port script

A name is the repository's own where a file of specs/ or proofs/ declares it. Names that Rattle makes for goals,
loops and calls keep their dashes, since the check gives them; so does what a library declares, and what stands in
a string, a comment or a line of code. It says where two names of one file fall together. It touches .antt files, the ghost
items and clauses of .rt files, and names between backquotes in README.md and docs/.
"""

import os
import re
import sys

MADE = re.compile(
    r"^(returns|loop|invariant|invariant_of|decreases|overflow|overflow_\w+|split_at|move_down|listed|bounds|termination|borrow|ghost|in|if|then|else|shift|cast)(-|$)|-requires$|^witness")
TOKEN = re.compile(r"[^\s(){}\[\],;.⌜⌝«»`\"'λ]+'*")
HEAD = re.compile(r"^\s*(?:(?:pub|abbrev|unfoldable|record|data)\s+)*([^\s(){}:,.]+)\s*(?:\([^=]*\)\s*|\{[^=]*\}\s*)*:\s")
LOCAL = re.compile(r"(?:\blet\s+|[({]\s*)([^\s(){}:,.=]+)\s*(?::\s|=)")

# Names of the repository that only look like those that Rattle makes.
OWN = {"in-bucket", "in-has", "in-stock", "in-words-below"}


def snake(name):
    name = re.sub(r"([a-z0-9])([A-Z])", lambda m: m.group(1) + "_" + m.group(2).lower(), name)
    return re.sub(r"(?<=[\w'])-(?=\w)", "_", name).replace("′", "'")


def is_own(name):
    return bool(re.match(r"\w", name)) and not name[0].isupper() and snake(name) != name and (name in OWN or not MADE.search(name))


def files(root):
    for folder, dirs, names in os.walk(os.path.join(root, "crates")):
        dirs[:] = sorted(d for d in dirs if d != "out")
        for name in sorted(names):
            if name.endswith((".antt", ".rt")):
                yield os.path.join(folder, name)


def code_of(line):
    return line.split("--", 1)[0] if "--" in line else line


def declared(text):
    """The names that a file declares: its definitions, lemmas, fields, local lemmas and variables."""
    found = set()
    for line in text.splitlines():
        line = code_of(line)
        head = HEAD.match(line)
        if head:
            found.add(head.group(1))
        found |= set(LOCAL.findall(line))
    return {n for n in found if is_own(n)}


def turn_tokens(text, own):
    return TOKEN.sub(lambda m: snake(m.group(0)) if m.group(0) in own else m.group(0), text)


def turn_antt(text, own):
    """All but the comments, where a dash may be a word's own."""
    return "\n".join(turn_tokens(code_of(line), own) + line[len(code_of(line)):] for line in text.split("\n"))


def turn_rt(text, own):
    """Ghost items and clauses alone: from 'ghost', 'requires' or 'ensures' to the end of the braces."""
    out, i = [], 0
    for m in re.finditer(r"(?m)^\s*(ghost|requires|ensures)\b", text):
        if m.start() < i:
            continue
        end = text.find("\n", m.end())
        depth, k = 0, m.end()
        while k < len(text):
            c = text[k]
            depth += c == "{"
            depth -= c == "}"
            if c == ";" and depth == 0 or c == "}" and depth == 0:
                end = k + 1
                break
            k += 1
        out.append(text[i:m.start()])
        out.append(turn_tokens(text[m.start():end], own))
        i = end
    out.append(text[i:])
    return "".join(out)


def main():
    root = os.getcwd()
    texts = {}
    for path in files(root):
        with open(path, encoding="utf-8") as f:
            texts[path] = f.read()
    own = set()
    for path, text in texts.items():
        if path.endswith(".antt"):
            own |= declared(text)
    for path, text in texts.items():
        words = set(TOKEN.findall(text))
        turned = {}
        for w in words:
            turned.setdefault(snake(w) if w in own else w, set()).add(w)
        for to, wordset in turned.items():
            if len(wordset) > 1:
                print(f"together: {path}: {sorted(wordset)} -> {to}", file=sys.stderr)
    changed = 0
    for path, text in texts.items():
        new = turn_antt(text, own) if path.endswith(".antt") else turn_rt(text, own)
        if new != text:
            changed += 1
            with open(path, "w", encoding="utf-8") as f:
                f.write(new)
    for name in ["README.md"] + [os.path.join("docs", n) for n in sorted(os.listdir("docs"))]:
        if not name.endswith(".md") or os.path.basename(name).startswith("PORT"):
            continue
        with open(name, encoding="utf-8") as f:
            text = f.read()
        new = re.sub(r"`[^`\n]+`", lambda m: turn_tokens(m.group(0), own), text)
        if new != text:
            changed += 1
            with open(name, "w", encoding="utf-8") as f:
                f.write(new)
    print(f"respell: {len(own)} names, {changed} files changed")
    return 0


if __name__ == "__main__":
    raise SystemExit(main())
