#!/usr/bin/env python3
"""Spells the repository's own definitions, lemmas, fields and constructors in snake case: octetAt and octet-at to octet_at.

usage: tools/respell.py [--check]

Run once, after the kit's own scripts. It goes by whole words, in crates/ (.antt; of .rt the ghost imports and clauses, by the word),
in must-fail edits, and in code spans of README.md and docs/. Names of libraries, of Rust items and of types (which begin with a
capital) stay. A lemma whose new name a definition already has gets the name that OTHERS says. --check writes nothing and prints what
would fall together.
"""
import os
import re
import sys

ROOT = os.path.dirname(os.path.dirname(os.path.realpath(__file__)))
WORD = r"[^\s(){}.;,@\"«»:`|\[\]]+"
TOKEN = re.compile(rf"(?<![^\s(){{}}.;,@\"«»:`|\[\]]){WORD}")
DECL = re.compile(r"^( *)(?:(?:pub|abbrev|unfoldable|ruleset|opaque) +)*([a-z][^\s(){}.;,@\"«»:]*)((?: +\{[^{}\n]*\}| +\([^()\n]*\))*) *:(?!:)(?: |$)", re.M)
# words that would meet another name: what they become instead
OTHERS = {"bodyAt": "body_start", "Call-at": "CallAt", "Read-there": "ReadThere", "H-long": "h_long", "P-more": "p_more", "P-none": "p_none"}


def in_snake_case(name):
    words = re.sub(r"(?<=[a-z0-9])[A-Z]", lambda m: "_" + m[0].lower(), name)
    return words.replace("-", "_").lower()


def read(path):
    with open(path, encoding="utf-8") as f:
        return f.read()


def files():
    out = []
    for top, dirs, names in os.walk(os.path.join(ROOT, "crates")):
        dirs[:] = sorted(d for d in dirs if d != "out")
        out += [os.path.join(top, n) for n in sorted(names)]
    return out


def imported(text):
    """The words that a file takes from a library, not from this repository."""
    found = set()
    own = {c for c in os.listdir(os.path.join(ROOT, "crates"))}
    for m in re.finditer(r"use ([^\s;{]+?)\.?(?:\{([^}]*)\})", text):
        steps = m[1].split(".")
        if steps[0] == "Rattle" and len(steps) > 1 and steps[1] in own:
            continue
        found |= {w.strip().split(" as ")[0].strip() for w in m[2].split(",")}
    return found


def table(paths):
    names = {}
    for p in paths:
        if not p.endswith((".antt", ".rt")):
            continue
        t = re.sub(r"--[^\n]*|//[^\n]*", "", read(p))
        for m in re.finditer(rf"[{{,] *{WORD} as ([a-z]{WORD})", t):
            names.setdefault(m[1], set()).add(p)
        if p.endswith(".rt") or re.search(r"/proofs/.+/(Proof|Answers|Invariants)\.antt$", p):
            continue
        for m in DECL.finditer(t):
            w = m[2]
            if w in ("let", "where", "in", "use", "module", "record", "data"):
                continue
            names.setdefault(w, set()).add(p)
    return names


def main(argv):
    check = "--check" in argv
    paths = files()
    names = table(paths)
    turn = dict(OTHERS)
    for w in names:
        n = OTHERS.get(w, in_snake_case(w))
        if n != w and not w.startswith("_"):
            turn[w] = n
    # two words to one: the lemma, which has a dash, gets `_lem`
    back = {}
    for w, n in turn.items():
        back.setdefault(n, []).append(w)
    for n, ws in back.items():
        for w in ws if len(ws) > 1 or n in names else []:
            if "-" in w:
                turn[w] = n + "_lem"
    # a lemma that was spelled as a definition now is
    lemmas = {n: n + "_lem" for w, n in turn.items() if re.search(r"[a-z0-9][A-Z]", w) and n in names and n not in turn}
    back = {}
    for w, n in turn.items():
        back.setdefault(n, []).append(w)
    bad = 0
    for n, ws in sorted(back.items()):
        if len(ws) > 1:
            print("together:", n, ws)
    for p in paths:
        rt, antt, edit = p.endswith(".rt"), p.endswith(".antt"), p.endswith(".edit")
        if not (rt or antt or edit):
            continue
        t = read(p)
        skip = imported(t) if antt or rt else set()
        words = set(TOKEN.findall(t))
        here = {}
        for w in words:
            if w in turn and w not in skip and (antt or re.search(r"[a-z0-9][A-Z]", w) or (rt and re.search(r"ghost use[^;]*[{ ,]" + re.escape(w) + r"[ ,}]", t))):
                if turn[w] in words and not (antt and turn[w] in lemmas):
                    print("meets:", os.path.relpath(p, ROOT), w, "->", turn[w])
                    bad += 1
                here[w] = turn[w]
        news = {}
        for w, n in here.items():
            if n in news:
                print("meets:", os.path.relpath(p, ROOT), w, news[n], "->", n)
                bad += 1
            news[n] = w
        if (here or antt) and not check:
            new = t
            if antt:
                new = TOKEN.sub(lambda m: lemmas.get(m[0], m[0]) if t[m.start() - 1] != "." else m[0], t)
            new = "".join(
                TOKEN.sub(lambda m: here.get(m[0], m[0]) if k % 2 == 0 or not re.search(r"^[a-z]+-[a-z]+$", m[0]) else m[0], part)
                for k, part in enumerate(re.split(r"(--[^\n]*)" if antt else r"(//[^\n]*)", new))
            )
            if new != t:
                with open(p, "w", encoding="utf-8") as f:
                    f.write(new)
    if check:
        print(lemmas)
        print(len(turn), "names;", bad, "meetings")
        return 0
    pages = [os.path.join(ROOT, "README.md")]
    for top, dirs, ns in os.walk(os.path.join(ROOT, "docs")):
        pages += [os.path.join(top, n) for n in sorted(ns) if n.endswith(".md")]
    for p in pages:
        t = read(p)
        new = re.sub(r"`[^`\n]+`", lambda m: TOKEN.sub(lambda k: turn.get(k[0], k[0]) if re.search(r"[a-z0-9][A-Z]", k[0]) else k[0], m[0]), t)
        if new != t:
            with open(p, "w", encoding="utf-8") as f:
                f.write(new)
    return 0


if __name__ == "__main__":
    raise SystemExit(main(sys.argv[1:]))
