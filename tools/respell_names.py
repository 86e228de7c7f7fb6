#!/usr/bin/env python3
"""Respells the repository's own definitions and lemmas as today's Rattle spells names: words in snake case, facts and types in upper
camel case. usage: respell_names.py [--list] FOLDER  (the folder above crates/)

It reads which names the crates define for themselves, and rewrites them in every .rt and .antt file of crates/ by whole words. A name of the
kit, a name from Rattle source (functions, types, fields) and a name that the prover makes stay as they are. Comments follow where they cite a
name. --list prints the table, old and new, and writes nothing. It is run once, right after the kit's port.py."""
import collections
import os
import re
import sys

WORD = re.compile(r"(?<![\w'′-])[A-Za-z_][\w'′₀-₉]*(?:-[\w'′₀-₉]+)*'*")
NAME = r"[A-Za-z_][\w'′₀-₉]*(?:-[\w'′₀-₉]+)*'*"
MARKS = r"(?:abbrev |unfoldable |pub |mutual |private )*"
# Names that would fall together with another, and what they are called instead.
CHOSEN = {}


def files(root):
    for folder, dirs, names in os.walk(os.path.join(root, "crates")):
        dirs[:] = sorted(d for d in dirs if d not in ("out", ".git"))
        yield from (os.path.join(folder, n) for n in sorted(names) if n.endswith((".antt", ".rt")))


def uncommented(path, text):
    return re.sub(r"(?m)(^|(?<=\s))--(?= |$).*$", "", text) if path.endswith(".antt") else re.sub(r"//.*", "", re.sub(r'"(\\.|[^"\\])*"', '""', text))


def read(root):
    own, facts, kit, sources, tops = set(), set(), set(), set(), set()
    texts = {p: open(p, encoding="utf-8").read() for p in files(root)}
    for path, text in texts.items():
        bare = uncommented(path, text)
        for module, names in re.findall(r"use ([\w.+'-]+)\.\{([^}]*)\}", bare):
            for item in (n.strip() for n in names.split(",")):
                name, _, other = item.partition(" as ")
                if other and path.endswith(".antt"):
                    own.add(other)
                if not module.startswith("Rattle.") or re.match(r"Rattle\.(std|core|io|libc|os)\.", module):
                    kit.add(name)
        if path.endswith(".rt"):
            sources |= set(re.findall(r"\b(?:fn|struct|enum|const|mod|type|let|let mut) (\w+)", bare)) | set(re.findall(r"\b(\w+):", bare))
            continue
        lines = bare.split("\n")
        inside = -1
        for k, line in enumerate(lines):
            depth = len(line) - len(line.lstrip())
            if line.strip() and depth <= inside:
                inside = -1
            if inside < 0 and re.match(r"\s*(pub )?record ", line):
                inside = depth
            m = re.match(rf"(\s*){MARKS}({NAME})(?: [({{][^:]*:[^)}}]*[)}}])* :(?!:)(.*)", line)
            if m:
                own.add(m[2])
                if inside < 0:
                    tops.add(m[2])
                said = m[3]
                for after in lines[k + 1:]:
                    if not after.strip() or len(after) - len(after.lstrip()) <= len(m[1]):
                        break
                    said += " " + after.strip()
                if re.search(r"(^|→)\s*Type [\dℓ]+\s*$", said.split(" where")[0].rstrip()):
                    facts.add(m[2])
            for n in re.findall(rf"\blet ({NAME})", line):
                own.add(n)
            for binders in re.findall(r"λ ([^.]*)\.", line):
                own |= set(re.findall(NAME, re.sub(r":[^)]*\)", ")", binders)))
            for n in re.findall(rf"[({{;]\s*(?:pub )?((?:{NAME} )+):(?!:)", line):
                own |= set(n.split())
            for n in re.findall(rf"\[ ?({NAME})|\| ({NAME})", line):
                own |= {x for x in n if x}
            m = re.match(rf"\s*({NAME})((?: {NAME}| \([^()]*\))+) =", line)
            if m:
                own |= set(re.findall(NAME, m[2]))
    return texts, own, facts, kit, sources, tops


def snake(name):
    name = name.replace("′", "'")
    name = re.sub(r"(?<=[a-z0-9])([A-Z])(?=[a-z0-9]|$|_|-)", lambda m: "_" + m[1].lower(), name)
    return name.replace("-", "_")


def camel(name):
    return "".join(w[:1].upper() + w[1:] for w in re.split(r"[-_]", name))


def table(texts, own, facts, kit, sources, tops):
    used = {p: set(WORD.findall(uncommented(p, t))) for p, t in texts.items()}
    all_words = set().union(*used.values())
    is_old = lambda n: n[0].islower() and ("-" in n or "′" in n or re.search(r"[a-z0-9][A-Z]", n)) and not re.search(r"[^\x00-\x7f′₀-₉]", n)
    old = {n for n in own if is_old(n) and n not in kit and n not in sources}
    to = {n: CHOSEN.get(n) or (camel(n) if n in facts else snake(n)) for n in old}
    for n in facts:
        if n[0].islower() and n not in kit and n not in sources and n not in to and len(n) > 1:
            to[n] = camel(n)
    where = collections.defaultdict(set)
    for n, t in to.items():
        where[t].add(n)
    for t, names in where.items():
        # names of a field alone stand apart from others; of the rest the kit's or the definition keeps the word, and a lemma says that it is one
        if t in own | kit and t not in to:
            names = names | {t}
        bound = sorted((n for n in names if n in tops or n in kit), key=lambda n: (n not in kit, "-" in n, n == t, n))
        for n in bound[1:]:
            to[n] = t + "_lem"
    clash = [(n, t) for n, t in sorted(to.items()) if t in all_words and t not in to and n not in CHOSEN]
    return to, clash, used


def main(argv):
    listing = "--list" in argv
    root = [a for a in argv if a != "--list"][0]
    texts, own, facts, kit, sources, tops = read(root)
    to, clash, used = table(texts, own, facts, kit, sources, tops)
    if listing:
        for n in sorted(to):
            print(n, to[n], sep="\t")
        for n, t in clash:
            both = [p[len(root) + 8:] for p in used if n in used[p] and t in used[p]]
            print("clash:", n, t, "kit" if t in kit else "", "source" if t in sources else "", "own" if t in own else "", len(both), both[:4], file=sys.stderr)
        inv = collections.defaultdict(list)
        for n, t in to.items():
            inv[t].append(n)
        for t, ns in inv.items():
            if len(ns) > 1:
                print("together:", t, ns, file=sys.stderr)
        return 0
    functions = set().union(*(re.findall(r"\bfn (\w+)", t) for p, t in texts.items() if p.endswith(".rt")))

    def turned(w):
        # what the prover calls the step of a call stays: `c.set-mode.ensures`
        if w.start() and w.string[w.start() - 1] == "." and "-" in w[0] and snake(w[0]) in functions:
            return w[0]
        return to.get(w[0], w[0])

    for path, text in texts.items():
        dash = path.endswith(".antt")
        out = []
        for line in text.split("\n"):
            m = re.search(r"(^|\s)--(?= |$)" if dash else r"//", line)
            code, said = (line[: m.start()], line[m.start():]) if m else (line, "")
            if not dash:
                parts = re.split(r'("(?:\\.|[^"\\])*")', code)
                code = "".join(p if i % 2 else WORD.sub(turned, p) for i, p in enumerate(parts))
            else:
                code = WORD.sub(turned, code)
            said = WORD.sub(lambda w: to.get(w[0], w[0]) if re.search(r"[a-z0-9][A-Z]", w[0]) or (w.start() and said[w.start() - 1] == "`") else w[0], said)
            out.append(code + said)
        new = "\n".join(out)
        if new != text:
            with open(path, "w", encoding="utf-8") as f:
                f.write(new)
    return 0


if __name__ == "__main__":
    raise SystemExit(main(sys.argv[1:]))
