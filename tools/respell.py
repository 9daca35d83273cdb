#!/usr/bin/env python3
"""Respells this repository's own definitions, lemmas and fields: words in snake case, a dash only between two names.

usage: tools/respell.py ROOT [--list]

Run once, after port.py. A name is respelled where it stands as a whole word in .antt, in .rt, in a must-fail edit, and between
backticks in .md and in comments. What a function's proof folder declares keeps its spelling, since Rattle makes those names.
"""
import collections
import os
import re
import sys

WORD = re.compile(r"[^\s(){}.;,@\"«»\[\]\\|`:]+")
CAMEL = re.compile(r"[a-z][a-z0-9]*(?:[A-Z][a-z0-9]*)+$")
DECL = re.compile(r"^(\s*)((?:(?:unfoldable|abbrev|pub|record|data|ruleset)\s+)*)([^\s(){}.;,@\"«»\[\]\\|`:]+(?:\s+[^\s(){}.;,@\"«»\[\]\\|`:]+)*)\s*(?:\([^=]*\)\s*|\{[^=]*\}\s*)*:(?=\s|$)")
# words of std, and of the orders and operations that lemmas are named by
NAMES = set("length take drop append map get_or set replicate add mul sub div rem mod le lt eq cons nil all cond eqb ltb leb and or not suc min max pow filter reverse sum zip ap sym".split())
KEEP = set("min max".split())


def files(root):
    for top in ("crates", "docs", "tests", "tools"):
        for d, dirs, fs in os.walk(os.path.join(root, top)):
            dirs[:] = sorted(x for x in dirs if x not in ("out", ".git", "target"))
            for f in sorted(fs):
                yield os.path.join(d, f)
    for f in sorted(os.listdir(root)):
        if f.endswith(".md"):
            yield os.path.join(root, f)


def of_function(path):
    """A file in the proof folder of one function."""
    return os.path.basename(path) == "Proof.antt"


def read(path):
    with open(path, encoding="utf-8", newline="") as f:
        return f.read()


def declared(root):
    """The declared names, each with its files and with what declares it: 'definition', 'field' or 'lemma'."""
    out, kind = collections.defaultdict(set), collections.defaultdict(set)
    for p in files(root):
        if not p.endswith(".antt") or of_function(p):
            continue
        inside = None
        for line in read(p).split("\n"):
            if not line.strip() or line.lstrip().startswith(("--", "use ", "let ", "in ")):
                continue
            deep = len(line) - len(line.lstrip())
            if inside is not None and deep <= inside:
                inside = None
            m = DECL.match(line)
            if m:
                what = "field" if inside is not None else "definition" if "/specs/" in p else "lemma"
                for w in m.group(3).split():
                    out[w].add(p)
                    kind[w].add(what)
            if re.match(r"\s*(pub )?(record|data) ", line):
                inside = deep
    return out, kind


def snake(part):
    return re.sub(r"(?<=[a-z0-9])([A-Z])", lambda m: "_" + m.group(1).lower(), part) if CAMEL.match(part) else part


def respelled(word, names):
    if word.startswith("-") or word.endswith("-") or "--" in word:
        return word
    parts = [("get_or" if p == "getD" else p) for p in word.split("-")]
    out = snake(parts[0])
    for a, b in zip(parts, parts[1:]):
        joined = (a in names or snake(a) in names or a[:1].isupper()) and (b in names or snake(b) in names or b[:1].isupper())
        out += ("-" if joined or not re.match(r"[\w']", b) or not re.match(r"[\w']", a) else "_") + snake(b)
    return out


def of_kit(root):
    """The names that files import from outside the repository."""
    own = {c for c in os.listdir(os.path.join(root, "crates"))}
    out = set()
    for p in files(root):
        if p.endswith((".antt", ".rt")):
            for m in re.finditer(r"(?m)^(?:ghost )?use ([^\s{;]+)\{([^}]*)\}", read(p)):
                head = m.group(1).split(".")
                if not (head[0] == "Rattle" and len(head) > 1 and head[1] in own):
                    out |= {w for it in m.group(2).split(",") for w in it.split(" as ")[:1] for w in [w.strip()]}
    return out


def table(root):
    decl, kind = declared(root)
    kit = of_kit(root)
    names = NAMES | {w for w in decl if "-" not in w and re.match(r"[a-z]", w) and any("/specs/" in p for p in decl[w])}
    names |= {snake(w) for w in names}
    t = {}
    for w in decl:
        if re.match(r"[A-Za-z]", w) and w not in kit:
            n = respelled(w, names)
            if n != w:
                t[w] = n
    # Where a lemma falls together with another name, the lemma takes _lem; a field stands behind its record.
    back = collections.defaultdict(set)
    for w in decl:
        back[t.get(w, w)].add(w)
    for v, ws in back.items():
        rank = lambda w: (kind[w] == {"field"}, "definition" not in kind[w], "-" in w, w not in t, w)
        first, *rest = sorted(ws, key=rank)
        for w in rest:
            if kind[w] != {"field"}:
                t[w] = v + "_lem"
    return t, decl


def turn(text, t):
    return WORD.sub(lambda m: t.get(m.group(0), m.group(0)), text)


def ticks(text, t):
    return re.sub(r"`[^`\n]*`", lambda m: turn(m.group(0), t), text)


def antt(text, t, skip):
    t = {k: v for k, v in t.items() if k not in skip}
    out = []
    for line in text.split("\n"):
        at = re.search(r"(?:^|\s)--(?:\s|$)", line)
        code, said = (line[: at.start()], line[at.start():]) if at else (line, "")
        # behind goal. and tie. stand names that Rattle makes
        code = re.sub(WORD, lambda m: m.group(0) if re.search(r"(?:goal|tie)\.$", code[: m.start()]) else t.get(m.group(0), m.group(0)), code)
        out.append(code + ticks(said, t))
    return "\n".join(out)


def rt(text, t):
    out = []
    for line in text.split("\n"):
        at = line.find("//")
        code, said = (line[:at], line[at:]) if at >= 0 else (line, "")
        out.append(turn(code, t) + ticks(said, t))
    return "\n".join(out)


def local(text):
    """What a proof file of a function declares by the names that Rattle makes."""
    return set(re.findall(r"(?m)^(?:abbrev )?(?:pub )?(\S+) : (?:tie|goal)\.", text))


def main():
    root = sys.argv[1] if len(sys.argv) > 1 else "."
    t, decl = table(root)
    back = collections.defaultdict(set)
    for k, v in t.items():
        back[v].add(k)
    for v, ks in sorted(back.items()):
        if len(ks) > 1 or (v in decl):
            print("falls together:", v, sorted(ks), "declared" if v in decl else "", sorted({os.path.relpath(p, root) for k in ks | {v} for p in decl.get(k, ())})[:6])
    if "--list" in sys.argv:
        for k, v in sorted(t.items()):
            print(k, v)
    for p in files(root):
        if p.endswith((".antt", ".rt")):
            words = set(WORD.findall(read(p)))
            both = sorted(w for w in words if w in t and t[w] != w and t[w] in words and t.get(t[w], t[w]) == t[w])
            if both:
                print("meets another word:", os.path.relpath(p, root), [(w, t[w]) for w in both])
    if "--list" in sys.argv:
        return
    for p in files(root):
        if p.endswith((".antt", ".rt", ".edit", ".md")) or "/useless_rules/" in p:
            text = read(p)
            if p.endswith(".antt"):
                new = antt(text, t, local(text) if of_function(p) else ())
            elif p.endswith(".rt"):
                new = rt(text, t)
            elif p.endswith(".md"):
                new = ticks(text, t)
            else:
                new = turn(text, t)
            if new != text:
                with open(p, "w", encoding="utf-8", newline="") as f:
                    f.write(new)


main()
