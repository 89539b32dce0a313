#!/usr/bin/env python3
"""Spells the definitions and lemmas of this repository as Rattle does now: snake case, with no dash. Run once, behind port.py.

usage: python3 tools/respell.py FOLDER [--names FILE] [--also FILE]

FOLDER is a checkout. The names are those that its crates' specs/ and proofs/ declare; a name of a library, of a type or of a module
stays. In .antt files each word that is such a name turns, in .rt files those in clauses, `ghost use` items and comments, in .md files those
in code spans, in .edit files those of the texts. A name that would meet another is told and stays. --names writes a row for each
name turned; --also reads such rows from another checkout and turns these too.
"""
import glob
import os
import re
import sys

WORD = r"[^\s(){}\[\].;:,@\"«»`]+"
DECLARED = re.compile(rf"^ *(?:(?:abbrev|unfoldable|pub|opaque|infix[lr]? \d+) )*({WORD})(?: (?:\([^\n]*?\)|\{{[^\n]*?\}}))* :(?= |$)", re.M)
USED = re.compile(r"^(?:ghost |pub )*use ([\w.']+)\.\{([^}]*)\}", re.M)
# Names that would meet another one in snake case: a lemma about a definition of its name, and the few that need another word.
LEMMAS = "actions-end all-below best-below bits-at few-values fill-searches forward-list judged-of judgement-of linked-move marks-at moved-searches no-counts pass-searches passed-by relax-list stage-marks stage-searches stage-steps step-at".split()
MEETS = {n: n.replace("-", "_") + "_lem" for n in LEMMAS} | {
    "is-plan": "is_red_black_plan",
    "from_end": "from_end_lem",
    "read_back": "read_back_lem",
    "room_in": "room_in_lem",
    "takeAt": "take_action_at",
}


def plain(name):
    """The name in snake case: word by word, a word with a capital in front is a type's and stays."""
    out = []
    for part in re.sub(r"-(?=[\w'])", "_", name).split("_"):
        bits = re.split(r"([→≡◌⊆≈<≤+*?∷]+)", part)
        for i, b in enumerate(bits):
            if b and not b[0].isupper():
                bits[i] = re.sub(r"([a-z0-9₀-₉])([A-Z])", lambda m: m.group(1) + "_" + m.group(2).lower(), b)
        out.append("".join(bits))
    return "_".join(out)


def antt(root):
    return sorted(glob.glob(root + "/crates/*/specs/**/*.antt", recursive=True) + glob.glob(root + "/crates/*/proofs/**/*.antt", recursive=True))


def read(p):
    with open(p, encoding="utf-8") as f:
        return f.read()


def code(t):
    return re.sub(r"--[^\n]*", "", t)


def main(argv):
    root = argv[0].rstrip("/")
    crates = {os.path.basename(c) for c in glob.glob(root + "/crates/*")}
    texts = {p: read(p) for p in antt(root)}
    own, taken, words = set(), set(), {}
    for p, t in texts.items():
        if not p.endswith("Proof.antt"):
            own |= set(DECLARED.findall(code(t)))
    for p in list(texts) + glob.glob(root + "/crates/*/src/**/*.rt", recursive=True):
        t = read(p)
        for m in USED.finditer(t):
            head = m.group(1).split(".")
            ours = head[0] == "Rattle" and len(head) > 1 and head[1] in crates
            if not ours or "declared" in head or "contracts" in head:
                taken |= {w.split(" as ")[-1].strip() for w in m.group(2).split(",")}
                taken |= {w.split(" as ")[0].strip() for w in m.group(2).split(",")}
    taken |= {"invariant-loop", "decreases-loop"}
    turned = {n: plain(n) for n in own if plain(n) != n and n not in taken and not n.startswith(("invariant-", "decreases-"))}
    turned |= {n: to for n, to in MEETS.items() if n in own}
    if "--also" in argv:
        for row in read(argv[argv.index("--also") + 1]).splitlines():
            a, b = row.split("\t")
            turned.setdefault(a, b)
    every = set()
    for t in texts.values():
        every |= set(re.findall(WORD, code(t)))
    into = {}
    for a, b in turned.items():
        into.setdefault(b, []).append(a)
    for b, names in sorted(into.items()):
        if len(names) > 1 or b in own - set(turned) or b in taken or (b in every and b in taken):
            print(f"meets another: {' '.join(names)} -> {b}")
            for a in names:
                turned.pop(a, None)
        elif b in every and b not in turned.values():
            print(f"look: {names[0]} -> {b}, a word that is there")
    for a, b in sorted(turned.items()):
        if b in every:
            print(f"look: {a} -> {b}: a word that is there")
    token = re.compile(WORD)

    def turn(t):
        return token.sub(lambda m: turned.get(m.group(0), m.group(0)), t)

    clause = re.compile(r"^(ghost use [^;]*;)|^( *(?:requires|ensures)\*?(?: \w+)? \{.*\})$|(//[^\n]*)", re.M)
    camel = re.compile(r"(?<![\w.'])[a-z]\w*[A-Z]\w*")
    for p, t in texts.items():
        new = turn(t)
        if new != t:
            open(p, "w", encoding="utf-8").write(new)
    for p in glob.glob(root + "/crates/*/src/**/*.rt", recursive=True):
        t = read(p)
        new = clause.sub(lambda m: turn(m.group(0)), t)
        left = {w for w in camel.findall(re.sub(r"//[^\n]*", "", new)) if w in turned}
        if left:
            new = camel.sub(lambda m: turned.get(m.group(0), m.group(0)), new)
        if new != t:
            open(p, "w", encoding="utf-8").write(new)
    for p in glob.glob(root + "/crates/*/must-fail/*.edit"):
        t = read(p)
        new = "\n".join(turn(l) if l.startswith(("old:", "new:")) else l for l in t.split("\n"))
        if new != t:
            open(p, "w", encoding="utf-8").write(new)
    for p in glob.glob(root + "/*.md") + glob.glob(root + "/docs/*.md") + glob.glob(root + "/*/**/README.md", recursive=True):
        t = read(p)
        new = re.sub(r"`[^`\n]+`", lambda m: turn(m.group(0)), t)
        if new != t:
            open(p, "w", encoding="utf-8").write(new)
    if "--names" in argv:
        with open(argv[argv.index("--names") + 1], "w", encoding="utf-8") as f:
            f.writelines(f"{a}\t{b}\n" for a, b in sorted(turned.items()))
    print(f"turned {len(turned)} names")


main(sys.argv[1:])
