#!/usr/bin/env python3
"""Brings the repository's own definitions and lemmas to snake case: words in snake case, types and modules in camel case.

usage: python3 tools/snake_names.py [--list] [FOLDER]

Run once, after the kit's port.py and before anything is mended by hand: it reads crates/ below FOLDER (the current folder, if none is named)
and rewrites its .antt files and the clauses of its .rt files. A name is one that these files declare at the left margin, or as a field or a constructor,
and that begins with a small letter and has a capital or a dash in it. Functions of src/, exported names, strings, variables, goals that rattle names
and the names of the libraries stay. It stops, and writes nothing, where two names would fall together.
--list prints the names, old and new.
"""

import os
import re
import sys

TOKEN = re.compile(r"[^\s(){}\[\],;.«»⟦⟧]+")
DECLARED = re.compile(r"(?m)^(?:abbrev pub |unfoldable pub |abbrev |unfoldable |pub )?([^\s(){}\[\],;.:]+)(?= (?:[({][^=\n]*[)}] )?:(?: |$))")
FIELD = re.compile(r"(?m)^  +(?:pub )?([^\s(){}\[\],;.:=]+(?: [^\s(){}\[\],;.:=]+)*) : ")
PROOF = "Proof.antt"
# Lemmas that would fall together with the definition that they speak of, and what they are called instead: in every crate, or in one.
APART = {
    "distortion-with": "distortion_with_lem",
    "dropped-to": "dropped_to_lem",
    "joined_to": "joined_to_lem",
    "in-band": "in_band_lem",
    "lead-sign": "lead_sign_lem",
    "no-pulses": "no_pulses_lem",
    "limit-finite": "limit_finite_lem",
    "shape-pulses": "shape_pulses_lem",
    "in-float": "in_float_lem",
    "fields_in": "fields_in_lem",
    "refused_as": "refused_as_lem",
}
APART_IN = {
    ("stage1", "high-row"): "high_row_lem",
    ("stage1", "low-row"): "low_row_lem",
}
# A local variable of src/ whose function's clauses don't cite the definition.
LOCALS = {("numbering", "nextSign")}
# Names of which one is a field, which is read behind a dot only, and one a definition.
FIELDS = {"count-ok", "high-row", "low-row", "joint-index", "index-a", "index-b", "sign-a", "sign-b"}


def texts(root):
    for folder, dirs, files in os.walk(os.path.join(root, "crates")):
        dirs[:] = sorted(d for d in dirs if d not in ("out", "must-fail"))
        for f in sorted(files):
            if f.endswith((".rt", ".antt")):
                yield os.path.join(folder, f)


def snake(name):
    words = re.sub(r"(?<=[a-z0-9])([A-Z])", r"_\1", name).replace("-", "_")
    return words[0] + words[1:].lower() if words[:1].islower() else words


def old_style(name):
    # a fact keeps its capital, as in All-append; what begins with a capital is a type
    return re.match(r"[a-z]", name) and not re.search(r"[^\w'₀-₉-]", name) and (re.search(r"[A-Z]", name) or "-" in name)


def declared(path, text):
    """The names that a file of definitions or proofs declares. A goal of a function's proof is rattle's name, and stays."""
    names = set()
    for m in DECLARED.finditer(text):
        rest = text[m.end() : text.find("\n", m.end())]
        if os.path.basename(path) == PROOF and re.match(r" :\s*(?:tie|goal)\.", rest):
            continue
        names.add(m.group(1))
    for m in FIELD.finditer(text):
        names.update(m.group(1).split())
    return {n for n in names if old_style(n)}


def clause_spans(text):
    """Where a .rt file has antt: its ghost use lines, and the braces of its clauses."""
    for m in re.finditer(r"(?m)^\s*ghost use [^;]*;", text):
        yield m.start(), m.end()
    for m in re.finditer(r"(?:requires|ensures)(?: \w+)? \{", text):
        depth, i = 1, m.end()
        while depth:
            depth += {"{": 1, "}": -1}.get(text[i], 0)
            i += 1
        yield m.end(), i


def crate_of(path):
    return path.split("/crates/")[-1].split("/")[0] if "/crates/" in path else path.split("crates/")[-1].split("/")[0]


def for_crate(path, to):
    """The names as this file's crate and the lemmas that it takes from others have them."""
    crate = crate_of(path)
    return to | {n: s for (c, n), s in APART_IN.items() if c == crate}


def turn(text, to):
    return TOKEN.sub(lambda m: to.get(m.group(0), m.group(0)), text)


def turn_rt(text, to):
    out, at = [], 0
    for a, b in clause_spans(text):
        out += [text[at:a], turn(text[a:b], to)]
        at = b
    return "".join(out) + text[at:]


def bare(text):
    """The names that stand in a text but behind a dot, and but in comments."""
    text = re.sub(r"(?m)--.*$|//.*$", "", text)
    return {m.group(0) for m in TOKEN.finditer(text) if text[m.start() - 1 : m.start()] != "."}


def main(argv):
    listing = "--list" in argv
    roots = [a for a in argv if a != "--list"] or ["."]
    files = {p: open(p, encoding="utf-8").read() for p in texts(roots[0])}
    names = set()
    for p, t in files.items():
        if p.endswith(".antt"):
            names |= declared(p, t)
    to = {n: snake(n) for n in sorted(names)} | APART
    together = {}
    for n, s in to.items():
        if n not in FIELDS:
            together.setdefault(s, []).append(n)
    bad = [f"{' and '.join(ns)} would both be {s}" for s, ns in together.items() if len(ns) > 1]
    for p, t in files.items():
        own = for_crate(p, to)
        if p.endswith(".antt"):
            have = bare(t)
        else:
            have = set(x for a, b in clause_spans(t) for x in bare(t[a:b])) | set(re.findall(r"(?m)\b(\w+): ", t))
        for n in sorted(have & set(own)):
            if n not in FIELDS and (crate_of(p), n) not in LOCALS and own[n] != n and own[n] in have and (own[n] not in own):
                bad.append(f"{p}: {n} would fall together with {own[n]}")
    if listing:
        print("\n".join(f"{n} {s}" for n, s in to.items()))
    if bad:
        print("\n".join(bad), file=sys.stderr)
        return 1
    if not listing:
        for p, t in files.items():
            own = for_crate(p, to)
            new = turn(t, own) if p.endswith(".antt") else turn_rt(t, own)
            if new != t:
                open(p, "w", encoding="utf-8").write(new)
        print(f"{len(to)} names")
    return 0


if __name__ == "__main__":
    raise SystemExit(main(sys.argv[1:]))
