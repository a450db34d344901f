#!/usr/bin/env python3
"""Spells this repository's own names as today's Rattle does: words in snake case, a dash only before a word that is itself a name.

usage: python3 tools/respell.py      once, at the top, after port.py

Definitions, lemmas, fields and local names of .antt files, and where .rt files (outside strings) and pages name them. Types, modules, functions of
src/, C names, strings, inputs and outputs keep their names. Prints names that fall together in a file, and how many were respelled.
"""

import os
import re
import sys

CORE = re.compile(r"(?<![\w'₀-₉-])[a-z][A-Za-z0-9_']*(?:-[A-Za-z0-9_'≤≡+*<]+)*(?![\w'-])")
DECL = re.compile(r"^\s*(?:abbrev |unfoldable |pub |opaque )*([^\s:(){}⌜⌝λ,;=]+) :(?:\s|$)")
PARAMS = re.compile(r"[({]((?:[a-z][\w'₀-₉-]* ?)+) : ")
# Words of the library that name something, so that a dash stands before them in a lemma's name.
LIBRARY = set("""length take drop map sum append reverse min max get_or set sets insert field suc zero mod div add sub mul replicate all any
cons nil eq lt le not and or pow gcd bit_and bit_or shl shr filter range concat index count_by""".split())

# Names that would fall together with another one, and names that stand for it.
APART = {
    "list_length": "length-in_list_order", "same_row": "same_row_lem", "row_before": "row_before_lem", "bytes-of": "bytes_of_lem", "rows-to": "rows_to_lem",
    "times-in": "times_in_lem", "so-far": "so_far_lem", "no-job": "no_job_is", "no-windows": "no_windows_is", "offset-after": "offset_after_is", "open-before": "open_before_is",
    "slot-after": "slot_after_is", "table-length": "table_length_is", "up-to-named": "up_to_named_is", "work-up-to": "work_up_to_is", "tooLong": "list_too_long",
}
APART["inARow"] = "jobs_in_a_row"
ALWAYS = {"capMost": "cap_limit"}
APART.update(ALWAYS)
# Local names of a file that would hide a definition there.
LOCAL = {"crates/dispatch/proofs/Listing.antt": {"rows_in": "each_in"}, "crates/dispatch/specs/Merge.antt": {"rows_in": "each_in"}}


def files(top, endings):
    for folder, dirs, names in os.walk(top):
        dirs[:] = sorted(d for d in dirs if d not in ("out", "target", ".git"))
        for n in sorted(names):
            if n.endswith(endings):
                yield os.path.join(folder, n)


def read(path):
    with open(path, encoding="utf-8") as f:
        return f.read()


def snake(part):
    if not re.match(r"[a-z]", part) or not re.search(r"[A-Z]", part):
        return part
    pieces = part.split("_")
    return "_".join(re.sub(r"(?<=[a-z0-9'])([A-Z])", lambda m: "_" + m.group(1).lower(), p) if p[:1].islower() else p for p in pieces)


def walked(path):
    """A proof of a Rattle function: its local names are those of goals."""
    return "/proofs/" in path and os.path.basename(path) in ("Proof.antt", "Answers.antt", "Invariants.antt")


def collect():
    fields, others, made = set(), set(), set()
    for path in files("crates", ".antt"):
        record = False
        for line in read(path).split("\n"):
            if re.match(r"^(pub )?(record|data) ", line):
                record = True
            elif line and not line[0].isspace() and not line.startswith("--"):
                record = False
            m = DECL.match(line)
            if m:
                if walked(path):
                    made.add(m.group(1))
                elif record and line[0].isspace():
                    fields.add(m.group(1))
                else:
                    others.add(m.group(1))
    return fields, others, made


def table():
    fields, others, made = collect()
    plain = {snake(n) for n in others | fields if "-" not in n}
    plain |= {n for n in others if n[:1].isupper()}
    known = plain | LIBRARY
    new = {}
    for n in fields | others:
        if not re.match(r"[a-z]", n):
            continue
        parts = [snake(p) for p in n.split("-")]
        # the name of a definition in snake case counts as one part
        out = parts[0]
        i = 1
        while i < len(parts):
            longest = max((k for k in range(len(parts), i, -1) if "_".join(parts[i:k]) in known), default=i, key=lambda k: k)
            if n in fields:
                out += "_" + parts[i]
                i += 1
            elif longest > i:
                out += "-" + "_".join(parts[i:longest])
                i = longest
            else:
                out += ("-" if parts[i][:1].isupper() else "_") + parts[i]
                i += 1
        new[n] = out
    taken = {b for a, b in new.items() if "-" not in a} | {n for n in fields | others if "-" not in n and n not in new}
    for a, b in new.items():
        if "-" in a and b in taken:
            new[a] = b + ("_is" if a in fields else "_lem")
    new.update({a: b for a, b in APART.items() if a in others | fields or a in ALWAYS})
    return {a: b for a, b in new.items() if a != b}, made


def respell(text, new, generic, comments=None):
    def one(m):
        w = m.group(0)
        if w in new:
            return new[w]
        if generic and "-" not in w:
            return snake(w)
        if generic:
            return w
        return w

    return CORE.sub(one, text)


def by_line(text, new, generic, comment):
    plain = {a: b for a, b in new.items() if "-" not in a}
    out = []
    for line in text.split("\n"):
        at = line.find(comment)
        if at >= 0 and (at == 0 or line[at - 1] == " ") and line[:at].count('"') % 2 == 0:
            code, rest = line[:at], line[at:]
        else:
            code, rest = line, ""
        pieces = re.split(r'("(?:[^"\\]|\\.)*")', code) if comment == "//" else [code]
        code = "".join(p if p.startswith('"') else respell(p, new, generic) for p in pieces)
        rest = re.sub(r"`[^`\n]*`", lambda m: respell(m.group(0), new, generic), rest)
        rest = respell(rest, {a: b for a, b in plain.items() if re.search("[A-Z]", a)}, False)
        out.append(code + rest)
    return "\n".join(out)


def operators(text):
    return re.sub(r"◌([a-z][A-Za-z]*)◌", lambda m: "◌" + snake(m.group(1)) + "◌", text)


def main():
    new, made = table()
    clash, changed = [], 0
    where = {}
    for a, b in new.items():
        where.setdefault(b, []).append(a)
    for b, many in sorted(where.items()):
        if len(many) > 1:
            clash.append(f"everywhere: {', '.join(sorted(many))} -> {b}")
    for path in list(files("crates", (".antt", ".rt"))):
        old = read(path)
        proof = walked(path)
        names = {a: b for a, b in new.items() if not (proof and a in made and "-" in a and not re.search(r"\{[^}]*(?<![\w-])" + re.escape(a) + r"(?![\w-])", old))}
        names.update(LOCAL.get(path, {}))
        # the other lemma of that name: the length of a list that a walk makes
        if path.endswith("/Laws/Walks.antt") or re.search(r"Laws\.Walks\.\{[^}]*(?<![\w-])list_length(?![\w-])", old):
            names["list_length"] = "length-list_from"
        if path.endswith(".rt"):
            for line in old.split("\n"):
                if line.startswith("ghost use "):
                    names.update({a: snake(a) for a in re.findall(r" as ([a-z][A-Za-z0-9]*[A-Z][A-Za-z0-9]*)", line)})
        text = by_line(operators(old), names, path.endswith(".antt"), "--" if path.endswith(".antt") else "//")
        if text != old:
            had = set(CORE.findall(old))
            to = {}
            for w in had:
                to.setdefault(names.get(w, snake(w) if path.endswith(".antt") and "-" not in w else w), []).append(w)
            clash += [f"{path}: {', '.join(sorted(v))} -> {k}" for k, v in sorted(to.items()) if len(v) > 1]
            with open(path, "w", encoding="utf-8") as f:
                f.write(text)
            changed += 1
    for path in list(files("docs", ".md")) + ["README.md"]:
        if "docs/PORT" in path or not os.path.exists(path):
            continue
        old = read(path)
        text = re.sub(r"`[^`\n]*`", lambda m: respell(m.group(0), new, False), old)
        if text != old:
            with open(path, "w", encoding="utf-8") as f:
                f.write(text)
            changed += 1
    print("\n".join(clash))
    print(f"respell: {len(new)} names, {changed} files, {len(clash)} to look at")
    if len(sys.argv) > 1:
        with open(sys.argv[1], "w", encoding="utf-8") as f:
            f.write("".join(f"{a}\t{b}\n" for a, b in sorted(new.items())))


if __name__ == "__main__":
    main()
