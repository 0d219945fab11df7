#!/usr/bin/env python3
"""Spells the repository's own names of definitions and lemmas as today's Rattle does, and moves what has to stand elsewhere.

usage: tools/spell_names.py            at the top, once, on what the kit's port.py has written

Words are in snake case, types and modules in camel case. A name of a fact or a type keeps its capital, and the dash behind it.
The laws of a crate whose must-fail edits change a definition move from specs/ to proofs/; specs/Contracts.antt, a name that Rattle
makes now, becomes specs/Outcomes.antt. Functions, exported C names, strings, inputs and outputs keep their names.
"""
import os
import re
import subprocess
import sys

MOVED_LAWS = ["archive", "history", "paper_examples", "plain_table", "query_spec", "refresh_spec", "table"]
CONTRACTS = ["table", "image_spec"]
# Names that would fall together with another name of a file that has both.
APART = {
    "live-rows": "live_rows_shown",
    "looked-up": "looked_up_rows",
    "columns-named": "columns_are",
    "refreshed-stores": "stores_refreshed",
    "stores-short": "are_stores_short",
    "slice-val": "slice_value",
    "refine-one": "refine_one",
    "refine-list": "refine_list",
}
# A word of the library that the kit's script leaves to be turned by hand.
LIBRARY = {"Option·elim": "Option-elim"}

NAME = r"[^\s(){}.;,@\"«»\[\]]+"
TOKEN = re.compile(NAME)
HEAD = re.compile(r"(?m)^ *(?:(?:unfoldable|abbrev|pub|infixl?r? \d+) +)*(" + NAME + r")(?: +\{[^{}\n]*\})* :(?= |$)")
CASES = re.compile(r"(?ms)^ *(?:pub +)?data\b.*?where\n(.*?)(?=\n\S|\n\n|\Z)")
USE = re.compile(r"(?m)^ *(?:unfoldable +)?(?:pub +)?(?:ghost +)?use +([^\s;{]+?)\.?(?:\{([^}]*)\})?(?: as \S+)?;?$")
HUMP = re.compile(r"(?<=[a-z0-9₀-₉'])[A-Z]")
MADE = re.compile(r"^(?:returns|loop|in|if|then|else|invariant|decreases|overflow|bounds|slice|offset|nonzero)-")


def snake(name):
    if name[:1].isupper():
        head, dash, rest = name.partition("-")
        return head + dash + (snake(rest).replace("-", "_") if rest else "")
    return HUMP.sub(lambda m: "_" + m[0].lower(), name).replace("-", "_")


def read(path):
    with open(path, encoding="utf-8", newline="") as f:
        return f.read()


def write(path, text):
    with open(path, "w", encoding="utf-8", newline="") as f:
        f.write(text)


def below(top, *ends):
    for folder, dirs, files in os.walk(top):
        dirs[:] = sorted(d for d in dirs if d not in ("out", "target", ".git"))
        for f in sorted(files):
            if f.endswith(ends):
                yield os.path.join(folder, f)


def code_of(text):
    return re.sub(r"(?m)(^|\s)--[^\n]*", r"\1", text)


def is_function_folder(path):
    return os.path.basename(path) in ("Proof.antt", "Answers.antt", "Invariants.antt")


def crates():
    return sorted(c for c in os.listdir("crates") if os.path.isdir(f"crates/{c}/src"))


def move_files():
    lib = lambda c, part: f"crates/{c}/{part}/Lib.antt"
    for c in MOVED_LAWS:
        if os.path.isdir(f"crates/{c}/specs/Laws"):
            os.makedirs(f"crates/{c}/proofs", exist_ok=True)
            subprocess.run(["git", "mv", f"crates/{c}/specs/Laws", f"crates/{c}/proofs/Laws"], check=True)
            subprocess.run(["git", "mv", f"crates/{c}/specs/Laws.antt", f"crates/{c}/proofs/Laws.antt"], check=True)
            write(lib(c, "specs"), read(lib(c, "specs")).replace("pub mod Laws\n", ""))
            old = read(lib(c, "proofs")) if os.path.exists(lib(c, "proofs")) else ""
            write(lib(c, "proofs"), old + ("" if not old or old.endswith("\n") else "\n") + "pub mod Laws\n")
    for c in CONTRACTS:
        if os.path.exists(f"crates/{c}/specs/Contracts.antt"):
            subprocess.run(["git", "mv", f"crates/{c}/specs/Contracts.antt", f"crates/{c}/specs/Outcomes.antt"], check=True)
            write(lib(c, "specs"), read(lib(c, "specs")).replace("pub mod Contracts\n", "pub mod Outcomes\n"))


def moved_paths(text):
    for c in MOVED_LAWS:
        text = re.sub(rf"\bRattle\.{c}\.specs\.Laws\b", f"Rattle.{c}.proofs.Laws", text)
    for c in CONTRACTS:
        text = re.sub(rf"\bRattle\.{c}\.specs\.Contracts\b", f"Rattle.{c}.specs.Outcomes", text)
    return text


def survey():
    """The names that the repository declares, and those that each file brings from a library."""
    own, brought = {}, {}
    mine = set(crates())
    for path in (p for c in crates() for part in ("specs", "proofs") for p in below(f"crates/{c}/{part}", ".antt")):
        text = code_of(read(path))
        for found in HEAD.finditer(text):
            own.setdefault(found[1], set()).add(path)
        for found in USE.finditer(text):
            steps = found[1].split(".")
            if steps[0] == "Rattle" and len(steps) > 1 and steps[1] in mine:
                continue
            for it in (found[2] or "").split(","):
                parts = it.strip().split(" as ")
                if parts[0]:
                    brought.setdefault(parts[0], set()).add(path)
    return own, brought


def main():
    move_files()
    own, brought = survey()
    table, both = {}, []
    for name in sorted(own):
        new = APART.get(name, snake(name))
        if new == name or name in ("Type",):
            continue
        if name in brought:
            both.append(name)
            continue
        table[name] = new
    # A lemma that would have its function's name gets `_lem`; behind a dot such a name may be a function's, and stays.
    bare = {}
    by_new = {}
    for name, new in table.items():
        if name in APART:
            continue
        by_new.setdefault(new, []).append(name)
    for new, names in by_new.items():
        humped = [it for it in names if HUMP.search(it)]
        if len(names) > 1 or humped and new in own:
            table.update((it, new + "_lem") for it in names if it not in humped)
            if new in own:
                bare[new] = new + "_lem"
        elif new in own or new in brought:
            table.update((it, new + "_lem") for it in names)
    print(f"own names: {len(own)}, respelled: {len(table)}")
    for name in both:
        print(f"look: {name} is a library's name too: {sorted(own[name])[:2]} {sorted(brought[name])[:2]}")
    fallen = {}
    for name, new in table.items():
        fallen.setdefault(new, []).append(name)
    for new, names in sorted(fallen.items()):
        if len(names) > 1 or new in own or new in brought:
            print(f"look: {names} and {new}: {'own' if new in own else ''} {'library' if new in brought else ''}")

    table.update(LIBRARY)

    def spelled(text):
        def one(m):
            if m[0] in bare and text[m.start() - 1 : m.start()] != ".":
                return bare[m[0]]
            return table.get(m[0], m[0])

        return TOKEN.sub(one, text)

    def spans(text):
        return re.sub(r"`[^`\n]+`", lambda m: "`" + spelled(m[0][1:-1]) + "`", text)

    humps = lambda text: TOKEN.sub(lambda m: table[m[0]] if m[0] in table and HUMP.search(m[0]) else m[0], text)

    def antt(text):
        out = []
        for line in text.split("\n"):
            found = re.search(r"(^|\s)--", line)
            code, comment = (line[: found.start()], line[found.start() :]) if found else (line, "")
            out.append(spelled(code) + humps(spans(comment)))
        return "\n".join(out)

    clause = re.compile(r"(?:\b(?:requires|ensures)\*?(?: \w+)? \{|\bghost \w+: \{)")

    def rt(text):
        """Clauses and ghost items turn whole; elsewhere only comments' code spans and names with a hump."""
        out, at = [], 0
        spots = [(m.start(), m.end() - 1, "clause") for m in clause.finditer(text)] + [(m.start(), m.end(), "use") for m in re.finditer(r"ghost use [^;]*;", text)]
        for start, brace, kind in sorted(spots):
            if start < at:
                continue
            out.append(humps_in_comments(text[at:start]))
            if kind == "use":
                end = brace
            else:
                depth, end = 0, brace
                while True:
                    depth += (text[end] == "{") - (text[end] == "}")
                    end += 1
                    if depth == 0:
                        break
            out.append(spelled(text[start:end]))
            at = end
        out.append(humps_in_comments(text[at:]))
        return "".join(out)

    def humps_in_comments(text):
        return re.sub(r"//[^\n]*", lambda m: humps(spans(m[0])), text)

    def report(path, text):
        code = code_of(text) if path.endswith(".antt") else re.sub(r"//[^\n]*", "", text)
        words = set(TOKEN.findall(code))
        for it in sorted(words & set(table)):
            if table[it] in words and table[it] not in bare:
                print(f"look: {path}: {it} and {table[it]}")

    changed = 0
    for c in crates():
        for path in below(f"crates/{c}", ".antt", ".rt"):
            old = read(path)
            text = moved_paths(old)
            report(path, text)
            text = antt(text) if path.endswith(".antt") else rt(text)
            if text != old:
                write(path, text)
                changed += 1
    for path in [*below("docs", ".md"), "README.md", "CONTRIBUTING.md", *below("oracle", ".md")]:
        old = read(path)
        text = spans(moved_paths(old))
        if text != old:
            write(path, text)
            changed += 1
    print(f"files changed: {changed}")
    if "--table" in sys.argv:
        for old, new in sorted(table.items()):
            print(f"{old}\t{new}")


main()
