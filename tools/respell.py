#!/usr/bin/env python3
"""Brings the repository's own definitions, lemmas, fields and local names to the spelling of today's library: snake case (`closedWalk`, `floor-least`
become `closed_walk`, `floor_least`), an apostrophe for a prime. Run once, at the top of the repository, straight after the kit's port.py.

Names of types and modules stay, and so do functions of src/, strings, and whatever a file imports from a library. In a function's own proof files
the goals and what stands behind a dot there are the prover's, so that only fields of this repository's records change behind a dot.
Prints, as 'clash:', names that fall together in one file: a definition with the Rust function that computes it, or a field with a function, is
meant; what must not fall together is settled in SETTLED and LEMMAS. Without --write nothing is changed.
"""
import collections
import os
import re
import sys

WORD = re.compile(r"[^\s(){}.;,@\"«»\\]+")
USE = re.compile(r"\buse ([^\s;{]+?)\.?(\{[^}]*\})?(?: as ([^\s;]+))?(?=;|\s|$)")
HEAD = re.compile(
    r"(?m)^ *(?:pub +|abbrev +|unfoldable +|record +|data +|module +|instance +)*([^\s(){}.;,@\"«»:λ]+)((?: [^\s(){}.;,@\"«»:]+|  *[({][^(){}]*[)}])*) : "
)
# Names that would fall together with another: `no_cover` is a reply, `noCover` says whether there is none.
SETTLED = {"noCover": "no_cover_exists", "other-end": "other_end", "with-left": "with_that_left"}
# Filled in main: lemmas that would have their function's name.
LEMMAS = set()


def crates(root):
    return sorted(c for c in os.listdir(os.path.join(root, "crates")) if os.path.isdir(os.path.join(root, "crates", c, "src")))


def files(root, ends):
    for folder, dirs, names in os.walk(os.path.join(root, "crates")):
        dirs[:] = sorted(d for d in dirs if d not in ("out", ".git"))
        for name in sorted(names):
            if name.endswith(ends):
                yield os.path.join(folder, name)


def snake(name):
    if name in SETTLED:
        return SETTLED[name]
    whole = name
    name = name.replace("getD", "get_or").replace("′", "'")
    parts = name.split("-")
    # A type keeps its capital wherever it stands in a name.
    parts = [p if p[:1].isupper() else re.sub(r"(?<=[a-z0-9])[A-Z]+", lambda m: "_" + m[0].lower(), p) for p in parts]
    name = "_".join(parts)
    return name + "_lem" if whole in LEMMAS else name


def odd(word):
    """Not in today's spelling: a dash inside, a capital inside a name that begins small, or a prime of old."""
    if not re.match(r"[a-z]", word):
        return False
    return bool(re.search(r"\w-\w", word) or re.match(r"[a-z][A-Za-z0-9_]*[A-Z]", word) or "′" in word)


def is_goal_file(path):
    return "/proofs/" in path and re.search(r"/(Proof|Answers|Invariants)\.antt$", path)


def split(text, rust):
    """Pieces of the text: (kind, piece), kind 'code', 'note' or 'string'."""
    comment = r"//[^\n]*" if rust else r"(?:(?<=\s)|^)--[^\n]*"
    pieces = re.compile(rf'("(?:[^"\\\n]|\\.)*")|({comment})', re.M)
    at = 0
    for m in pieces.finditer(text):
        yield "code", text[at : m.start()]
        yield ("string" if m[1] else "note"), m[0]
        at = m.end()
    yield "code", text[at:]


def imported(text, own):
    """What the file has from a library."""
    words = set()
    for m in USE.finditer(text):
        steps = m[1].strip(".").split(".")
        if steps[0] == "Rattle" and len(steps) > 1 and steps[1] in own:
            continue
        words.update(WORD.findall(m[2] or "") or [m[3] or steps[-1]])
    return words


def fields_alone(declared, fields):
    """Names that are nothing but fields."""
    return {w for w in fields if fields[w] >= declared[w]}


def main(root):
    own = set(crates(root))
    declared, fields, rust = collections.defaultdict(set), collections.defaultdict(set), set()
    texts = {}
    for path in files(root, (".antt", ".rt", ".edit")):
        with open(path, encoding="utf-8") as f:
            texts[path] = f.read()
    for path, text in texts.items():
        if path.endswith(".rt"):
            rust.update(re.findall(r"\b(?:fn|let|mut|const) ([a-z_0-9A-Z]+)", text))
            continue
        if path.endswith(".antt") and not is_goal_file(path):
            code = "".join(p for k, p in split(text, False) if k == "code")
            for m in HEAD.finditer(code):
                declared[m[1]].add(path)
                if re.match(r" +pub [^\s]+ : ", m[0]) or re.match(r" +[^\s]+ : ", m[0]):
                    fields[m[1]].add(path)
    mine = {w for w in declared if odd(w)}
    made = {w.replace("_", "-") for w in rust}
    library = set()
    for path, text in texts.items():
        if path.endswith(".antt"):
            library |= imported(text, own)
    functions = {snake(w) for w in declared if "-" not in w and w not in fields_alone(declared, fields)} | {w for w in library if "-" not in w}
    LEMMAS.update(w for w in mine if "-" in w and w not in SETTLED and snake(w) in functions)
    if "--lemmas" in sys.argv:
        print("lemmas:", sorted(LEMMAS))
    doubtful = sorted(w for w in fields if w in made and "-" in w)

    clashes, changed, met = [], {}, collections.Counter()
    for path, text in texts.items():
        goal = bool(is_goal_file(path))
        code_file = path.endswith(".antt")
        from_library = imported(text, own)
        seen = collections.defaultdict(set)
        out = []

        def turn(m):
            word, s = m[0], m.string
            behind = s[m.start() - 1 : m.start()] == "."
            ahead = s[m.end() : m.end() + 1] == "."
            new = word
            if odd(word):
                if behind:
                    path_before = re.search(r"[^\s(){}]*$", s[: m.start()])[0]
                    of_module = path_before.startswith("Rattle.") or re.match(r"[A-Z]", path_before.split(".")[0])
                    if goal:
                        yes = word in fields and word not in made and not path_before.startswith(("tie.", "goal."))
                    else:
                        yes = word in mine
                    if of_module:
                        yes = word in mine
                elif goal or not code_file:
                    yes = word in mine and word not in from_library
                else:
                    yes = word not in from_library
                if yes:
                    new = snake(word)
            if not behind:
                seen[new].add(word)
            if new != word:
                met[word] += 1
            return new

        for kind, piece in split(text, not code_file):
            if kind == "code":
                out.append(WORD.sub(turn, piece))
            elif kind == "note":
                out.append(re.sub(r"`[^`\n]*`", lambda q: WORD.sub(lambda m: re.sub(r"[^`]+", lambda w: snake(w[0]) if w[0] in mine else w[0], m[0]), q[0]), piece))
            else:
                out.append(piece)
        new_text = "".join(out)
        for new, olds in seen.items():
            if len(olds) > 1:
                clashes.append((path, new, sorted(olds)))
        if new_text != text:
            changed[path] = new_text
    spans = re.compile(r"`[^`\n]*`")
    for folder, dirs, names in os.walk(root):
        dirs[:] = [d for d in dirs if d not in (".git", "target", "out")]
        for name in names:
            if name.endswith(".md"):
                path = os.path.join(folder, name)
                with open(path, encoding="utf-8") as f:
                    text = f.read()
                new_text = spans.sub(lambda q: WORD.sub(lambda m: re.sub(r"[^`]+", lambda w: snake(w[0]) if w[0] in mine or odd(w[0]) and snake(w[0]) in declared else w[0], m[0]), q[0]), text)
                if new_text != text:
                    changed[path] = new_text
    if "--fields" in sys.argv:
        print("doubtful fields:", doubtful)
    for path, new, olds in clashes:
        print(f"clash: {os.path.relpath(path, root)}: {new}: {olds}")
    # names of one module that meet
    by_new = collections.defaultdict(set)
    for word, where in declared.items():
        for path in where:
            by_new[(path, snake(word) if odd(word) else word)].add(word)
    for (path, new), olds in by_new.items():
        if len(olds) > 1:
            print(f"clash: {os.path.relpath(path, root)}: declared {new}: {sorted(olds)}")
    print(f"{len(met)} names, {sum(met.values())} places, {len(changed)} files")
    if "--write" in sys.argv:
        for path, text in changed.items():
            with open(path, "w", encoding="utf-8") as f:
                f.write(text)
    if "--names" in sys.argv:
        for w in sorted(met):
            print(w, snake(w))


main(os.getcwd())
