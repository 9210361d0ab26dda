"""Finds the definitions that a reader need not believe: no public clause leads to them.

The folder specs/ of a crate has its definitions, and specs/Inside/ those that only proofs cite.
A public clause is a clause of a public function or of a method of a trait, or a ghost member of
an `impl` or a trait. Definitions are compared by name alone, so a definition counts as cited if
any definition of that name is.
"""

import os
import re

WORD = re.compile(r"[A-Za-z_][\w'-]*")
# A line that begins a definition, and the name in it.
DEFINITION = re.compile(r"(?:(?:abbrev|unfoldable|data|record|pub) )+(?!mod\b|use\b)([A-Za-z_][\w'-]*)")
# The constructors and the methods of a type.
PART = re.compile(r"\s+(?:pub )?([A-Z][\w'-]*)\s*:")
GHOST = re.compile(r"\bghost (?!use)\w+[^;={]*=?\s*\{")
FUNCTION = re.compile(r"(?m)^\s*(pub )?(?:unsafe |const |extern \"C\" )*fn \w+")
BRACE = re.compile(r"[{}]")
CLAUSE = re.compile(r"\b(?:requires|ensures)\b|\{|;")
# The heads of blocks whose methods are public without `pub`.
BLOCK = re.compile(r"(?m)^(?:impl\b[^\n{;]*|pub trait\b[^\n{;]*)")
# A name that a file imports under another one.
RENAMED = re.compile(r"(\w+) as (\w+)")


def braces(text, at):
    """Returns the text from the brace at this index to the one that closes it."""
    depth = 0
    for brace in BRACE.finditer(text, at):
        depth += 1 if brace.group() == "{" else -1
        if depth == 0:
            return text[at : brace.end()]
    return text[at:]


def blocks_of_traits(text):
    """Returns where traits and their impls begin and end."""
    heads = [it for it in BLOCK.finditer(text) if re.search("^pub trait| for ", it.group())]
    return [range(it.start(), text.find("\n}", it.start())) for it in heads]


def clauses(text):
    """Yields the public clauses of a source file."""
    text = re.sub(r"(?m)//.*$", "", text)
    for ghost in GHOST.finditer(text):
        yield braces(text, ghost.end() - 1)
    blocks = blocks_of_traits(text)
    for function in FUNCTION.finditer(text):
        is_public = function.group(1) or any(function.start() in it for it in blocks)
        found = CLAUSE.search(text, function.end())
        while found and found.group() not in "{;":
            clause = braces(text, text.find("{", found.end()))
            if is_public:
                yield clause
            found = CLAUSE.search(text, text.find("{", found.end()) + len(clause))


def definitions(text):
    """Returns the text of each definition of a file by name."""
    found, name = {}, None
    for line in text.split("\n"):
        begins = DEFINITION.match(line)
        if begins:
            name = begins.group(1)
        elif line.startswith(("use ", "pub use ")):
            name = None
        if name:
            found[name] = f"{found.get(name, '')}\n{re.sub('--.*', '', line)}"
    return found


def uncited(root):
    """Returns the file and the name of each definition outside specs/Inside/ that no public clause
    leads to."""
    bodies, places, words = {}, {}, set()
    for at, _, names in os.walk(f"{root}/crates"):
        for name in names:
            path = os.path.relpath(f"{at}/{name}", root)
            part = path.split("/")[2]
            if "/out/" in path or part not in ("src", "specs"):
                continue
            with open(f"{root}/{path}", encoding="utf-8") as file:
                text = file.read()
            if part == "src" and name.endswith(".rt"):
                own = {it for clause in clauses(text) for it in WORD.findall(clause)}
                words |= own | {it for it, alias in RENAMED.findall(text) if alias in own}
            elif name.endswith(".antt") and name not in ("Prelude.antt", "Lib.antt"):
                for title, body in definitions(text).items():
                    parts = PART.findall(body) if re.search(r"\bdata\b", body) else []
                    for it in [title, *parts]:
                        bodies.setdefault(it, []).append(body)
                    if "/Inside/" not in path:
                        places.setdefault(title, []).append(path)
    left = list(words)
    while left:
        for body in bodies.pop(left.pop(), []):
            new = set(WORD.findall(body)) - words
            words |= new
            left.extend(new)
    return sorted((path, it) for it in places if it not in words for path in places[it])
