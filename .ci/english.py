"""Checks the English and the shape of the repository's prose, for .ci/quick.

It reads the Markdown of the root and of docs/, comments of the Rattle sources (`//!`, `///`, `//`),
comments of the definitions and proofs (`--`), the help texts of the command lines, and the comments
of crates.txt, Makefile, .ci/, bench/, examples/ and include/. It skips code in backticks, fenced
blocks, and short texts in double quotes.

It is a fault if
- there are `LIMIT_PER_THOUSAND` or more hits of .ci/phrases.py in a thousand words (if the limit is
  0, each hit is a fault);
- there is a hit in a page, in the header, or in a doc comment (`//!`, `///`) of a source file;
- a line of prose is longer than `WIDTH` columns, unless it is in a table or can't be broken;
- README.md has more than `README_LINES` lines;
- a quote differs from its code;
- a file or folder of a crate in `NOUN_FILES` has a bare participle or gerund as its name.

Crates and paths in `NOT_YET` are left out, except for their quotes.

A quote is a fenced block of a page, directly after a line with a mark. The block must consist of
consecutive lines of the file. In the second form the mark gives a part of the first line and a
part of the last line, and the block must be everything from one to the other:

    <!-- quote: crates/example_client/src/main.rt -->
    <!-- quote: crates/example_client/src/main.rt: fn main( .. Ok(()) -->

A line `// ..` of the block represents lines that are left out. Common indentation is ignored.

.ci/phrases-kept lists the exceptions, one a line: a path, a colon and a space, and the text that
contains the hit.
"""

import ast
import bisect
import io
import os
import re
import textwrap
import tokenize

import phrases

ROOT = os.path.dirname(os.path.dirname(os.path.abspath(__file__)))
LIMIT_PER_THOUSAND = 2
WIDTH = 100
README_LINES = 120
# Longer sentences and cells of tables are counted in the report.
SENTENCE_WORDS = 40
CELL_WORDS = 12
# Crates whose files have nouns as names, and the participles that are allowed there.
NOUN_FILES = ["mq_hub", "mq_tables"]
NOUNS = {"retained"}
# Crates with the help texts of a command line.
HELP_TEXTS = ("crates/mq_cli/src/", "crates/mq_pubsub_options/src/")
# Crates, files and folders that are not rewritten yet.
NOT_YET = set()

PARTICIPLES = set(
    "begun bound broken brought built chosen come done drawn driven fallen found given gone grown"
    " heard held kept known laid led left lent lost made met risen said seen sent shown shut"
    " spelled spent stood taken thrown told won written".split()
)
NO_GERUNDS = {"king", "ping", "ring", "sling", "spring", "string", "thing", "wing"}
PATTERNS = [(re.compile(pattern, re.M), instead) for pattern, instead, _ in phrases.PHRASES]


def blank(found):
    return " " * len(found[0])


def backticks(found):
    return "`" * len(found[0])


def masked(text):
    """The text with backticks for code and quoted output, and with spaces for addresses."""
    text = re.sub(r"(`+)(?!`).*?(?<!`)\1(?!`)", backticks, text)
    text = re.sub(r"(?<![\w\"])\"[^\"]{1,80}\"(?![\w\"])", backticks, text)
    text = re.sub(r"\]\([^)]*\)|https?://\S+|<!--.*?-->", blank, text)
    return re.sub(r"[*_]{1,2}(?=\w)|(?<=\w)[*_]{2}|(?<=\w)\*|\[", blank, text)


class Prose:
    """The prose of a file. A passage is a list of numbered lines, and is one line of `raw`."""

    def __init__(self, path, passages):
        self.path = path
        self.numbers, self.starts, parts, size = [], [], [], 0
        for passage in passages:
            for place, (number, text) in enumerate(passage, 1):
                text = text.strip() + (" " if place < len(passage) else "\n")
                self.numbers.append(number)
                self.starts.append(size)
                parts.append(text)
                size += len(text)
        self.raw = "".join(parts)
        self.text = "\n".join(map(masked, self.raw.split("\n")))
        self.words = len(re.findall(r"[A-Za-z][A-Za-z']*", self.text))

    def hits(self):
        """Start, end and replacement of each hit; of hits that overlap, the first in the table."""
        taken, lower = [], self.text.lower()
        for pattern, instead in PATTERNS:
            for found in pattern.finditer(lower):
                start, end = found.span()
                if all(end <= a or b <= start for a, b, _ in taken):
                    taken.append((start, end, instead))
        return sorted(taken)

    def line_at(self, offset):
        return self.numbers[bisect.bisect(self.starts, offset) - 1]


def in_markdown(lines, cells=None):
    """The passages of numbered lines of Markdown. Adds the cells of tables to `cells`."""
    passages, paragraph, fence = [], [], False

    def close():
        if paragraph:
            passages.append(list(paragraph))
            paragraph.clear()

    for number, line in lines:
        text = line.strip()
        if re.match(r"```|~~~", text):
            close()
            fence = not fence
        elif fence:
            continue
        elif not text or re.fullmatch(r"<!--.*-->|\[[^\]]+\]: \S+|[-=|: ]+", text):
            close()
        elif text.startswith("|"):
            close()
            start = 1
            for cell in masked(text).strip("|").split("|"):
                passages.append([(number, text[start : start + len(cell)])])
                start += len(cell) + 1
                if cells is not None:
                    cells.append(cell)
        else:
            if re.match(r"(#+|[-*+]|\d+[.)]) ", text):
                close()
            paragraph.append((number, re.sub(r"^(#+|>|[-*+]|\d+[.)])\s+", "", text)))
            if re.match(r"#+ ", text):
                close()
    close()
    return passages


def in_comments(text, mark, literals):
    """The passages of comments from `mark` to the end of a line. `literals` finds strings."""
    passages, block, kind = [], [], None

    def close():
        passages.extend(in_markdown(block))
        block.clear()

    for number, line in enumerate(text.split("\n"), 1):
        found = re.match(rf"\s*({mark}) ?(.*)$", line)
        if found:
            if found[1] != kind:
                close()
            kind = found[1]
            block.append((number, found[2]))
            continue
        close()
        kind = None
        if mark[0] in line:
            trailing = re.search(rf"\s(?:{mark}) (.*)$", literals.sub(blank, line))
            if trailing:
                passages.append([(number, line[trailing.start(1) :])])
    close()
    return passages


RUST_LITERALS = re.compile(r'"(?:\\.|[^"\\])*"')
SHELL_LITERALS = re.compile(r"'[^']*'|\"(?:\\.|[^\"\\])*\"")
NO_LITERALS = re.compile(r"(?!)")


def in_python(text):
    """The passages of the comments and docstrings of a Python program."""
    passages, lines = [], text.split("\n")
    for node in ast.walk(ast.parse(text)):
        has_docstring = isinstance(node, (ast.Module, ast.ClassDef, ast.FunctionDef))
        if has_docstring and ast.get_docstring(node):
            string = node.body[0].value
            block = range(string.lineno, string.end_lineno + 1)
            block = [(it, lines[it - 1].replace('"""', "")) for it in block]
            passages += in_markdown([it for it in block if not it[1].startswith("    <!--")])
    block = []
    for token in tokenize.generate_tokens(io.StringIO(text).readline):
        if token.type == tokenize.COMMENT and not token.string.startswith("#!"):
            if block and block[-1][0] != token.start[0] - 1:
                passages.append(block)
                block = []
            block.append((token.start[0], token.string.lstrip("# ")))
    return passages + ([block] if block else [])


def in_c(text):
    """The passages of the comments of a C program."""
    passages = in_comments(text, "//", RUST_LITERALS)
    for found in re.finditer(r"/\*(.*?)\*/", text, re.S):
        first = text.count("\n", 0, found.start()) + 1
        lines = [it.lstrip(" *") for it in found[1].split("\n")]
        passages += in_markdown(enumerate(lines, first))
    return passages


def in_help(text):
    """The passages of help texts: each line of a string that has four words or more."""
    passages = []
    text = re.sub(r"//[^\n]*", blank, text)
    for found in re.finditer(r'"((?:\\.|[^"\\])*)"', text, re.S):
        first = text.count("\n", 0, found.start()) + 1
        for number, line in enumerate(found[1].split("\n"), first):
            if len(re.findall(r"[A-Za-z]{2,}", line)) >= 4 and not line.startswith("Example: "):
                passages.append([(number, line)])
    return passages


def is_python(path, text):
    return path.endswith(".py") or text.startswith("#!/usr/bin/env python")


def prose_of(path, text):
    """The prose of a file."""
    ending = os.path.splitext(path)[1]
    if ending == ".md":
        passages = in_markdown(enumerate(text.split("\n"), 1))
    elif ending in (".rt", ".rs"):
        passages = in_comments(text, "//[/!]?", RUST_LITERALS)
        if path.startswith(HELP_TEXTS) and ".help(" in text:
            passages += in_help(text)
    elif ending == ".antt":
        passages = in_comments(text, "--", NO_LITERALS)
    elif ending in (".c", ".h"):
        passages = in_c(text)
    elif is_python(path, text):
        passages = in_python(text)
    else:
        passages = in_comments(text, "#(?!!)", SHELL_LITERALS)
    return Prose(path, passages)


def wide_lines(path, text):
    """The numbers of the lines of prose that are too wide and could be broken."""
    lines = list(enumerate(text.split("\n"), 1))
    wide = [it for it in lines if len(it[1]) > WIDTH and max(map(len, it[1].split())) <= WIDTH // 2]
    if not wide:
        return []
    if path.endswith(".md"):
        prose = {number for passage in in_markdown(lines) for number, _ in passage}
        return [number for number, line in wide if number in prose and line.strip()[0] != "|"]
    is_c = path.endswith((".c", ".h"))
    if is_c or is_python(path, text):
        passages = in_c(text) if is_c else in_python(text)
        # A passage of one line can be a comment after code, and is no block of prose.
        prose = {number for passage in passages if len(passage) > 1 for number, _ in passage}
        mark = "//" if is_c else "#"
        return [n for n, line in wide if n in prose or line.strip().startswith(mark)]
    mark = {".rt": "//", ".rs": "//", ".antt": "--"}.get(os.path.splitext(path)[1], "#")
    return [number for number, line in wide if line.strip().startswith(mark)]


def prose_files():
    """The paths of all files with prose, relative to the root."""
    tops = ("Makefile", "crates.txt")
    paths = [it for it in sorted(os.listdir(ROOT)) if it.endswith(".md") or it in tops]
    endings = {
        "docs": (".md",),
        "crates": (".rt", ".antt"),
        "bench": (".c", ".py", ".sh"),
        "examples": (".c", ".md", ".py", ".rs", ".rt", ".sh"),
        "include": (".h",),
    }
    for top, wanted in endings.items():
        for at, folders, names in os.walk(f"{ROOT}/{top}"):
            folders[:] = sorted(it for it in folders if it != "out")
            names = sorted(it for it in names if it.endswith(wanted))
            paths.extend(os.path.relpath(f"{at}/{it}", ROOT) for it in names)
    data = ("words", "phrases-kept")
    paths.extend(f".ci/{it}" for it in sorted(os.listdir(f"{ROOT}/.ci")) if it not in data)
    return [it for it in paths if os.path.isfile(f"{ROOT}/{it}")]


def read(path):
    with open(f"{ROOT}/{path}", encoding="utf-8") as file:
        return file.read()


def crate_of(path):
    return path.split("/")[1] if path.startswith("crates/") else None


def is_below(path, name):
    """The path is, or is in, the crate, file or folder of this name."""
    return crate_of(path) == name or path == name or path.startswith(name.rstrip("/") + "/")


def is_left_out(path):
    return any(is_below(path, it) for it in NOT_YET)


class Kept:
    """The exceptions of .ci/phrases-kept."""

    def __init__(self):
        lines = read(".ci/phrases-kept").splitlines()
        lines = [it for it in lines if it.strip() and not it.startswith("#")]
        self.entries = [tuple(it.split(": ", 1)) for it in lines]
        self.used = set()

    def allow(self, prose, start, end):
        for path, text in self.entries:
            first = max(0, end - len(text) - 2)
            if path == prose.path and text in prose.raw[first : start + len(text) + 2]:
                self.used.add((path, text))
                return True
        return False

    def unused(self):
        return [": ".join(it) for it in self.entries if it not in self.used]


class Page:
    """The findings in one file. A hit is a line number, the found text and the replacement."""

    def __init__(self, path, kept):
        text = read(path)
        prose = prose_of(path, text)
        self.path = path
        self.words = prose.words
        self.hits = [
            (prose.line_at(start), prose.raw[start:end].strip(" .;:!?"), instead)
            for start, end, instead in prose.hits()
            if not kept.allow(prose, start, end)
        ]
        lines = text.split("\n")
        self.doc_hits = [
            it for it in self.hits
            if path.endswith((".md", ".h")) or re.match(r"\s*//[/!]", lines[it[0] - 1])
        ]
        self.wide = wide_lines(path, text)
        self.lines = text.count("\n")
        self.long_sentences = self.long_cells = 0
        if path.endswith(".md"):
            cells = []
            in_markdown(enumerate(text.split("\n"), 1), cells)
            sentences = re.split(r"(?<=[.!?])\s+(?=[A-Z`*\[(])|\n", prose.text)
            self.long_sentences = sum(len(it.split()) > SENTENCE_WORDS for it in sentences)
            self.long_cells = sum(len(it.split()) > CELL_WORDS for it in cells)

    def faults(self):
        """The hits as faults, each with its line."""
        hits = [(line, f"'{found}': instead: {instead}") for line, found, instead in self.hits]
        return [(line, f"{self.path}:{line}: {text}") for line, text in hits]


def per_thousand(pages):
    return 1000 * sum(len(it.hits) for it in pages) / max(1, sum(it.words for it in pages))


def participles(crate):
    """The files and folders of a crate that have a bare participle or gerund as their name."""
    for at, folders, files in os.walk(f"{ROOT}/crates/{crate}/src"):
        for file in sorted([*folders, *files]):
            name = file[: -len(".rt")] if file.endswith(".rt") else file
            word = re.sub(r"_(at|away|by|in|off|on|out|over|up)$", "", name)
            if "_" in word or word in NOUNS or word in NO_GERUNDS:
                continue
            if word in PARTICIPLES or re.fullmatch(r"\w{2,}(ing|[^e]ed)", word):
                yield os.path.relpath(f"{at}/{file}", ROOT)


def without_margin(lines):
    """The lines without their common indentation, and without blank lines at both ends."""
    lines = "\n".join(it.rstrip() for it in lines).strip("\n").split("\n")
    margin = min((len(it) - len(it.lstrip()) for it in lines if it), default=0)
    return [it[margin:] for it in lines]


def quoted_lines(mark):
    """The path and the lines that the mark of a quote names; None for lines that don't exist."""
    path, _, ends = mark.partition(": ")
    if not os.path.isfile(f"{ROOT}/{path}"):
        return path, None
    lines = read(path).split("\n")
    if ends:
        first, _, last = ends.partition(" .. ")
        start = next((n for n, it in enumerate(lines) if first in it), len(lines))
        end = next((n for n in range(start, len(lines)) if last in lines[n]), None)
        lines = None if end is None else lines[start : end + 1]
    return path, lines


def agrees(block, lines, is_whole):
    """The block has consecutive lines, or all lines if `is_whole`, except for those left out."""
    if not any(it.strip() for it in block):
        return False
    parts = [[]]
    for line in block:
        if line.strip() == "// ..":
            parts.append([])
        else:
            parts[-1].append(line)
    parts = [without_margin(it) for it in parts]
    if is_whole and len(parts) == 1:
        return parts[0] == without_margin(lines)
    ends = [block[0].strip(), block[-1].strip()]
    if is_whole and ends != [lines[0].strip(), lines[-1].strip()]:
        return False
    at = 0
    for part in parts:
        size = len(part)
        while at + size <= len(lines) and without_margin(lines[at : at + size]) != part:
            at += 1
        if at + size > len(lines):
            return False
        at += size
    return True


def quote_faults(path):
    """A fault for each quote of a page that differs from its code."""
    lines = read(path).split("\n")
    fences = [n for n, it in enumerate(lines) if it.lstrip().startswith("```")]
    for place, line in enumerate(lines):
        mark = re.fullmatch(r"\s*<!-- quote: (.*?) -->\s*", line)
        if not mark:
            continue
        start, end = place + 1, next((it for it in fences if it > place + 1), None)
        if start not in fences or end is None:
            yield f"{path}:{place + 1}: no block follows the mark of a quote"
            continue
        source, quoted = quoted_lines(mark[1])
        if quoted is None:
            yield f"{path}:{place + 1}: a quote of lines that don't exist in {source}"
        elif not agrees(lines[start + 1 : end], quoted, ": " in mark[1]):
            yield f"{path}:{place + 1}: the quote differs from {source}"


def hits_in_doc_comment(sentence, width=1000):
    """The texts that are found in a doc comment with this sentence, in lines of this width."""
    comment = "".join(f"/// {it}\n" for it in textwrap.wrap(sentence, width))
    prose = prose_of("crates/mq_wire/src/lib.rt", f"{comment}pub fn f() {{}}\n")
    return [prose.raw[start:end] for start, end, _ in prose.hits()]


# A source, blocks that agree with it, and blocks that don't.
SOURCE = ["fn f() {", "    a();", "", "    b();", "    c();", "}"]
AGREE = [["a();", "", "b();"], ["fn f() {", "    // ..", "    c();", "}"], ["    b();"]]
DIFFER = [["a();", "b();"], ["fn f() {", "    c();", "}"], ["c();", "// ..", "a();"], []]


def self_test():
    """The faults of the table of phrases, and of the comparison of quotes."""
    for block in AGREE + DIFFER:
        if agrees(block, SOURCE, False) != (block in AGREE):
            yield f".ci/english.py: the comparison with SOURCE is wrong for {block}"
    for pattern, _, sentence in phrases.PHRASES:
        if not re.search(pattern, masked(sentence).lower(), re.M):
            yield f".ci/phrases.py: {pattern!r} does not find: {sentence}"
        if not hits_in_doc_comment(sentence):
            yield f".ci/phrases.py: no hit in a doc comment: {sentence}"
    for sentence in phrases.OLD:
        for width in (60, 80, 90, 1000):
            if not hits_in_doc_comment(sentence, width):
                yield f".ci/phrases.py: no hit in a doc comment of {width} columns: {sentence}"
    for sentence in phrases.PLAIN:
        for found in hits_in_doc_comment(sentence):
            yield f".ci/phrases.py: '{found}' is a hit in: {sentence}"


def look(faults):
    """Adds all faults to `faults`, and returns the pages."""
    faults.extend(self_test())
    kept = Kept()
    pages = [Page(it, kept) for it in prose_files()]
    faults.extend(f".ci/phrases-kept: it allows no hit: {it}" for it in kept.unused())
    for name in sorted(NOT_YET):
        if not any(is_below(it.path, name) for it in pages):
            faults.append(f".ci/english.py: NOT_YET has {name}, which does not exist")
    counted = [it for it in pages if not is_left_out(it.path)]
    rate = per_thousand(counted)
    if rate >= LIMIT_PER_THOUSAND and any(it.hits for it in counted):
        faults.extend(fault for it in counted for _, fault in it.faults())
        text = f"{rate:.2f} hits in a thousand words; the limit is {LIMIT_PER_THOUSAND}"
        faults.append(f"prose: {text}")
    for it in counted:
        lines = {line for line, _, _ in it.doc_hits}
        found = [fault for line, fault in it.faults() if line in lines]
        faults.extend(fault for fault in found if fault not in faults)
    for it in counted:
        faults.extend(f"{it.path}:{line}: prose of more than {WIDTH} columns" for line in it.wide)
        if it.path == "README.md" and it.lines > README_LINES:
            faults.append(f"README.md: {it.lines} lines; the limit is {README_LINES}")
    for path in (it.path for it in pages if it.path.endswith(".md")):
        faults.extend(quote_faults(path))
    for crate in NOUN_FILES:
        if crate not in NOT_YET:
            faults.extend(f"{it}: its name should be a noun" for it in participles(crate))
    return pages


def fails(name, pages):
    """A crate, file or folder of NOT_YET would fail if it were counted alone."""
    own = [it for it in pages if is_below(it.path, name)]
    if name == "README.md":
        if own[0].lines > README_LINES or own[0].hits:
            return True
    if name in NOUN_FILES and any(participles(name)):
        return True
    rate = per_thousand(own)
    return rate > 0 and rate >= LIMIT_PER_THOUSAND or any(it.wide for it in own)


def summary(pages):
    counted = [it for it in pages if not is_left_out(it.path)]
    hits, words = sum(len(it.hits) for it in counted), sum(it.words for it in counted)
    text = f"{hits} hit{'' if hits == 1 else 's'} in {words} words of prose"
    return f"{text}, {len(pages) - len(counted)} files left out"


def report(pages, paths):
    """Prints the rates of crates and files, and each hit in the crates and paths of `paths`."""
    groups = {}
    for it in pages:
        groups.setdefault(crate_of(it.path) or it.path, []).append(it)
    groups["all"] = pages
    groups["counted"] = [it for it in pages if not is_left_out(it.path)]
    print(f"{'':36}{'words':>8}{'hits':>6}{'rate':>7}{'wide':>6}")
    for name, group in groups.items():
        words, hits = sum(it.words for it in group), sum(len(it.hits) for it in group)
        wide = sum(len(it.wide) for it in group)
        mark = "  not yet" if group and all(is_left_out(it.path) for it in group) else ""
        print(f"{name:36}{words:8}{hits:6}{per_thousand(group):7.2f}{wide:6}{mark}")
    most = sorted(pages, key=lambda it: -len(it.hits))[:20]
    print("most hits: " + ", ".join(f"{it.path} {len(it.hits)}" for it in most if it.hits))
    sentences, cells = sum(it.long_sentences for it in pages), sum(it.long_cells for it in pages)
    print(f"pages: {sentences} sentences over {SENTENCE_WORDS} words")
    print(f"pages: {cells} cells of tables over {CELL_WORDS} words")
    done = [it for it in sorted(NOT_YET) if not fails(it, pages)]
    if done:
        print("NOT_YET can lose: " + ", ".join(done))
    for it in pages:
        if any(is_below(it.path, name) for name in paths):
            for _, fault in it.faults():
                print(fault)
            for line in it.wide:
                print(f"{it.path}:{line}: prose of more than {WIDTH} columns")
