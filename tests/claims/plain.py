"""Plain words: how long the sentences and cells of documents and comments are, the idioms that none has, and the form of
decisions, changes, links and first lines."""
import io
import re
import tokenize
from typing import Iterator, List, Tuple

from sources import Document, Sources, cells_of, text_of

MOST_WORDS_OF_A_SENTENCE, MOST_WORDS_OF_A_CELL = 35, 40
# Of a document; the history of changes is held only to the words. A list of files has its own marks.
MOST_SENTENCES_OF_A_PARAGRAPH, MOST_MARKS_OF_A_SENTENCE = 6, 1
FEWEST_COMMENTS, FEWEST_MESSAGES = 5000, 1000
# The sources whose comments are held to the words, besides the crates.
HELD = (".py", ".mjs", ".hpp", ".cpp")
SCRIPTS = ("ttrun", "gate", "release")
# What a comment may name that no source defines: what the language and clap have, and a byte.
KNOWN = ("Drop", "_", "DisplayHelp", "DisplayVersion")
# Each idiom, and what is written instead. What is in backquotes is a name, and none of these.
IDIOMS = (
    (r"want of", "out of memory; because there is no"), (r"memory (?:is|was|were) refused", "memory runs out"),
    (r"in place of", "instead of"), (r"anew|once more", "again"), (r"dear(?:er|est)?", "expensive"), (r"but for|all but|but that", "except"),
    (r"(?:can|could|may|might) be had", "is available"), (r"in a hundred", "%"), (r"leasts", "minimums"),
    (r"whoever|anybody", "a caller that; a user who"), (r"no more than", "at most"), (r"be it", "even if"), (r"mostly", "usually"),
    (r"beside", "next to; besides"), (r"hand(?:s|ed|ing) (?:it |them )?on", "passes on"), (r"stands?(?!-in)|stood", "is; represents"),
    (r"tells?|told", "prints; says"), (r"behind", "after; under"), (r"alone", "only"), (r"so many", "that many"),
    (r"(?:goes|go|going|gone|went) on", "continues"), (r"(?:goes|go|going|went) by", "depends on"),
    (r"(?:exactly|none|nothing|only) where", "if"), (r"(?:is|are|was|were) to be", "must; will"),
    (r"(?:says?|said) nothing of", "says nothing about"), (r"also where", "also if"))
# What begins a condition, or a question, in a sentence that is none.
BEGINNING = re.compile(r"(?:Where|Who|Whose)\b")
ELSE = re.compile(r"(?:^|[,;:.] |\bor )else\b", re.IGNORECASE)
# Texts on which the checks must fail, and ones on which they must not.
FAULTY = ("It is told of so.", "Nothing is behind it.", "Where it is so, it ends.", "Who calls is a run.", "It ends, else it waits.",
          "Or else it waits.", " ".join(["word"] * (MOST_WORDS_OF_A_SENTENCE + 1)) + ".")
FAULTLESS = ("`told` is a name, and `behind` is another.", "Nothing else is.", "It says where it is.", "The letters of `tell` stay.",
             " ".join(["word"] * MOST_WORDS_OF_A_SENTENCE) + ".")


def without_names(text: str) -> str:
    """The text without what is in backquotes, and without what links lead to."""
    return re.sub(r"``.*?``|`[^`]*`", "`", re.sub(r"\]\([^)]*\)", "]", text))


def sentences(text: str) -> Iterator[str]:
    yield from re.split(r"(?<=[.!?])\s+(?=[A-Z`\[(*])", " ".join(text.split()))


def count(text: str) -> int:
    return sum(bool(re.search(r"\w", it)) for it in text.split())


def idioms(text: str) -> Iterator[str]:
    plain = without_names(text)
    for idiom, instead in IDIOMS:
        found = re.search(rf"\b(?:{idiom})\b", plain, re.IGNORECASE)
        if found:
            yield f"'{found[0]}', better {instead}: {text[:80]}.."
    if ELSE.search(plain):
        yield f"'else', better otherwise: {text[:80]}.."


def faults(text: str) -> Iterator[str]:
    yield from idioms(text)
    for sentence in sentences(text):
        if count(sentence) > MOST_WORDS_OF_A_SENTENCE:
            yield f"{count(sentence)} words, where {MOST_WORDS_OF_A_SENTENCE} are the most: {sentence[:60]}.."
        if BEGINNING.match(sentence) and not sentence.endswith("?"):
            yield f"it begins with {BEGINNING.match(sentence)[0]}: {sentence[:60]}.."


def paragraphs(document: Document) -> Iterator[Tuple[int, str]]:
    """The paragraphs of a document outside of its tables, headings and blocks, with their lines; an item of a list is one."""
    at, text = 0, []
    is_code = False
    for number, line in enumerate([*document.lines, ""], 1):
        is_code ^= line.lstrip().startswith("```")
        is_prose = not is_code and bool(line.strip()) and not line.lstrip().startswith(("```", "#", "!", "|", "<!--"))
        if text and (not is_prose or re.match(r"\s*(?:-|\d+\.) ", line)):
            yield at, re.sub(r"\]\([^)]*\)", "]", "\n".join(text))
            text = []
        if is_prose:
            at, text = (at if text else number), [*text, line]


def cells_and_headings(document: Document) -> Iterator[Tuple[int, str, bool]]:
    """The cells and the headings of a document, with their lines, and whether it is a cell."""
    for number, line, is_code in document.marked():
        if not is_code:
            yield from ((number, it, False) for it in [line.lstrip("# ")] if line.startswith("#"))
            yield from ((number, it, True) for it in cells_of(line))


def overfull(text: str) -> Iterator[str]:
    """Whether a paragraph of a document has too many sentences, or one of them too many parts."""
    parts = list(sentences(text))
    if len(parts) > MOST_SENTENCES_OF_A_PARAGRAPH:
        yield f"{len(parts)} sentences, where {MOST_SENTENCES_OF_A_PARAGRAPH} are the most: {text[:60]}.."
    for part in parts:
        if not part.startswith("Files:") and len(re.findall(r"[;:](?=\s)", without_names(part))) > MOST_MARKS_OF_A_SENTENCE:
            yield f"more than {MOST_MARKS_OF_A_SENTENCE} colon or semicolon: {part[:60]}.."


def in_documents(documents: List[Document]) -> Iterator[str]:
    """Long sentences and cells of the documents, and their idioms."""
    for document in documents:
        for line, text in paragraphs(document):
            yield from (f"{document.path}:{line}: {it}" for it in faults(text))
            yield from (f"{document.path}:{line}: {it}" for it in overfull(text) if document.path != "CHANGELOG.md")
        for line, text, is_cell in cells_and_headings(document):
            yield from (f"{document.path}:{line}: {it}" for it in idioms(text))
            if is_cell and count(without_names(text)) > MOST_WORDS_OF_A_CELL:
                yield f"{document.path}:{line}: a cell has {count(without_names(text))} words, where {MOST_WORDS_OF_A_CELL} are the most"


def comments(text: str, marks: str) -> Iterator[Tuple[int, str]]:
    """The paragraphs of the comments in a source, with their lines: lines that follow one another with one mark."""
    at, last, found = 0, "", []
    for number, line in enumerate([*text.split("\n"), ""], 1):
        mark, said = (re.match(rf"\s*({marks})(?: (.*))?$", line) or re.match("()()", line)).groups()
        if found and (mark != last or not said or re.match(r"(?:-|\d+\.) ", said)):
            yield at, "\n".join(found)
            found = []
        if mark and said and not said.startswith(("```", "    ", "----")):
            at, last, found = (at if found else number), mark, [*found, said]


def marks_of(path: str) -> str:
    return "--" if path.endswith(".antt") else "///|//!|//"


def python_comments(text: str) -> Iterator[Tuple[int, str]]:
    """The paragraphs of the comments and of the documentation in a source of Python, with their lines; lines of usage are none."""
    before = tokenize.INDENT
    for token in tokenize.generate_tokens(io.StringIO(text).readline):
        is_first = before in (tokenize.INDENT, tokenize.NEWLINE, tokenize.DEDENT)
        if token.type == tokenize.COMMENT and not token.string.startswith("#!"):
            yield token.start[0], token.string.lstrip("# ")
        elif token.type == tokenize.STRING and is_first and token.string.startswith('"""'):
            for part in re.split(r"\n\s*\n|\n(?=\s*- )", token.string.strip('"')):
                if not part.lstrip().startswith("usage:"):
                    yield token.start[0], part.strip()
        before = before if token.type in (tokenize.COMMENT, tokenize.NL) else token.type


def comments_of(path: str, text: str) -> Iterator[Tuple[int, str]]:
    """The paragraphs of the comments in a source, by its path; none of a file that is no source, or is not held to this."""
    if path.endswith(".py"):
        yield from python_comments(text)
    elif path in SCRIPTS:
        yield from comments(text, "#")
    elif path.endswith(HELD) or path.startswith("crates/") and path.endswith((".rt", ".antt")):
        yield from comments(text, marks_of(path))


def in_comments(paths: List[str]) -> Iterator[str]:
    """The same of the comments of the crates, of Python, of the page and of C++."""
    seen = 0
    for path in paths:
        if path in SCRIPTS or path.endswith((".rt", ".antt", *HELD)):
            for line, text in comments_of(path, text_of(path)):
                seen += 1
                yield from (f"{path}:{line}: {it}" for it in faults(text))
    if seen < FEWEST_COMMENTS:
        yield f"{seen} comments, where there are no fewer than {FEWEST_COMMENTS}"


def messages(text: str) -> Iterator[Tuple[int, str]]:
    """The texts of more than a word in a source of a client or a script, with their lines; what is put into one is a name."""
    for number, line in enumerate(text.split("\n"), 1):
        if not line.lstrip().startswith(("#", "//", '"""')):
            found = re.findall(r'"((?:[^"\\]|\\.)*\s(?:[^"\\]|\\.)*)"|`([^`]*\s[^`]*)`', line)
            yield from ((number, re.sub(r"\$?\{[^}]*\}", "NAME", one or other)) for one, other in found)


def in_messages(paths: List[str]) -> Iterator[str]:
    """Idioms in what the clients, the builder, the scripts and the pages print."""
    seen = 0
    for path in paths:
        if path in SCRIPTS or path.startswith(("clients/", "tools/", "page/")) and path.endswith((".py", ".hpp", ".mjs")):
            for line, text in messages(text_of(path)):
                seen += 1
                yield from (f"{path}:{line}: {it}" for it in idioms(text))
    if seen < FEWEST_MESSAGES:
        yield f"{seen} messages, where there are no fewer than {FEWEST_MESSAGES}"


def unknown_names(paths: List[str], sources: Sources) -> Iterator[str]:
    """Names in the comments of the crates that no source has."""
    for path in paths:
        if path.startswith("crates/") and path.endswith((".rt", ".antt")):
            for line, text in comments(text_of(path), marks_of(path)):
                names = {it for it in re.findall(r"`([^`]+)`", text) if re.fullmatch(r"\w+(?:::\w+)*", it)}
                names |= set(re.findall(r"\b[a-z]+_[a-z_]+\b|\b(?:[A-Z][a-z]+){2,}\b", without_names(text)))
                yield from (f"{path}:{line}: {it} stands nowhere" for it in sorted(names) if it not in KNOWN and not sources.has(it))


def wordless(paths: List[str]) -> Iterator[str]:
    """Definitions of specs/ that no line before them says in words; those in Inside may do without."""
    for path in paths:
        if re.match(r"crates/\w+/specs/(?!Inside/).*\.antt$", path) and not path.endswith("/Inside.antt"):
            lines = text_of(path).split("\n")
            for before, line in zip(lines, lines[1:]):
                found = re.match(r"(?:abbrev |unfoldable )*pub (?:(?:record|data) )?(?!use\b|mod\b)(\w+)", line)
                if found and not before.startswith("--"):
                    yield f"{path}: nothing is said of {found[1]}"


def found_in(text: str) -> List[List[str]]:
    """What is found of a text as a document, as its cell, and in comments of each kind: lists that are all to be empty or none."""
    made = [Document("plant.md", [text]), Document("plant.md", ["| a |", "|---|", f"| {text} |"])]
    found = [list(in_documents([it])) for it in made]
    for mark, path in (("///", "plant.rt"), ("//!", "plant.rt"), ("//", "plant.rt"), ("--", "plant.antt")):
        said = comments(f"let a = 1;\n    {mark} {text}\n", marks_of(path))
        found.append([it for _, one in said for it in faults(one)])
    for source in (f"let = 1\n# {text}\n", f'def plant() -> None:\n    """{text}"""\n'):
        found.append([it for _, one in python_comments(source) for it in faults(one)])
    return found


def unseen() -> Iterator[str]:
    """Idioms and long sentences that are planted and not found, and plain sentences that are refused."""
    for idiom, _ in IDIOMS:
        for said in re.sub(r"\(\?:([^)|]*)[^)]*\)\??", r"\1", idiom).split("|"):
            yield from (f"nobody finds: {said}" for it in found_in(f"It {said.replace('?', '')} it.") if not it)
    for text in FAULTY:
        found = found_in(text)
        is_of_sentences = BEGINNING.match(text) or len(text) > 100
        yield from (f"nobody finds: {text[:60]}" for at, it in enumerate(found) if not it and not (is_of_sentences and at == 1))
    if not any(idioms(text) for _, text in messages('    fail(f"{name} is not there any more, and no more than that")')):
        yield "nobody finds an idiom in a message"
    for text in ("It is: so; and so.", "So. " * (MOST_SENTENCES_OF_A_PARAGRAPH + 1)):
        if not list(in_documents([Document("plant.md", [text])])):
            yield f"nobody finds: {text}"
    for text in FAULTLESS:
        yield from (f"{text[:60]} is refused: {it}" for it in found_in(text) if it)


PARTS = ["Decision", "Reason", "Consequence"]
KINDS = ("Do", "Added", "Changed", "Fixed", "Removed")
# The heading above the versions, of what no version has yet.
UNRELEASED = "Unreleased"
FEWEST_DECISIONS, FEWEST_VERSIONS, FEWEST_WITH_READERS = 35, 2, 12
BOLD = re.compile(r"- \*\*(\w+)\.\*\* \S")


def decisions(document: Document) -> Iterator[str]:
    """Decisions that do not have just their three lines, in this order."""
    titles = [title for _, title, depth in document.headings() if depth == 3]
    for title in titles:
        lines = [line for _, line in document.section(title) if line]
        found = [it[1] for it in map(BOLD.match, lines) if it]
        if found != PARTS or not lines[0].startswith(f"- **{PARTS[0]}.**"):
            yield f"{document.path}: {title}: its lines are {found}, where {PARTS} are wanted"
    if len(titles) < FEWEST_DECISIONS:
        yield f"{document.path}: {len(titles)} decisions, where there are no fewer than {FEWEST_DECISIONS}"


def changes(document: Document) -> Iterator[str]:
    """Entries of a version that are of no kind, or not in the order of the kinds."""
    versions = [title for _, title, depth in document.headings() if depth == 2]
    for at, version in enumerate(versions):
        if not re.fullmatch(r"\d+\.\d+\.\d+, \d{4}-\d\d-\d\d", version) and (at, version) != (0, UNRELEASED):
            yield f"{document.path}: {version} is no version and its day"
        entries = [line for _, line in document.section(version) if line and not line.startswith("  ")]
        kinds = [it[1] if it else "" for it in map(BOLD.match, entries)]
        yield from (f"{document.path}: {version}: {entry[:60]}.. is none of {', '.join(KINDS)}" for entry, kind in zip(entries, kinds)
                    if kind not in KINDS)
        known = [it for it in kinds if it in KINDS]
        if known != sorted(known, key=KINDS.index):
            yield f"{document.path}: {version}: the entries are not in the order {', '.join(KINDS)}"
    if len(versions) < FEWEST_VERSIONS:
        yield f"{document.path}: {len(versions)} versions, where there are no fewer than {FEWEST_VERSIONS}"


def broken_links(documents: List[Document]) -> Iterator[str]:
    """Links whose text goes over the end of a line, so that nobody finds them."""
    for document in documents:
        text = re.sub(r"(?ms)^```.*?^```", "", "\n".join(document.lines))
        yield from (f"{document.path}: {it[0]!r}" for it in re.finditer(r"\[[^\]\n]*\n[^\]\n]*\]\(", text))


def readers(documents: List[Document]) -> Iterator[str]:
    """Documents whose first paragraph does not say who reads them."""
    read = [it for it in documents if re.match(r"docs/|CONTRIBUTING\.md|bench/README\.md", it.path)]
    for document in read:
        first = next((line for line in document.lines if line and not line.startswith("#")), "")
        if not re.match(r"For \w", first):
            yield f"{document.path}: it begins with {first[:60]!r}, and not with its readers"
    if len(read) < FEWEST_WITH_READERS:
        yield f"{len(read)} documents, where there are no fewer than {FEWEST_WITH_READERS}"
