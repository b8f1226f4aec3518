"""The comments of the sources, by language, and their texts in quotes."""

import ast
import inspect
import io
import re
import tokenize
from collections import namedtuple

# One comment: the number of its first line, its text with line breaks, and whether it has its lines
# for itself.
Comment = namedtuple("Comment", "line text is_alone")

# A comment of Rust, Rattle, C or Java, or a text in which none begins.
IN_BRACES = re.compile(
    r"""
    (?P<line> //[/!]?\ ?(?P<words> [^\n]*))
    | /\*(?P<block> .*?)\*/
    | "(?P<text> (?:\\.|[^"\\])*)"
    | '(?:\\.|[^'\\\n])'
    """,
    re.VERBOSE | re.DOTALL,
)

MARGIN = re.compile(r"^[ \t]*\*+ ?", re.MULTILINE)

# What an edit does; all else in its file are remarks.
KEY = re.compile(r"(?:found by|only|refused|file|old|new):(?: |$)")

FENCED = re.compile(r"^```.*?(?:^```$|\Z)", re.MULTILINE | re.DOTALL)


def comments_in(path):
    """The comments of a file, or None of a file that is no source."""
    reader = reader_of(path)
    return reader and joined(reader(path.read_text()))


def reader_of(path):
    """What finds the comments of a file, by its ending or by its first line."""
    if path.suffix in BY_ENDING:
        return BY_ENDING[path.suffix]
    if path.name == "allocations":
        return after_numbers
    with path.open("rb") as file:
        first = file.readline(100)
    if not first.startswith(b"#!"):
        return None
    return of_python if b"python" in first else after_numbers


def texts_in(path):
    """The texts in quotes of a file, each with the number of its line; none of a file that is no
    source."""
    reader = reader_of(path)
    if reader is in_braces:
        text = path.read_text()
        for found in IN_BRACES.finditer(text):
            if found["text"]:
                yield text.count("\n", 0, found.start()) + 1, found["text"]
    elif reader is of_python:
        for token in tokenize.generate_tokens(io.StringIO(path.read_text()).readline):
            if token.type == tokenize.STRING and not token.string.startswith('"""'):
                yield token.start[0], token.string


def of_python(text):
    lines = text.splitlines()
    for token in tokenize.generate_tokens(io.StringIO(text).readline):
        (line, column), words = token.start, token.string
        if token.type == tokenize.COMMENT and not (line == 1 and words.startswith("#!")):
            yield Comment(line, words[1:].removeprefix(" "), not lines[line - 1][:column].strip())
    for node in ast.walk(ast.parse(text)):
        if isinstance(node, (ast.Module, ast.ClassDef, ast.FunctionDef)):
            if words := ast.get_docstring(node, clean=False):
                yield Comment(node.body[0].lineno, inspect.cleandoc(words), True)


def in_braces(text):
    for found in IN_BRACES.finditer(text):
        if found["line"] is None and found["block"] is None:
            continue
        begins = text.rfind("\n", 0, found.start()) + 1
        words = found["words"] if found["line"] else inspect.cleandoc(MARGIN.sub("", found["block"]))
        yield Comment(text.count("\n", 0, found.start()) + 1, words, not text[begins : found.start()].strip())


def after_dashes(text):
    return after_marks(text, re.compile(r"\s*-- ?(.*)"))


def after_numbers(text):
    return after_marks(text, re.compile(r"\s*#(?!!) ?(.*)"))


def after_marks(text, mark):
    """Comments that have their lines for themselves, after this mark."""
    for number, line in enumerate(text.splitlines(), 1):
        if found := mark.fullmatch(line):
            yield Comment(number, found[1], True)


def of_edit(text):
    """The remarks of an edit."""
    for number, line in enumerate(text.splitlines(), 1):
        if not KEY.match(line):
            yield Comment(number, line.removeprefix("#").removeprefix(" "), True)


def joined(found):
    """Comments on lines in sequence are one, if they have these lines for themselves."""
    comments = []
    for it in sorted(found):
        last = comments[-1] if comments else None
        if last and last.is_alone and it.is_alone and it.line == last.line + last.text.count("\n") + 1:
            comments[-1] = last._replace(text=f"{last.text}\n{it.text}")
        else:
            comments.append(it)
    return comments


def prose_of(comment):
    """The text of a comment without its examples, which are fenced or indented by four columns."""
    return re.sub(r"^ {4,}.*$", "", FENCED.sub("", comment.text), flags=re.MULTILINE)


BY_ENDING = {
    ".py": of_python,
    ".antt": after_dashes,
    ".edit": of_edit,
    **dict.fromkeys((".rt", ".rs", ".c", ".h", ".java"), in_braces),
}
