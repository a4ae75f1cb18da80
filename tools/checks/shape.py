"""Checks the shape of the source: files of at most 500 lines, functions of at most 40.

A function's lines are those from its opening brace (in Python from its `def`) to its end, without those of functions inside it,
of texts over several lines (rows, usages, scripts) and, in Python, of its docstring. Generated files and tables are left out.
What is longer than that is printed, with its lines, and the status is 1.
"""

import argparse
import ast
import os
import re
import subprocess
import sys

ROOT = os.path.dirname(os.path.dirname(os.path.dirname(os.path.abspath(__file__))))

FILE_LINES = 500
FUNCTION_LINES = 40

SOURCES = (".rt", ".antt", ".rs", ".py", ".c", ".h", ".js", ".css", ".sh")

# What a program writes, and tables.
LEFT_OUT = [
    r"rust/[^/]+/src/parts/",
    r"completions/",
    r"crates/explanations/src/usages\.rt$",
    r"rust/wuzhikar-hid/src/usages\.rs$",
    r"c/reader/hid_usages\.h$",
]

# What begins a function in a language with braces, up to its name. A closure of Rust belongs to the function around it.
RUST = re.compile(r"\bfn\s+(\w+)")
C = re.compile(r"^(?!\s|#|typedef|struct|enum|union|static const|extern)[\w*\s]*?\b(\w+)\s*(?=\()", re.MULTILINE)
JAVASCRIPT = re.compile(r"\bfunction\b\s*\*?\s*(\w*)|^\s*(?:static |async |get |set |\*)*(?!if\b|for\b|while\b|switch\b|catch\b|return\b)(\w+)"
                        r"\([^()]*\)\s*(?=\{)|=>\s*(?=\{)", re.MULTILINE)
BEGINS = {".rt": RUST, ".rs": RUST, ".c": C, ".h": C, ".js": JAVASCRIPT}

# Comments and texts. A quote of Rust that no other one closes begins a lifetime.
RUST_TEXT = r'//[^\n]*|/\*.*?\*/|r(#*)".*?"\1|"(?:\\.|[^"\\])*"' + r"|'(?:\\[^\n]{1,8}?|[^'\\\n])'"
C_TEXT = r'//[^\n]*|/\*.*?\*/|"(?:\\.|[^"\\])*"' + r"|'(?:\\.|[^'\\\n])+'"
JAVASCRIPT_TEXT = C_TEXT + r"|`(?:\\.|[^`\\])*`"
TEXTS = {".rt": RUST_TEXT, ".rs": RUST_TEXT, ".c": C_TEXT, ".h": C_TEXT, ".js": JAVASCRIPT_TEXT}


def bare(text, kind):
    """The text with each comment and text in it blank, and the numbers of the lines that a text over several lines fills."""
    filled = set()

    def blank(found):
        part = found.group(0)
        if "\n" in part and not part.startswith("/"):
            first = text.count("\n", 0, found.start()) + 1
            filled.update(range(first + 1, first + part.count("\n") + 1))
        return re.sub(r"[^\n]", " ", part)

    return re.sub(TEXTS[kind], blank, text, flags=re.DOTALL), filled


def closing(text, opening):
    """The place of the brace that closes the one at this place."""
    depth = 0
    for place in range(opening, len(text)):
        if text[place] == "{":
            depth += 1
        elif text[place] == "}":
            depth -= 1
            if depth == 0:
                return place
    return len(text) - 1


def body_of(text, start, kind):
    """Where the body of the function that begins here opens, or None: a declaration has none."""
    place, depth = start, 0
    while place < len(text):
        letter = text[place]
        if letter in "([":
            depth += 1
        elif letter in ")]":
            depth -= 1
        elif letter == ";" and depth == 0:
            return None
        elif letter == "{" and depth == 0:
            clause = re.search(r"\b(?:ensures|requires|decreases)\b[^{}\n]*$", text[start:place])
            if kind != ".rt" or not clause:
                return place
            place = closing(text, place)
        place += 1
    return None


def with_braces(text, kind):
    """The functions of a source with braces: name, first line, and the set of its body's lines."""
    clean, filled = bare(text, kind)
    for begun in BEGINS[kind].finditer(clean):
        opening = body_of(clean, begun.end(), kind)
        if opening is None:
            continue
        name = next((group for group in begun.groups() if group), "a function")
        first = clean.count("\n", 0, opening) + 1
        last = clean.count("\n", 0, closing(clean, opening)) + 1
        yield name, first, set(range(first, last + 1)) - filled


def with_indents(text):
    """The same of Python."""
    filled = set()
    tree = ast.parse(text)
    for node in ast.walk(tree):
        if isinstance(node, (ast.Constant, ast.JoinedStr)) and node.end_lineno > node.lineno:
            filled.update(range(node.lineno + 1, node.end_lineno + 1))
    for node in ast.walk(tree):
        if isinstance(node, (ast.FunctionDef, ast.AsyncFunctionDef)):
            lines = set(range(node.lineno, node.end_lineno + 1)) - filled
            if ast.get_docstring(node) is not None:
                lines.discard(node.body[0].lineno)
            yield node.name, node.lineno, lines


def functions(text, kind):
    """The functions of a source, each by its name, its first line, and how many lines are its own."""
    if kind == ".py":
        found = list(with_indents(text))
    elif kind in BEGINS:
        found = list(with_braces(text, kind))
    else:
        found = []
    for name, first, lines in found:
        inside = [other for _, begun, other in found if begun > first and other < lines]
        yield name, first, len(lines.difference(*inside))


def too_long(path, text):
    """What of a source is too long, a line each."""
    count = text.count("\n")
    if count > FILE_LINES:
        yield f"{path}: {count} lines, where {FILE_LINES} are the most"
    for name, first, lines in functions(text, os.path.splitext(path)[1]):
        if lines > FUNCTION_LINES:
            yield f"{path}:{first}: {name} has {lines} lines, where {FUNCTION_LINES} are the most"


def sources():
    """The paths of the sources that are looked at."""
    listed = subprocess.run(["git", "ls-files", "-co", "--exclude-standard"], cwd=ROOT, check=True, stdout=subprocess.PIPE, text=True)
    for path in listed.stdout.split("\n"):
        if path.endswith(SOURCES) and os.path.exists(f"{ROOT}/{path}") and not any(re.match(rule, path) for rule in LEFT_OUT):
            yield path


def main():
    argparse.ArgumentParser(description=__doc__, formatter_class=argparse.RawDescriptionHelpFormatter).parse_args()
    count, found = 0, []
    for path in sources():
        count += 1
        with open(f"{ROOT}/{path}", encoding="utf-8") as file:
            found.extend(too_long(path, file.read()))
    print("\n".join(found) if found else f"{count} files, of at most {FILE_LINES} lines, with functions of at most {FUNCTION_LINES}")
    sys.exit(1 if found else 0)


if __name__ == "__main__":
    main()
