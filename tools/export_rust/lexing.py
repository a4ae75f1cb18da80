"""Tokens of Rattle's Rust: what proofs alone read is one token each."""

import re
from collections import namedtuple

# kind: blank, comment, outer (///), inner (//!), string, char, lifetime, number, word, open, close, mark,
# ghost (a whole ghost item), clause (a whole `requires` or `ensures`).
Token = namedtuple("Token", "kind text line")

TRIVIA = {"blank", "comment"}
TEXT_KINDS = {"comment", "outer", "inner", "string", "char"}

PATTERN = re.compile(r"""
    (?P<blank>\s+)
  | (?P<outer>///(?!/)[^\n]*)
  | (?P<inner>//![^\n]*)
  | (?P<comment>//[^\n]*)
  | (?P<string>b?r(?P<hashes>\#*)".*?"(?P=hashes) | b?"(?:\\.|[^"\\])*")
  | (?P<char>b?'(?:\\(?:x[0-9a-fA-F]{2}|u\{[^}]*\}|.)|[^'\\\n])')
  | (?P<lifetime>'[A-Za-z_]\w*)
  | (?P<number>\d\w*(?:\.\d\w*)?)
  | (?P<word>[A-Za-z_]\w*)
  | (?P<open>[({\[])
  | (?P<close>[)}\]])
  | (?P<mark>::|->|=>|\.\.=|\.\.|&&|\|\||<<=|>>=|[-+*/%^&|!=<>]=?|[.,;:@\#$?])
""", re.X | re.S)

CLAUSE_HEAD = re.compile(r"\*?\s*[^\s{}();]*\s*")


class Refused(Exception):
    """A form that the exporter does not know. Its text begins with the file and the line."""


def lex(text, file):
    """The tokens of a source text."""
    tokens = []
    at = 0
    line = 1
    while at < len(text):
        kind, end = next_token(text, at, f"{file}:{line}")
        tokens.append(Token(kind, text[at:end], line))
        line += text.count("\n", at, end)
        at = end
    check_brackets(tokens, file)
    return tokens


def check_brackets(tokens, file):
    """Refuses a bracket that is not closed, or closes nothing."""
    opened = []
    for token in tokens:
        if token.kind == "open":
            opened.append(token)
        elif token.kind == "close" and (not opened or opened.pop().text + token.text not in ("()", "[]", "{}")):
            raise Refused(f"{file}:{token.line}: a bracket that closes nothing")
    if opened:
        raise Refused(f"{file}:{opened[-1].line}: a bracket that is not closed")


def next_token(text, at, place):
    """The kind and the end of the token at `at`."""
    match = PATTERN.match(text, at)
    if not match or not match.group().isascii() and match.lastgroup not in TEXT_KINDS:
        raise Refused(f"{place}: not Rust: {text[at:at + 12]!r}")
    kind = "string" if match.group("string") else match.lastgroup
    word = match.group()
    if kind == "word" and word == "ghost":
        return "ghost", ghost_end(text, match.end(), place)
    if kind == "word" and word in ("requires", "ensures"):
        return "clause", clause_end(text, match.end(), place)
    return kind, match.end()


def ghost_end(text, at, place):
    """Past the ghost item whose word ends at `at`: its `;` or `,`, or up to the `}` of what it stands in."""
    while at < len(text) and text[at] not in ";,}":
        at = braces_end(text, at, place) if text[at] == "{" else at + 1
    if at == len(text):
        raise Refused(f"{place}: a ghost item without an end")
    return at if text[at] == "}" else at + 1


def clause_end(text, at, place):
    """Past the clause whose word ends at `at`."""
    brace = text.find("{", at)
    if brace < 0 or not CLAUSE_HEAD.fullmatch(text[at:brace]):
        raise Refused(f"{place}: a clause that is not a word, a name and a block")
    return braces_end(text, brace, place)


def braces_end(text, at, place):
    """Past the `}` of the `{` at `at`. Braces in comments (`--`) and strings of the logic don't count."""
    depth = 0
    while at < len(text):
        if text.startswith("--", at) and text[at - 1].isspace():
            at = text.find("\n", at)
            if at < 0:
                break
            continue
        if text[at] == '"':
            at = text.find('"', at + 1)
            if at < 0:
                break
        elif text[at] == "{":
            depth += 1
        elif text[at] == "}":
            depth -= 1
            if depth == 0:
                return at + 1
        at += 1
    raise Refused(f"{place}: a brace that is not closed")


def group_end(tokens, at):
    """Past the group that opens at token `at`: `lex` has seen that it closes."""
    depth = 1
    while depth:
        at += 1
        depth += (tokens[at].kind == "open") - (tokens[at].kind == "close")
    return at + 1


def find(tokens, text, at=0):
    """Where the token of this text is that stands in no group, or the end."""
    while at < len(tokens) and tokens[at].text != text:
        at = group_end(tokens, at) if tokens[at].kind == "open" else at + 1
    return at


def before(tokens, at):
    """The index of the last token before `at` that says something, or -1."""
    at -= 1
    while at >= 0 and tokens[at].kind in TRIVIA:
        at -= 1
    return at


def after(tokens, at):
    """The index of the first token after `at` that says something, or the end."""
    at += 1
    while at < len(tokens) and tokens[at].kind in TRIVIA:
        at += 1
    return at


def text_at(tokens, at):
    """The text of the token at `at`, or "" outside."""
    return tokens[at].text if 0 <= at < len(tokens) else ""


def trimmed(tokens):
    """The tokens without blanks and comments at both ends."""
    first, last = after(tokens, -1), before(tokens, len(tokens))
    return tokens[first:last + 1]
