"""Code of Rattle as code of Rust: paths, and what takes memory or is taken of Rattle's runtime.

Everything else is copied byte for byte. What may mean something else in Rust is refused.
"""

import rules
from lexing import Refused, after, before, find, group_end, text_at

# The traits of calls that take memory.
MEMORY = "crate::rattle::memory::*"


class Rewriter:
    """Rewrites the code of one file."""

    def __init__(self, crate, file, neighbours, holder, hosted):
        self.crate = crate              # the crate's name
        self.file = file                # for refusals
        self.neighbours = neighbours    # the exported crates that it stands on
        self.holder = holder            # the rules of the crate of plain Rust that it becomes a part of
        self.hosted = hosted            # whether this code may take memory
        self.traits = set()             # the traits that its calls need
        self.theorems = set()               # the theorems of crates below that the file takes

    def refuse(self, token, why):
        raise Refused(f"{self.file}:{token.line}: {why}")

    def code(self, tokens):
        """The Rust for these tokens."""
        out = []
        at = 0
        while at < len(tokens):
            text, at = self.piece(tokens, at)
            out.append(text)
        return "".join(out)

    def piece(self, tokens, at):
        """The Rust for what begins at `at`, and where the next piece begins."""
        token = tokens[at]
        if token.kind == "ghost":
            self.refuse(token, "a ghost item within code")
        if token.kind == "clause":
            self.refuse(token, "a clause within code, as of a closure")
        if token.text == "..":
            self.check_range(tokens, at)
        if token.kind == "word":
            return self.word(tokens, at)
        return token.text, at + 1

    def check_range(self, tokens, at):
        """Refuses `250u8..`, whose end is another in Rattle; a pattern's `..` and a slice's are well."""
        before_it, after_it = text_at(tokens, before(tokens, at)), text_at(tokens, after(tokens, at))
        if after_it in ("{", ")") and before_it not in ("{", "(", ",", "|", "[") and not self.is_in_get(tokens, at):
            self.refuse(tokens[at], "a range without an end")

    def is_in_get(self, tokens, at):
        """Whether a range is the argument of `get`, where it means what it does in Rust."""
        depth = 0
        for n in range(at - 1, -1, -1):
            depth += (tokens[n].kind == "close") - (tokens[n].kind == "open")
            if depth < 0:
                return text_at(tokens, before(tokens, n)) == "get"
        return False

    def word(self, tokens, at):
        """The Rust for what begins with a word."""
        token = tokens[at]
        last = text_at(tokens, before(tokens, at))
        following = after(tokens, at)
        next_text = text_at(tokens, following)
        if token.text in self.theorems and last in (";", "{", "}"):
            return "", find(tokens, ";", at) + 1
        if token.text in rules.REFUSED_WORDS or token.text == "static" and next_text == "mut":
            self.refuse(token, f"`{token.text}` is not exported")
        if next_text == "!" and text_at(tokens, after(tokens, following)) in ("(", "[", "{"):
            return self.macro(tokens, at, after(tokens, following))
        if last in (".", "::") and next_text == "(":
            self.note_call(tokens, at, last)
        if last == "." and next_text in ("(", "::"):
            return self.method(tokens, at)
        if last not in (".", "::") and next_text == "::":
            return self.path(tokens, at, after(tokens, following))
        if token.text in rules.HOSTED_WORDS and last not in (".", "::"):
            return self.only_hosted(token, f"crate::rattle::{token.text}"), at + 1
        return token.text, at + 1

    def only_hosted(self, token, text):
        """This text, where code may use the runtime."""
        if not self.hosted:
            self.refuse(token, f"`{token.text}` has no like on a chip")
        return text

    def note_call(self, tokens, at, last):
        """Notes the trait by which a crate above makes a call outside the stable interface: `.name(`, or `Type::name(`."""
        of = text_at(tokens, before(tokens, before(tokens, at)))
        for crate in self.neighbours:
            holder = self.holder.holder(crate)
            for (held, name), trait in holder.calls.items():
                subject, method = name.split("::")
                if holder is not self.holder and held == crate and method == tokens[at].text and (last == "." or of == subject):
                    self.traits.add(f"{holder.library}::calls::{trait} as _")

    # Paths

    def path(self, tokens, at, next_at):
        """The first word of a path. The token at `next_at` is its second part."""
        token = tokens[at]
        if token.text == "crate":
            return f"crate::parts::{self.crate}", at + 1
        if token.text in self.neighbours:
            holder = self.holder.holder(token.text)
            return f"{'crate' if holder is self.holder else holder.library}::parts::{token.text}", at + 1
        if token.text in rules.STAND_INS:
            return f"crate::rattle::{token.text}", at + 1
        if token.text == "str":
            return "core::str", at + 1
        if token.text == "std":
            return self.std(token, text_at(tokens, next_at)), at + 1
        if token.text == "Vec" and text_at(tokens, next_at) in rules.VEC_CALLS:
            return self.only_hosted(token, "crate::rattle::vec"), at + 1
        if token.text in rules.HOSTED_WORDS:
            return self.only_hosted(token, f"crate::rattle::{token.text}"), at + 1
        return token.text, at + 1

    def std(self, token, module):
        """What replaces `std` before this module of it."""
        if module in rules.STD_STAND_INS:
            return "crate::rattle"
        if module in rules.STD_HOSTED:
            return self.only_hosted(token, "std")
        if module in rules.STD_CORE:
            return "core"
        return self.refuse(token, f"`std::{module}` is not exported")

    # Calls

    def method(self, tokens, at):
        """The name of a method that is called."""
        token = tokens[at]
        if token.text not in rules.REFUSED_METHODS or self.is_own(tokens, at):
            return token.text, at + 1
        if not self.hosted or token.text == "expect":
            self.refuse(token, f"`.{token.text}()` may mean something else in Rust")
        if token.text in rules.MEMORY_METHODS:
            self.traits.add(MEMORY)
            return rules.MEMORY_METHODS[token.text], at + 1
        return token.text, at + 1

    def is_own(self, tokens, at):
        """Whether the method at `at` is called on `self`."""
        receiver = before(tokens, before(tokens, at))
        return text_at(tokens, receiver) == "self" and text_at(tokens, before(tokens, receiver)) != "."

    def macro(self, tokens, at, opening):
        """The name of a macro and what Rust's lacks of its arguments; the group opens at `opening`."""
        token = tokens[at]
        end = group_end(tokens, opening)
        inside = tokens[opening + 1:end - 1]
        semicolon = find(inside, ";")
        is_in = text_at(inside, after(inside, -1)) == "in"
        if token.text == "vec" and self.hosted and is_in:
            return self.vector(token, inside[after(inside, after(inside, -1)):]), end
        if token.text in rules.WRITING_MACROS and semicolon == len(inside):
            return f"{token.text}!{tokens[opening].text}", opening + 1
        if token.text in rules.KEPT_MACROS and semicolon == len(inside) and (token.text == "matches" or not inside):
            return f"{token.text}!{tokens[opening].text}", opening + 1
        return self.refuse(token, f"`{token.text}!` with these arguments")

    def vector(self, token, inside):
        """`vec![in alloc; value; count]`, of whose arguments these are left: what comes after `in`."""
        first = find(inside, ";")
        second = find(inside, ";", first + 1)
        if second >= len(inside):
            self.refuse(token, "`vec!` without a value and a count")
        parts = (inside[:first], inside[first + 1:second], inside[second + 1:])
        return f"crate::rattle::vec::of({', '.join(self.code(part).strip() for part in parts)})"
