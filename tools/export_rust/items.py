"""The items of a file: what proofs alone read is left out, and the rest is Rust."""

import re

import rules
from lexing import TRIVIA, Token, after, before, find, group_end, lex, text_at
from deriving import clone_impl, error_impls
from rewriting import MEMORY, Rewriter
from unstarted import unstarted_impl


class Lead:
    """What stands before an item: blanks and comments, its docs and its attributes."""

    def __init__(self):
        self.blanks = ""
        self.docs = []
        self.attributes = []
        self.words = []         # of each attribute, also of one that is left out
        self.shown = None       # the tokens of the attribute `error(..)`


class Translator:
    """Translates one file. `module` is its path within the crate, "" for the crate's root."""

    def __init__(self, crate, module, file, neighbours, holder, hosted=False, contracts=False):
        self.crate, self.module, self.contracts = crate, module, contracts
        self.holder = holder                            # the rules of the crate that it becomes a part of
        self.rewriter = Rewriter(crate, file, neighbours, holder, hosted)
        self.neighbours = neighbours
        self.open_module = lambda name, hosted: True    # whether anything is left of the file of a module
        self.of = ""                                    # the type of the impl that is translated, or the trait
        self.met = set()                                # the entries of the rules that were met with

    def refuse(self, token, why):
        self.rewriter.refuse(token, why)

    def translate(self, text):
        """The Rust for a file's text."""
        made = self.items(without_drop_bounds(lex(text, self.rewriter.file)), 0)
        if self.rewriter.traits:
            made += "\n" + "".join(f"#[allow(unused_imports)]\nuse {name};\n" for name in sorted(self.rewriter.traits))
        return tidy(made)

    # Items

    def items(self, tokens, depth):
        """The Rust for the items of a file, a module, an impl or a trait."""
        return self.parts(tokens, depth, self.item_end, lambda lead, item: self.item(lead, item, depth))

    def parts(self, tokens, depth, end_of, text_of):
        """The Rust for what stands side by side, each part with its lead. A ghost part is left out."""
        out = []
        at = 0
        while at < len(tokens):
            lead, at = self.lead(tokens, at)
            if at == len(tokens):
                out.append(lead.blanks)
                break
            ghost = self.ghost_at(tokens, at)
            if ghost is not None:
                text, end = None, ghost + 1
            else:
                end = end_of(tokens, at)
                text = text_of(lead, tokens[at:end])
            out.append(self.assembled(lead, text, depth))
            at = end
        return "".join(out)

    def ghost_at(self, tokens, at):
        """Where the ghost part is that begins at `at`, maybe after `pub` or `pub(..)`, or None."""
        if text_at(tokens, at) == "pub":
            at += self.past_visibility(tokens[at:])
        return at if at < len(tokens) and tokens[at].kind == "ghost" else None

    def assembled(self, lead, text, depth):
        """An item's text after its lead; of one that is left out the comments before it stay."""
        if text is None:
            return lead.blanks if lead.blanks.strip() else ""
        indent = "    " * depth
        return lead.blanks + "".join(line + "\n" + indent for line in lead.docs + lead.attributes) + text

    def lead(self, tokens, at):
        """What stands before the item at `at`, and where the item begins."""
        lead = Lead()
        while at < len(tokens):
            token = tokens[at]
            if token.kind == "inner" or token.kind in TRIVIA and not lead.docs and not lead.words:
                lead.blanks += token.text
            elif token.kind in ("outer", "comment"):
                lead.docs.append(token.text)
            elif token.text == "#":
                at = self.attribute(tokens, at, lead)
                continue
            elif token.kind != "blank":
                break
            at += 1
        return lead, at

    def attribute(self, tokens, at, lead):
        """Takes the attribute at `at`, and answers its end."""
        is_inner = text_at(tokens, at + 1) == "!"
        opening = at + 1 + is_inner
        end = group_end(tokens, opening)
        words = [token.text for token in tokens[opening + 1:end - 1] if token.kind not in TRIVIA]
        if words[0] in rules.DROPPED_ATTRIBUTES:
            pass
        elif is_inner:
            self.refuse(tokens[at], f"an inner attribute: {words[0]}")
        elif words[0] == "derive":
            lead.attributes += self.derive(tokens[at], words[2:-1])
        elif words[0] == "error":
            lead.shown = tokens[opening + 1:end - 1]
        elif words[0] in rules.KEPT_ATTRIBUTES:
            lead.attributes.append("".join(token.text for token in tokens[at:end]))
        else:
            self.refuse(tokens[at], f"an attribute that is not known: {words[0]}")
        if not is_inner:
            lead.words.append(words)
        return end

    def derive(self, token, words):
        """The derive of these names, if any of them is left."""
        names = [word for word in words if word not in {",", "Error"} | rules.DROPPED_DERIVES]
        for name in names:
            if name not in rules.DERIVES:
                self.refuse(token, f"a derive that is not known: {name}")
        return [f"#[derive({', '.join(names)})]"] if names else []

    def item_end(self, tokens, at):
        """Past the item at `at`: its `;`, or its block."""
        ends_by_semicolon = self.kind(tokens[at:]) in ("use", "const", "static", "type")
        n = at
        while n < len(tokens):
            if tokens[n].text == ";":
                return n + 1
            if tokens[n].kind == "open":
                is_block = tokens[n].text == "{"
                n = group_end(tokens, n)
                if is_block and not ends_by_semicolon:
                    return n
            else:
                n += 1
        return self.refuse(tokens[at], "an item without an end")

    def kind(self, tokens):
        """The word that says what an item is."""
        at = self.past_visibility(tokens)
        if text_at(tokens, at) == "const" and text_at(tokens, after(tokens, at)) == "fn":
            return "fn"
        return text_at(tokens, at)

    def past_visibility(self, tokens):
        """Where an item goes on after `pub` or `pub(..)`."""
        at = after(tokens, -1)
        if text_at(tokens, at) != "pub":
            return at
        at = after(tokens, at)
        return after(tokens, group_end(tokens, at) - 1) if text_at(tokens, at) == "(" else at

    def item(self, lead, tokens, depth):
        """The Rust for one item, or None where it is for proofs alone."""
        kind = self.kind(tokens)
        if kind == "mod":
            return self.module_item(lead, tokens, depth)
        if kind == "use":
            return self.use(lead, tokens)
        if kind in ("impl", "trait"):
            return self.implementation(tokens, depth)
        if kind in ("struct", "enum"):
            return self.data_type(lead, tokens, depth)
        if kind == "fn":
            return self.function(lead, tokens)
        if kind in ("const", "static", "type"):
            return self.rewriter.code(tokens)
        return self.refuse(tokens[0], f"an item that is not known: {kind}")

    def data_type(self, lead, tokens, depth):
        """A struct or an enum, and what its derives write in Rattle and none of Rust's does."""
        at = self.past_visibility(tokens)
        key = (self.crate, text_at(tokens, after(tokens, at)))
        derived = [word for words in lead.words if words[0] == "derive" for word in words]
        text = self.in_block(tokens, depth, self.fields)
        if key in self.holder.derives:
            self.met.add(key)
            lead.attributes.append(f"#[derive({', '.join(self.holder.derives[key])})]")
        if "Error" in derived:
            text += error_impls(self, tokens, lead)
        if key in self.holder.fallible_clones:
            self.met.add(key)
            if "Clone" not in derived:
                self.refuse(tokens[0], f"{key[1]}, which derives no `Clone`")
            text += clone_impl(self, tokens, lead)
        if key in self.holder.unstarted:
            self.met.add(key)
            text += unstarted_impl(self, tokens, self.holder.unstarted[key])
        return text

    def in_block(self, tokens, depth, inside):
        """Code, with what its block holds translated by `inside`."""
        brace = find(tokens, "{")
        if brace == len(tokens):
            return self.rewriter.code(tokens)
        end = group_end(tokens, brace)
        return self.rewriter.code(tokens[:brace + 1]) + inside(tokens[brace + 1:end - 1], depth + 1) \
            + self.rewriter.code(tokens[end - 1:])

    # Modules, uses, impls

    def module_item(self, lead, tokens, depth):
        """A module with its block, or one whose file is beside; one of which nothing is left is left out."""
        name_at = after(tokens, self.past_visibility(tokens))
        name = tokens[name_at].text
        if name in self.neighbours:
            self.refuse(tokens[0], f"a module with the name of the crate {name}")
        key = (self.crate, self.joined(name))
        condition = self.holder.conditions.get(key)
        if condition == rules.LEFT_OUT:
            return None
        hosted = self.rewriter.hosted or key in self.holder.hosted
        self.put_condition(lead, condition)
        if text_at(tokens, after(tokens, name_at)) == ";":
            return self.rewriter.code(tokens) if self.open_module(name, hosted) else None
        outer, self.rewriter.hosted = self.rewriter.hosted, hosted
        text = self.in_block(tokens, depth, self.items)
        self.rewriter.hosted = outer
        return text

    def joined(self, name):
        """The path of a module that is declared here."""
        return f"{self.module}/{name}" if self.module else name

    def use(self, lead, tokens):
        """A `use`, under the condition of the module that it names."""
        words = [token.text for token in tokens if token.kind not in TRIVIA]
        first = text_at(tokens, after(tokens, self.past_visibility(tokens)))
        if words[-2] == rules.PROVER_TRAIT or first in rules.DERIVING_LIBRARIES:
            return None
        if words[1] in self.neighbours and words[2:4] == ["::", "theorems"]:
            return self.theorems(tokens[0], words[4:])
        condition = self.holder.conditions.get((self.crate, self.joined(first)))
        if condition == rules.LEFT_OUT:
            return None
        self.put_condition(lead, condition)
        return self.rewriter.code(tokens)

    def put_condition(self, lead, condition):
        """Puts an item under a condition."""
        if condition:
            lead.attributes.append(f"#[cfg({condition})]")

    def theorems(self, token, words):
        """A `use` of theorems of a crate below is left out, as are their calls."""
        names = {word for word in words if word.isidentifier()}
        if not names or "*" in words:
            self.refuse(token, "theorems of another crate without their names")
        self.rewriter.theorems |= names

    def implementation(self, tokens, depth):
        """An impl or a trait. One of the prover's trait is left out."""
        head = [token.text for token in tokens[:find(tokens, "{")] if token.kind not in TRIVIA]
        implemented = head[:head.index("for")] if "for" in head else []
        if rules.PROVER_TRAIT in implemented:
            return None
        if "Drop" in implemented:
            self.refuse(tokens[0], "an `impl Drop`, which takes `self` in Rattle")
        if "Clone" in implemented:
            tokens = self.without_clone(tokens)
        self.of = self.subject(tokens)
        text = self.in_block(tokens, depth, self.items)
        self.of = ""
        return text

    def subject(self, tokens):
        """The name of the type of an impl, or of a trait."""
        head = tokens[:find(tokens, "{")]
        at = find(head, "for") if find(head, "for") < len(head) else self.past_visibility(head)
        at = after(head, at)
        if text_at(head, at) == "<":
            depth = 1
            while depth:
                at = after(head, at)
                depth += (text_at(head, at) == "<") - (text_at(head, at) == ">")
            at = after(head, at)
        return text_at(head, at)

    def without_clone(self, tokens):
        """An `impl Clone for X`, whose `clone` may be refused in Rattle, as an `impl X` with `try_clone`."""
        clone, to = find(tokens, "Clone"), find(tokens, "for")
        if not self.holder.allocs or before(tokens, clone) != 0:
            self.refuse(tokens[0], "an `impl Clone` where no memory may be taken, or with parameters")
        brace = find(tokens, "{")
        name = find(tokens[brace + 1:], "clone") + brace + 1
        if name >= len(tokens) or text_at(tokens, before(tokens, name)) != "fn":
            self.refuse(tokens[0], "an `impl Clone` without `clone`")
        self.rewriter.traits.add(MEMORY)
        function = [Token("word", "pub", tokens[name].line), Token("blank", " ", tokens[name].line), *tokens[before(tokens, name):name],
                    tokens[name]._replace(text="try_clone")]
        docs = [Token("outer", "/// A copy. `AllocError` where there is no memory for it.", tokens[name].line)]
        return tokens[:clone] + tokens[after(tokens, to):before(tokens, name)] + docs + function + tokens[name + 1:]

    def fields(self, tokens, depth):
        """The fields of a struct, or the variants of an enum, without ghost fields."""

        def end_of(tokens, at):
            return min(find(tokens, ",", at) + 1, len(tokens))

        return self.parts(tokens, depth, end_of, lambda lead, part: self.in_block(part, depth, self.fields))

    # Functions

    def function(self, lead, tokens):
        """A function without its contract, or None for a theorem, which has no parameters, no result and no body."""
        brace = find(tokens, "{")
        clauses = [token for token in tokens[:brace] if token.kind == "clause"]
        name = tokens[after(tokens, find(tokens, "fn"))].text
        tokens = self.without_clauses(tokens, brace)
        if clauses and self.is_theorem(tokens):
            return None
        tokens = self.formatter(tokens)
        self.inline(lead, tokens, (self.crate, f"{self.of}::{name}" if self.of else name))
        if self.of and self.is_public(tokens):
            has_condition = any(clause.text.startswith("requires") for clause in clauses)
            tokens = self.method(lead, tokens, (self.crate, f"{self.of}::{name}"), has_condition)
        if self.contracts:
            lead.docs += contract(clauses, bool(lead.docs))
        return self.rewriter.code(tokens)

    def without_clauses(self, tokens, brace):
        """A function whose body begins at `brace`, without the clauses before it and the comments on them."""
        first = next((n for n in range(brace) if tokens[n].kind == "clause"), None)
        if first is None:
            return tokens
        last = max(n for n in range(min(brace, len(tokens))) if tokens[n].kind == "clause")
        for token in tokens[first:last]:
            if token.kind not in TRIVIA | {"clause"}:
                self.refuse(token, "code between clauses")
        rest = after(tokens, last)
        gap = [] if text_at(tokens, rest) == ";" else [Token("blank", " ", tokens[rest].line)]
        return tokens[:before(tokens, first) + 1] + gap + tokens[rest:]

    def is_theorem(self, tokens):
        """Whether a function is `fn name() {}`, or `fn name<E: Trait>() {}`."""
        words = [token.text for token in tokens[self.past_visibility(tokens):] if token.kind not in TRIVIA]
        of_types = words[2] == "<" and words[-5] == ">" and "(" not in words[2:-4]
        return words[0] == "fn" and words[-4:] == ["(", ")", "{", "}"] and (of_types or len(words) == 6)

    def inline(self, lead, tokens, key):
        """Says of a function that the rules name that it is inlined."""
        if key in self.holder.inlined:
            self.met.add(key)
            if any(words[0] == "inline" for words in lead.words):
                self.refuse(tokens[0], f"{key[1]}, which says itself how it is inlined")
            lead.attributes.append("#[inline(always)]")

    def method(self, lead, tokens, key, has_condition):
        """A public method of a type. Of one that asks something of its caller the docs say it, or only the crate may
        call it, as one that takes a type which has no name outside. (A function is reached by `parts` alone.)"""
        if key in self.holder.owed and has_condition:
            self.met.add(key)
            lead.docs = [f"/// {self.holder.owed[key]}", "///"] + lead.docs
            return tokens
        if key in self.holder.hidden:
            self.met.add(key)
        elif not has_condition:
            return tokens
        return self.for_the_crate(tokens)

    def formatter(self, tokens):
        """`fmt`, or a function that it calls, without its parameter, the writer of a `Formatter`."""
        opening = after(tokens, after(tokens, find(tokens, "fn")))
        words = [token.text for token in tokens[opening:opening + 9] if token.kind not in TRIVIA]
        of_formatters = {n for n in range(len(tokens)) if [text_at(tokens, at) for at in range(n - 2, n + 1)] == ["Formatter", "<", "W"]}
        if words[:6] != ["<", "W", ":", "fmt", "::", "Write"] or not of_formatters:
            return tokens
        made = [token._replace(text="'_") if n in of_formatters else token for n, token in enumerate(tokens)]
        return made[:opening] + made[find(tokens, ">", opening) + 1:]

    def is_public(self, tokens):
        """Whether a function begins with a plain `pub`."""
        return text_at(tokens, 0) == "pub" and text_at(tokens, after(tokens, 0)) != "("

    def for_the_crate(self, tokens):
        """A public function that only the crate may call."""
        return [Token("word", "pub(crate)", tokens[0].line)] + tokens[1:]


def contract(clauses, has_docs):
    """A contract as lines of docs."""
    if not clauses:
        return []
    lines = [re.sub(r"\s+", " ", clause.text) for clause in clauses]
    return ["///"] * has_docs + ["/// Proved of the source:", "/// ```text"] + [f"/// {line}" for line in lines] + ["/// ```"]


def without_drop_bounds(tokens):
    """The tokens without `+ Drop` and `: Drop`, a bound that says in Rattle what Rust does by itself."""
    out = []
    for token in tokens:
        if token == Token("word", "Drop", token.line):
            sign = before(out, len(out)) if out else -1
            if text_at(out, sign) in ("+", ":"):
                del out[before(out, sign) + 1:]
                continue
        out.append(token)
    return out


def tidy(text):
    """Blank lines as rustfmt has them: one in a row, and none at both ends of a block."""
    tokens = lex(text, "the export")
    out = []
    for n, token in enumerate(tokens):
        if token.kind != "blank":
            out.append(token.text)
            continue
        most = 1 if text_at(tokens, n - 1) == "{" or text_at(tokens, n + 1) == "}" else 2
        breaks = token.text.count("\n")
        out.append("\n" * min(breaks, most) + token.text[token.text.rfind("\n") + 1:] if breaks else token.text)
    return fenced("".join(out).strip("\n") + "\n")


def fenced(text):
    """Code in docs as text, where it says nothing else: it is Rattle's, and no example of Rust."""
    opened = False
    lines = text.split("\n")
    for n, line in enumerate(lines):
        if re.fullmatch(r"\s*//[/!] ```\w*", line):
            if not opened and line.endswith("```"):
                lines[n] = line + "text"
            opened = not opened
    return "\n".join(lines)
