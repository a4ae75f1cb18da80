"""What derives write in Rattle and none of Rust's does: `Display` and `Error` of an error, and copies that may be refused."""

import re
from collections import namedtuple

from lexing import TRIVIA, after, find, group_end, text_at
from rewriting import MEMORY

# A struct, or a variant: its name, its fields' names or numbers, whether they have names, and what `error(..)` says.
Shape = namedtuple("Shape", "name fields named shown")


def shapes_of(translator, tokens, lead):
    """The shapes of a struct (one) or an enum (one a variant), and the item's name and parameters."""
    words = tokens[translator.past_visibility(tokens):]
    name_at = after(words, 0)
    name = words[name_at].text
    rest = after(words, name_at)
    parameters = ""
    if text_at(words, rest) == "<":
        close = find(words, ">", rest)
        parameters = "".join(token.text for token in words[rest:close + 1])
    opening = next(n for n in range(len(words)) if words[n].kind == "open" or words[n].text == ";")
    if text_at(words, 0) == "struct":
        return name, parameters, [shape(translator, "Self", words, opening, lead.shown)]
    inside = words[opening + 1:group_end(words, opening) - 1]
    return name, parameters, [shape(translator, f"Self::{part[0].text}", part, after(part, 0), told.shown)
                              for told, part in members(translator, inside)]


def members(translator, inside):
    """The fields or variants of a block, each with its lead, without ghosts."""
    at = 0
    while True:
        lead, at = translator.lead(inside, at)
        if at >= len(inside):
            return
        ghost = translator.ghost_at(inside, at)
        if ghost is not None:
            at = ghost + 1
            continue
        end = min(past_type(inside, at) + 1, len(inside))
        part = inside[at:end]
        yield lead, part[translator.past_visibility(part):]
        at = end


def past_type(tokens, at):
    """The comma that ends a field, or the end: one between the parameters of a type is part of it."""
    end = find(tokens, ",", at)
    while end < len(tokens) and sum((token.text == "<") - (token.text == ">") for token in tokens[at:end]) > 0:
        end = find(tokens, ",", end + 1)
    return end


def shape(translator, path, tokens, opening, shown):
    """The shape of a struct or a variant whose fields open at `opening`, where it has any."""
    if opening >= len(tokens) or tokens[opening].kind != "open":
        return Shape(path, [], False, shown)
    inside = tokens[opening + 1:group_end(tokens, opening) - 1]
    named = tokens[opening].text == "{"
    fields = [part[0].text if named else f"_{n}" for n, (_, part) in enumerate(members(translator, inside))]
    return Shape(path, fields, named, shown)


def pattern(of, used):
    """A pattern that binds these fields of a shape."""
    if not of.fields:
        return of.name
    if of.named:
        names = [name for name in of.fields if name in used]
        return f"{of.name} {{ {', '.join(names + ['..'] * (len(names) < len(of.fields)))} }}"
    return f"{of.name}({', '.join(name if name in used else '_' for name in of.fields)})"


def error_impls(translator, tokens, lead):
    """`Display` and `Error` for an error, whose attributes `error(..)` give the texts."""
    name, parameters, shapes = shapes_of(translator, tokens, lead)
    arms = "".join(f"            {arm(translator, tokens[0], of)},\n" for of in shapes)
    return f"\n\nimpl{parameters} core::fmt::Display for {name}{parameters} {{\n" \
        + "    fn fmt(&self, f: &mut core::fmt::Formatter<'_>) -> core::fmt::Result {\n" \
        + f"        match self {{\n{arms}        }}\n    }}\n}}\n\nimpl{parameters} core::error::Error for {name}{parameters} {{}}"


def arm(translator, token, of):
    """The arm of a shape: what its attribute says."""
    if of.shown is None:
        translator.refuse(token, f"an error without a text: {of.name}")
    words = [shown for shown in of.shown if shown.kind not in TRIVIA]
    if len(words) < 4 or words[2].kind != "string":
        translator.refuse(token, f"a text of an error that is not known: {''.join(word.text for word in words)}")
    text = re.sub(r"\{(\d+)", r"{_\1", words[2].text)
    used = set(re.findall(r"\{(\w+)", text)) | {word.text for word in words[3:]}
    more = translator.rewriter.code(of.shown[of.shown.index(words[2]) + 1:-1])
    return f"{pattern(of, used)} => write!(f, {text}{more})"


def clone_impl(translator, tokens, lead):
    """`try_clone` for a type whose copy may be refused."""
    name, parameters, shapes = shapes_of(translator, tokens, lead)
    translator.rewriter.traits.add(MEMORY)
    arms = "".join(f"            {pattern(of, of.fields)} => {copied(of)},\n" for of in shapes)
    return f"\n\nimpl{parameters} {name}{parameters} {{\n    /// A copy. `AllocError` where there is no memory for it.\n" \
        + "    pub fn try_clone(&self) -> Result<Self, crate::rattle::alloc::AllocError> {\n        Ok(match self {\n" \
        + f"{arms}        }})\n    }}\n}}"


def copied(of):
    """A copy of what a pattern has bound."""
    if not of.fields:
        return of.name
    if of.named:
        return f"{of.name} {{ {', '.join(f'{name}: {name}.try_clone()?' for name in of.fields)} }}"
    return f"{of.name}({', '.join(f'{name}.try_clone()?' for name in of.fields)})"
