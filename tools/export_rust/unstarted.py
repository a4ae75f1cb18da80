"""What lies in memory before a keyboard starts there: a constant of each type that a keyboard is made of."""

import rules
from deriving import members
from lexing import after, find, group_end, text_at, trimmed

# Zeros, by the first word of a type. Every other type of the source is one that has the constant, too.
ZEROS = {**{number: "0" for number in ("u8", "u16", "u32", "u64", "usize")}, "bool": "false", "Option": "None", "PhantomData": "PhantomData",
         "ArrayVec": "ArrayVec::new_const()"}

CONSTANT = "UNSTARTED"


def unstarted_impl(translator, tokens, variant):
    """An impl with the constant: each field of a struct is zeros, and an enum is this variant."""
    words = tokens[translator.past_visibility(tokens):]
    name_at = after(words, 0)
    name, opening = words[name_at].text, find(words, "{")
    generics = [token for token in words[name_at + 1:opening] if token.kind != "blank"]
    declared = "".join(token.text + " " * (token.text in ("const", ":")) for token in generics)
    used = f"<{generics[1 + (generics[1].text == 'const')].text}>" if generics else ""
    value = variant or f"{name} {{ {', '.join(fields(translator, words[opening + 1:group_end(words, opening) - 1]))} }}"
    return f"\n\nimpl{declared} {name}{used} {{\n    /// Zeros, where memory waits for a keyboard to start there.\n" \
        + f"    pub(crate) const {CONSTANT}: Self = {value};\n}}"


def fields(translator, inside):
    """The fields of a struct, each with its zeros."""
    for _, part in members(translator, inside):
        colon = find(part, ":")
        end = len(part) - (text_at(part, len(part) - 1) == ",")
        yield f"{part[0].text}: {zeros(translator, trimmed(part[colon + 1:end]))}"


def zeros(translator, words):
    """The zeros of a type."""
    if text_at(words, 0) == "[":
        inside = words[1:-1]
        cut = find(inside, ";")
        each = zeros(translator, trimmed(inside[:cut]))
        each = f"const {{ {each} }}" if each == "None" else each
        return f"[{each}; {translator.rewriter.code(trimmed(inside[cut + 1:]))}]"
    first = words[0].text
    if first == "Option" and variant_of(translator, words[2].text):
        return f"Some({words[2].text}::{CONSTANT})"
    if first in ZEROS:
        return ZEROS[first]
    return f"{subject(translator, words[0])}::{CONSTANT}"


def variant_of(translator, name):
    """The variant of zeros that the rules give an enum of this crate."""
    return translator.holder.unstarted.get((translator.crate, name))


def subject(translator, word):
    """A type, as the constant is reached: of a crate below by the trait of its `calls`, which is written by hand."""
    if (translator.crate, word.text) in translator.holder.unstarted or word.text in rules.STAND_INS_UNSTARTED:
        return word.text
    for crate in translator.neighbours:
        holder = translator.holder.holder(crate)
        if (crate, word.text) in holder.unstarted:
            return word.text if holder is translator.holder else f"<{word.text} as {holder.library}::calls::Unstarted>"
    return translator.refuse(word, f"a keyboard is made of {word.text}, which `unstarted` in tools/export_rust/rules.py does not name")
