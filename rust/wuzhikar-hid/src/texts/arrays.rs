//! Arrays as C and Rust write them: numbers with commas between them, also one after the last, in braces or brackets, with code
//! before them, or without. What follows the closing one is not read.

use super::{Fault, Form, Why, digits, is_blank, pair};
use alloc::vec::Vec;

/// A language of arrays.
#[derive(Clone, Copy, PartialEq, Eq)]
pub enum Language {
    C,
    Rust,
}

/// The bytes of an array, or its first fault.
pub fn read(text: &[u8], language: Language) -> Result<Vec<u8>, Fault> {
    let (bare, ended) = bare(text, language);
    let (open, close) = match language {
        Language::C => (brace(&bare), b'}'),
        Language::Rust => (bracket(&bare), b']'),
    };
    let start = bare.iter().position(|byte| !is_blank(*byte)).unwrap_or(text.len());
    let no_list = |at| Fault { at, why: Why::NoList };
    if open.is_none() {
        ended?;
        if language == Language::Rust {
            return Err(no_list(start));
        }
        in_macro(text).map_or(Ok(()), |at| Err(no_list(at)))?;
    }
    let (bytes, end) = listed(text, open.map_or((start, None), |open| (open + 1, Some((open, close)))), language)?;
    // (What is assigned to, as in `[0] = 5`, is an index or a pattern.)
    match bare.get(end..).unwrap_or_default().trim_ascii_start() {
        [b'=', b'=', ..] => Ok(bytes),
        [b'=', ..] => Err(no_list(open.unwrap_or(start))),
        _ => Ok(bytes),
    }
}

/// The bytes of the list whose first number stands here or later, and where it ends: after the closing sign, or with the text
/// where none opens it.
fn listed(text: &[u8], (from, opened): (usize, Option<(usize, u8)>), language: Language) -> Result<(Vec<u8>, usize), Fault> {
    let ends = |at: usize| opened.map_or(at == text.len(), |(_, close)| text.get(at) == Some(&close));
    let is_open = || Fault { at: opened.map_or(text.len(), |(open, _)| open), why: Why::OpenList };
    let (mut bytes, mut at) = (Vec::new(), from);
    loop {
        at = gap_end(text, at, language)?;
        if ends(at) {
            return Ok((bytes, (at + 1).min(text.len())));
        }
        if at == text.len() {
            return Err(is_open());
        }
        let word = word_at(text, at);
        bytes.push(byte_of(word, language).ok_or(Fault { at, why: Why::NoByte })?);
        at = gap_end(text, at + word.len(), language)?;
        match text.get(at) {
            Some(b',') => at += 1,
            _ if ends(at) => {}
            Some(_) => return Err(Fault { at, why: Why::NoComma }),
            None => return Err(is_open()),
        }
    }
}

/// The bytes of hex digits, or of numbers `0x05 0x01`, or `05h 01h`, with comments, also lines of `#`, and with commas or without.
pub fn read_loose(text: &[u8]) -> Result<Vec<u8>, Fault> {
    in_macro(text).map_or(Ok(()), |at| Err(Fault { at, why: Why::NoList }))?;
    let mut text = text.to_vec();
    let lines = text.split_mut(|byte| *byte == b'\n');
    lines.filter(|line| line.trim_ascii_start().starts_with(b"#")).for_each(|line| line.fill(b' '));
    let text = without_comments(&text)?;
    let has = |marks: &[u8]| text.iter().any(|byte| marks.contains(byte));
    if !has(b"xXhH,;") {
        return digits(&text);
    }
    let is_c = text.windows(2).any(|two| two == b"0x" || two == b"0X");
    let byte_at = |at: usize, word: &[u8]| {
        let without_h = word.strip_suffix(b"h").or(word.strip_suffix(b"H")).unwrap_or(word);
        if is_c { byte_of(word, Language::C) } else { pair(at, without_h).ok() }
    };
    let (mut bytes, mut at) = (Vec::new(), 0);
    for word in text.split(|byte| is_blank(*byte) || matches!(byte, b',' | b';')) {
        if !word.is_empty() {
            bytes.push(byte_at(at, word).ok_or(Fault { at, why: Why::NoByte })?);
        }
        at += word.len() + 1;
    }
    Ok(bytes)
}

/// The form of arrays that a text looks most like.
pub fn likely(text: &[u8]) -> Option<Form> {
    let (c, rust) = (bare(text, Language::C).0, bare(text, Language::Rust).0);
    if brace(&c).is_none() && bracket(&rust).is_some() {
        return Some(Form::Rust);
    }
    if in_macro(text).is_some() {
        return Some(Form::C);
    }
    let marks = [(b'{', Form::C), (b'[', Form::Rust), (b',', Form::C)];
    marks.into_iter().find(|(mark, _)| c.contains(mark)).map(|(_, form)| form)
}

/// Where a list begins in a text that has nothing but macros of C and comments: in none of them it is one.
fn in_macro(text: &[u8]) -> Option<usize> {
    let (bare, left) = (bare(text, Language::C).0, without_comments(text).ok()?);
    let is_macro = |at: usize| left[at] == b'#' && left[at + 1..].trim_ascii_start().starts_with(b"define");
    let is_told = bare.iter().all(|byte| is_blank(*byte)) && (0..left.len()).any(is_macro);
    left.iter().position(|byte| is_told && *byte == b'{')
}

/// Returns the text with each comment replaced by as many blanks.
fn without_comments(text: &[u8]) -> Result<Vec<u8>, Fault> {
    let (mut kept, mut at) = (Vec::with_capacity(text.len()), 0);
    while at < text.len() {
        let end = gap_end(text, at, Language::C)?;
        kept.resize(end, b' ');
        kept.extend(text.get(end));
        at = end + 1;
    }
    Ok(kept)
}

/// Returns the text with blanks in place of what is no list: comments, texts, characters, lines of C's preprocessor,
/// attributes of Rust. An open comment or attribute ends it, and is its fault.
fn bare(text: &[u8], language: Language) -> (Vec<u8>, Result<(), Fault>) {
    let mut kept = Vec::with_capacity(text.len());
    // The attribute that is open, and how many brackets are in it.
    let (mut attribute, mut depth) = (0, 0_usize);
    while let Some(byte) = text.get(kept.len()) {
        let at = kept.len();
        let end = match left_out(text, at, language) {
            Err(fault) => return (kept, Err(fault)),
            Ok(end) => end,
        };
        if end > at {
            kept.resize(end, b' ');
            continue;
        }
        if depth == 0 && language == Language::Rust && matches!(&text[at..], [b'#', b'[', ..] | [b'#', b'!', b'[', ..]) {
            (attribute, depth) = (at, 1);
            kept.resize(at + if text[at + 1] == b'[' { 2 } else { 3 }, b' ');
            continue;
        }
        kept.push(if depth > 0 { b' ' } else { *byte });
        depth = match byte {
            b'[' if depth > 0 => depth + 1,
            b']' => depth.saturating_sub(1),
            _ => depth,
        };
    }
    let ended = if depth > 0 { Err(Fault { at: attribute, why: Why::OpenList }) } else { Ok(()) };
    (kept, ended)
}

/// Where the comment, the text, the character or the line of the preprocessor ends that begins here, if one does.
fn left_out(text: &[u8], at: usize, language: Language) -> Result<usize, Fault> {
    let rest = &text[at..];
    Ok(match rest {
        [b'/', b'/' | b'*', ..] => gap_end(text, at, language)?,
        [b'"', ..] => at + quoted_len(&text[..at], rest),
        [b'\'', ..] => at + character_len(rest),
        [b'#', ..] if language == Language::C => at + line_len(rest),
        _ => at,
    })
}

/// The length of the text in quotes that these bytes begin with; all of them where it does not end. One of Rust is raw after an
/// `r` and as many `#` as stand after it.
fn quoted_len(before: &[u8], text: &[u8]) -> usize {
    let hashes = before.iter().rev().take_while(|byte| **byte == b'#').count();
    if before[..before.len() - hashes].ends_with(b"r") {
        let ends = |at: &usize| {
            text[*at] == b'"' && text[at + 1..].iter().take_while(|byte| **byte == b'#').take(hashes).count() == hashes
        };
        return (1..text.len()).find(ends).map_or(text.len(), |end| end + 1 + hashes);
    }
    let mut is_escaped = true;
    let ends = |byte: &u8| {
        let ends = *byte == b'"' && !is_escaped;
        is_escaped = *byte == b'\\' && !is_escaped;
        ends
    };
    text.iter().position(ends).map_or(text.len(), |end| end + 1)
}

/// The length of the character in quotes that these bytes begin with; one of a quote that begins a lifetime.
fn character_len(text: &[u8]) -> usize {
    let is_quote = |byte: &u8| *byte == b'\'';
    let end = match text.get(1) {
        Some(b'\\') => text.iter().take(12).skip(3).position(is_quote).map(|end| end + 3),
        first => {
            let width = first.map_or(1, |byte| byte.leading_ones().clamp(1, 4) as usize);
            Some(1 + width).filter(|end| text.get(*end).is_some_and(is_quote))
        }
    };
    end.map_or(1, |end| end + 1)
}

/// The length of the line that a text begins with, and of those that a backslash at the end of one joins to it.
fn line_len(text: &[u8]) -> usize {
    let ends = |at: &usize| text[*at] == b'\n' && !matches!(text[..*at], [.., b'\\'] | [.., b'\\', b'\r']);
    (0..text.len()).find(ends).unwrap_or(text.len())
}

/// Where the list of C begins that is in braces: at the first brace that begins an initializer, which follows `=`, the type of
/// an array or nothing. There is none in a text that begins with a digit.
fn brace(bare: &[u8]) -> Option<usize> {
    let is_initializer = |before: &[u8]| match before.trim_ascii_end() {
        [] => true,
        [.., before, b'='] => !matches!(before, b'=' | b'<' | b'>' | b'!'),
        before => before == b"=" || is_array(before),
    };
    let is_bare = bare.trim_ascii_start().first().is_some_and(u8::is_ascii_digit);
    (0..bare.len()).filter(|_| !is_bare).find(|at| bare[*at] == b'{' && is_initializer(&bare[..*at]))
}

/// Whether what stands before a brace ends with the type of an array: `byte[]`, `(uint8_t[])`, or `[]byte`.
fn is_array(before: &[u8]) -> bool {
    let is_word = |byte: &&u8| byte.is_ascii_alphanumeric() || **byte == b'_';
    let before = before.strip_suffix(b")").unwrap_or(before);
    let count = before.iter().rev().take_while(is_word).count();
    match &before[..before.len() - count] {
        [.., b'[', b']'] if count > 0 => true,
        [.., last, b'[', b']'] => is_word(&last),
        _ => false,
    }
}

/// Where the list of Rust begins: at the first bracket in which a number follows the bracket itself or a comma, and which no
/// word stands before, as before an index; else at the first that holds nothing, and that follows `=`, `= &` or nothing. (In
/// a type, a number follows a semicolon.)
fn bracket(bare: &[u8]) -> Option<usize> {
    // How many brackets are open, and the first of them that may be a list, with what stands before it.
    let (mut depth, mut list, mut empty, mut before) = (0_usize, None, None, [b'='; 2]);
    for (at, byte) in (0..).zip(bare).filter(|(_, byte)| !is_blank(**byte)) {
        match byte {
            b'[' => {
                depth += 1;
                let is_index = before[1].is_ascii_alphanumeric() || matches!(before[1], b'_' | b')' | b']');
                list = list.or((!is_index).then_some((at, depth, matches!(before, [_, b'='] | [b'=', b'&']))));
            }
            b']' => {
                if let Some((open, _, is_value)) = list.take_if(|(_, own, _)| *own >= depth) {
                    empty = empty.or((before[1] == b'[' && is_value).then_some(open));
                }
                depth = depth.saturating_sub(1);
            }
            b'0'..=b'9' if list.is_some() && matches!(before[1], b'[' | b',') => return list.map(|(open, ..)| open),
            _ => {}
        }
        before = [before[1], *byte];
    }
    empty
}

/// Where blanks and comments end that begin here.
fn gap_end(text: &[u8], from: usize, language: Language) -> Result<usize, Fault> {
    let mut at = from;
    loop {
        let rest = &text[at..];
        at += match rest {
            [b' ' | b'\t' | b'\r' | b'\n', ..] => 1,
            [b'/', b'/', ..] => rest.iter().position(|byte| *byte == b'\n').unwrap_or(rest.len()),
            [b'/', b'*', ..] => comment_len(rest, language).ok_or(Fault { at, why: Why::OpenComment })?,
            _ => return Ok(at),
        };
    }
}

/// The length of the comment that a text begins with. Comments of Rust stand within each other, too.
fn comment_len(text: &[u8], language: Language) -> Option<usize> {
    let (mut depth, mut at) = (1_usize, 2);
    while depth > 0 {
        at += match text.get(at..at + 2)? {
            b"*/" => {
                depth -= 1;
                2
            }
            b"/*" if language == Language::Rust => {
                depth += 1;
                2
            }
            _ => 1,
        };
    }
    Some(at)
}

/// The letters, digits and `_` that stand here.
fn word_at(text: &[u8], at: usize) -> &[u8] {
    let rest = &text[at..];
    let end = rest.iter().position(|byte| !byte.is_ascii_alphanumeric() && *byte != b'_');
    &rest[..end.unwrap_or(rest.len())]
}

/// The byte that a word writes: `0x` and hex digits, or decimal digits without a 0 in front. In Rust also binary and octal digits,
/// a 0 in front, `_` between digits, and `u8` after them.
fn byte_of(word: &[u8], language: Language) -> Option<u8> {
    let word = core::str::from_utf8(word).ok().filter(|word| !word.starts_with('+'))?;
    if language == Language::Rust {
        return rust_byte(word.strip_suffix("u8").unwrap_or(word));
    }
    let (digits, radix) = match word.as_bytes() {
        [b'0', b'x' | b'X', ..] => (&word[2..], 16),
        [b'0', _, ..] => return None,
        _ => (word, 10),
    };
    u8::from_str_radix(digits, radix).ok().filter(|_| !digits.starts_with('+'))
}

fn rust_byte(word: &str) -> Option<u8> {
    let radix = match word.get(..2) {
        Some("0x") => 16,
        Some("0o") => 8,
        Some("0b") => 2,
        _ if word.starts_with('_') => return None,
        _ => 10,
    };
    let digits = if radix == 10 { word } else { &word[2..] };
    let number = digits.bytes().filter(|byte| *byte != b'_').try_fold((0_u32, false), |(number, _), byte| {
        let number = number * radix + char::from(byte).to_digit(radix)?;
        (number < 256).then_some((number, true))
    });
    number.filter(|(_, has_digit)| *has_digit).and_then(|(number, _)| u8::try_from(number).ok())
}
