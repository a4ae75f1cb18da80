use super::*;

/// The default keymap, as a file.
fn standard() -> String {
    let codes = (0..LAYERS * KEYS).map(|place| match place {
        0..88 => 4 + place as u16,
        88..96 => 0xe0 + place as u16 - 88,
        _ => 1,
    });
    Keymap::from_codes(codes.map(|bits| Code::read(bits).ok().unwrap()).collect()).write(None)
}

fn refused(text: &str) -> String {
    Keymap::read(text.as_bytes()).map(|_| "read".to_string()).unwrap_or_else(|error| error.to_string())
}

#[test]
fn what_is_written_is_read() {
    let text = standard();
    let keymap = Keymap::read(text.as_bytes()).unwrap();
    assert_eq!(keymap.write(None), text);
    assert!(text.starts_with(
        "{\n  \"format\": \"wuzhikar-keymap\",\n  \"version\": 1,\n  \"layers\": [\n    [\n      \"0004\", \"0005\""
    ));
    let named = keymap.write(Some("a \"name\"\n"));
    assert!(named.contains("\"name\": \"a \\\"name\\\"\\n\","));
    assert_eq!(Keymap::read(named.as_bytes()).unwrap(), keymap);
}

#[test]
fn members_come_in_any_order_and_codes_in_either_case() {
    let layers = &standard()[standard().find("\"layers\"").unwrap()..];
    let layers = layers.trim_end().trim_end_matches('}').trim_end().replace("00e7", "00E7");
    let text = format!("{{{layers}, \"name\": \"\", \"version\": 1.0, \"format\": \"wuzhikar-keymap\"}}");
    assert_eq!(refused(&text), "read");
}

#[test]
fn every_other_file_is_refused_with_its_place() {
    let text = standard();
    assert_eq!(refused(&format!("{text}{}", " ".repeat(MOST - text.len()))), "read");
    let rows: [(String, &str); 20] = [
        (format!("{text}{}", " ".repeat(MOST + 1 - text.len())), "more than 65536 bytes"),
        ("".to_string(), "line 1 column 0"),
        ("[]".to_string(), "invalid type: sequence, expected an object"),
        (text.replace("\"version\"", "\"version\" \"x\""), "at line 3"),
        (format!("{text}x"), "trailing characters at line"),
        (text.replace("  \"version\": 1,\n", ""), "missing field `version`"),
        (text.replace("  \"version\": 1,\n", "  \"version\": 1, \"version\": 1,\n"), "duplicate field `version` at line 3"),
        (text.replace("  \"version\": 1,\n", "  \"version\": 1, \"author\": 1,\n"), "unknown field `author`"),
        (text.replace("  \"version\": 1,\n", "  \"version\": 1, \"name\": null,\n"), "invalid type: null, expected a string"),
        (text.replace("  \"version\": 1,\n", "  \"version\": 1, \"name\": 7,\n"), "expected a string at line 3"),
        (text.replace("wuzhikar-keymap", "wuzhikar"), "the format is \"wuzhikar\", and not \"wuzhikar-keymap\""),
        (text.replace("\"version\": 1", "\"version\": 2"), "the version is 2, and this program reads version 1"),
        (text.replace("\"version\": 1", "\"version\": \"1\""), "invalid type: string"),
        (text.replace("\"0004\"", "\"0003\""), "\"0003\" of layer 0, key 0 is no code"),
        (text.replace("\"00e7\"", "\"0e7\""), "\"0e7\" of layer 0, key 95 is no code"),
        (text.replace("\"00e7\"", "\"+0e7\""), "\"+0e7\" of layer 0, key 95 is no code"),
        (text.replace("\"00e7\"", "231"), "invalid type: integer `231`, expected a string at line"),
        (text.replace(", \"00e7\"", ""), "95 codes in layer 0, and not 96"),
        (text.replacen("    [\n", "    [], [\n", 1), "5 layers, and not 4"),
        (text.replace("0005", "\u{fc}005"), "is no code"),
    ];
    for (text, expected) in rows {
        assert!(refused(&text).contains(expected), "{} has no {expected}", refused(&text));
    }
    assert!(Keymap::read(b"{\"format\": \"\xff\"}").is_err());
}

/// What web/tests/test_configure.py asks of the page.
#[test]
fn a_file_is_taken_where_the_page_takes_it() {
    let text = standard();
    let named = |name: &str| text.replacen('{', &format!("{{\"name\": \"{name}\","), 1);
    let listed = format!("[\"{FORMAT}\", 1, {}]", &text[text.find("[\n").unwrap()..text.rfind('}').unwrap()]);
    for (text, expected) in [
        (format!("\u{feff}{text}"), "read"),
        (format!("\u{feff}\u{feff}{text}"), "expected value at line 1"),
        (format!(" \u{feff}{text}"), "expected value at line 1"),
        (named("\\ud83d\\ude00"), "read"),
        (named("\\ud800"), "hex escape at line 1"),
        (named("\\udc00"), "lone leading surrogate in hex escape at line 1"),
        (named("\\ud800\\u0041"), "lone leading surrogate in hex escape at line 1"),
        (text.replace("\"version\": 1", "\"version\": 1.000000000000000000000000"), "read"),
        (text.replace("\"version\": 1", "\"version\": 100e-2"), "read"),
        (text.replace("\"version\": 1", "\"version\": 0.9999999999999999"), "the version is 0.9999999999999999"),
        (text.replace("\"version\": 1", "\"version\": 0.99999999999999999999"), "read"),
        (listed, "invalid type: sequence"),
    ] {
        assert!(refused(&text).contains(expected), "{} has no {expected}: {:.60}", refused(&text), text);
    }
}
