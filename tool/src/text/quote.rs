//! Names and texts: as they are where they are text, escaped where not.

/// A name: bare where it begins with a letter or `_` and goes on with letters, digits, `_` and `-`; else quoted.
pub fn name_text(name: &[u8]) -> String {
    match std::str::from_utf8(name) {
        Ok(text) if is_bare(text) => text.to_string(),
        _ => quoted(name),
    }
}

fn is_bare(text: &str) -> bool {
    text.starts_with(begins_word) && text.chars().all(in_word)
}

pub fn begins_word(letter: char) -> bool {
    letter.is_alphabetic() || letter == '_'
}

pub fn in_word(letter: char) -> bool {
    letter.is_alphanumeric() || letter == '_' || letter == '-'
}

/// Bytes between quotes: UTF-8 as it is, but for what can't be seen, quotes and `\`, and bytes that are no text as
/// `\xFF`.
pub fn quoted(bytes: &[u8]) -> String {
    let mut text = String::from("\"");
    for chunk in bytes.utf8_chunks() {
        chunk
            .valid()
            .chars()
            .for_each(|letter| put(&mut text, letter));
        for byte in chunk.invalid() {
            text.push_str(&format!("\\x{byte:02x}"));
        }
    }
    text.push('"');
    text
}

fn put(text: &mut String, letter: char) {
    match letter {
        '"' => text.push_str("\\\""),
        '\\' => text.push_str("\\\\"),
        '\n' => text.push_str("\\n"),
        '\r' => text.push_str("\\r"),
        '\t' => text.push_str("\\t"),
        letter if is_hidden(letter) => text.push_str(&format!("\\u{{{:x}}}", u32::from(letter))),
        letter => text.push(letter),
    }
}

/// Controls, and letters that are not seen or turn the writing round.
fn is_hidden(letter: char) -> bool {
    letter.is_control()
        || matches!(letter, '\u{ad}' | '\u{61c}' | '\u{180e}' | '\u{200b}'..='\u{200f}' | '\u{2028}'..='\u{202e}')
        || matches!(letter, '\u{2060}'..='\u{206f}' | '\u{feff}' | '\u{fff9}'..='\u{fffb}' | '\u{e0000}'..='\u{e007f}')
}

#[cfg(test)]
mod tests {
    use super::*;

    #[test]
    fn names() {
        for (name, text) in [
            (&b"level"[..], "level"),
            ("Füllstand".as_bytes(), "Füllstand"),
            (b"flow-rate_2", "flow-rate_2"),
            (b"", "\"\""),
            (b"2nd", "\"2nd\""),
            (b"a.b", "\"a.b\""),
            (b"a b\"\\\n", "\"a b\\\"\\\\\\n\""),
            (b"x\xff", "\"x\\xff\""),
            (b"\0", "\"\\u{0}\""),
            ("\u{202e}x".as_bytes(), "\"\\u{202e}x\""),
        ] {
            assert_eq!(name_text(name), text);
        }
    }
}
