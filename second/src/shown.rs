//! How bytes that come from outside are shown.

/// Bytes so that none of them commands a terminal or ends a line: 20 to 7E as they are, but a
/// backslash twice, and any other byte as \xHH. They can be read back.
pub fn shown(bytes: &[u8]) -> String {
    let mut text = String::new();
    for &byte in bytes {
        match byte {
            b'\\' => text.push_str("\\\\"),
            b' '..=b'~' => text.push(char::from(byte)),
            _ => text.push_str(&format!("\\x{byte:02X}")),
        }
    }
    text
}

/// Bytes in quotes, and a quote among them behind a backslash.
pub fn quoted(bytes: &[u8]) -> String {
    format!("\"{}\"", shown(bytes).replace('"', "\\\""))
}

/// A name as it is shown: in quotes if it has a space or a quote, so that it is seen where it ends.
pub fn named(name: &[u8]) -> String {
    let text = shown(name);
    if text.contains([' ', '"']) {
        return quoted(name);
    }
    text
}

/// A shown text in at most `most` columns. A longer one is cut, though not inside what a backslash
/// begins, and two dots follow.
pub fn cut(text: &str, most: usize) -> String {
    if text.len() <= most {
        return text.to_string();
    }
    let mut at = 0;
    loop {
        let next = at + width_of_first(&text[at..]);
        if next + "..".len() > most {
            return format!("{}..", &text[..at]);
        }
        at = next;
    }
}

/// The columns of what stands first in a shown text: a character, or what a backslash begins.
fn width_of_first(text: &str) -> usize {
    match text.as_bytes() {
        [b'\\', b'x', ..] => 4,
        [b'\\', ..] => 2,
        _ => 1,
    }
}

#[cfg(test)]
mod tests {
    use super::{cut, named, quoted, shown};

    #[test]
    fn both_sides_of_what_is_printable() {
        assert_eq!(shown(b"\x1F !\"[]}~\x7F"), r#"\x1F !"[]}~\x7F"#);
        assert_eq!(
            shown(b"\0\n\x1B\x80\x9B\xE9\xFF"),
            r"\x00\x0A\x1B\x80\x9B\xE9\xFF"
        );
        assert_eq!(shown(b""), "");
    }

    #[test]
    fn a_backslash_stands_twice() {
        assert_eq!(shown(br"\x41\"), r"\\x41\\");
        assert_ne!(shown(br"\x0A"), shown(b"\n"));
    }

    #[test]
    fn a_name_with_a_space_or_a_quote_stands_in_quotes() {
        assert_eq!(named(b"seats.unit"), "seats.unit");
        assert_eq!(named(b"two seats"), r#""two seats""#);
        assert_eq!(named(b"a\"b"), r#""a\"b""#);
        assert_eq!(named(br"a\b"), r"a\\b");
        assert_eq!(named(b"a\nb"), r"a\x0Ab");
    }

    #[test]
    fn quotes_in_quotes() {
        assert_eq!(quoted(b"0123U"), r#""0123U""#);
        assert_eq!(quoted(b"\"\\\0"), r#""\"\\\x00""#);
    }

    #[test]
    fn a_long_text_is_cut_between_characters() {
        assert_eq!(cut("12345678", 8), "12345678");
        assert_eq!(cut("123456789", 8), "123456..");
        assert_eq!(cut(r"12\\x41\\", 8), r"12\\x4..");
        assert_eq!(cut(r"1\x41\x42", 8), r"1\x41..");
        assert_eq!(cut(r"12\x41\x42", 8), r"12\x41..");
        assert_eq!(cut(r"123\x41\x42", 8), r"123..");
        assert_eq!(cut(r#"12345\"789"#, 8), "12345..");
    }

    #[test]
    fn every_byte_is_printable_and_told_from_the_others() {
        let mut texts: Vec<String> = (0..=255).map(|byte| shown(&[byte])).collect();
        let is_printable = |text: &String| text.bytes().all(|byte| (b' '..=b'~').contains(&byte));
        assert!(texts.iter().all(is_printable));
        texts.sort();
        texts.dedup();
        assert_eq!(texts.len(), 256);
    }
}
