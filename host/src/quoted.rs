//! Octets as a quoted text that people can read and write, and back: identifiers, language tags, names.

/// Octets between quotes: readable characters as they are, `"` and `\` after a `\`, every other octet as `\xNN`.
pub fn quoted(octets: &[u8]) -> String {
    let mut text = String::from("\"");
    for part in octets.utf8_chunks() {
        for character in part.valid().chars() {
            match character {
                '"' | '\\' => text.extend(['\\', character]),
                _ if is_readable(character) => text.push(character),
                _ => {
                    let mut room = [0; 4];
                    escape(character.encode_utf8(&mut room).as_bytes(), &mut text);
                }
            }
        }
        escape(part.invalid(), &mut text);
    }
    text.push('"');
    text
}

/// An identifier: quoted where most of it can be read, else in hex, `0x004c31`.
pub fn identifier(octets: &[u8]) -> String {
    let readable = octets.iter().filter(|octet| (0x20..0x7F).contains(*octet));
    if 2 * readable.count() >= octets.len() {
        return quoted(octets);
    }
    format!("0x{}", hex(octets))
}

/// A language's tag: as it is where it looks like one, else quoted. `0x` begins octets in hex.
pub fn tag(octets: &[u8]) -> String {
    let is_bare = |octet: &u8| octet.is_ascii_alphanumeric() || *octet == b'-';
    let is_word = octets.iter().all(is_bare) && !octets.is_empty() && !octets.starts_with(b"0x");
    match is_word {
        true => String::from_utf8_lossy(octets).into_owned(),
        false => quoted(octets),
    }
}

/// Octets in hex, two digits each.
pub fn hex(octets: &[u8]) -> String {
    octets.iter().map(|octet| format!("{octet:02x}")).collect()
}

/// The octets of hex digits, which come in pairs.
pub fn from_hex(digits: &str) -> Option<Vec<u8>> {
    let digits = digits.as_bytes();
    let digit = |octet: u8| char::from(octet).to_digit(16);
    let octet = |pair: &[u8]| match pair {
        &[high, low] => u8::try_from(16 * digit(high)? + digit(low)?).ok(),
        _ => None,
    };
    digits.chunks(2).map(octet).collect()
}

fn escape(octets: &[u8], text: &mut String) {
    for octet in octets {
        text.push_str(&format!("\\x{octet:02x}"));
    }
}

/// Whether a character shows as itself: none that moves the others, hides or looks like a blank.
fn is_readable(character: char) -> bool {
    let is_hidden = matches!(
        character,
        '\u{AD}'
            | '\u{61C}'
            | '\u{115F}'..='\u{1160}'
            | '\u{17B4}'..='\u{17B5}'
            | '\u{180B}'..='\u{180F}'
            | '\u{200B}'..='\u{200F}'
            | '\u{2028}'..='\u{202E}'
            | '\u{2060}'..='\u{206F}'
            | '\u{3164}'
            | '\u{D7FC}'..='\u{F8FF}'
            | '\u{FE00}'..='\u{FE0F}'
            | '\u{FEFF}'
            | '\u{FFA0}'
            | '\u{FFF0}'..='\u{FFFF}'
            | '\u{1BCA0}'..='\u{1BCA3}'
            | '\u{1D173}'..='\u{1D17A}'
            | '\u{E0000}'..='\u{10FFFF}'
    );
    character == ' ' || !(character.is_control() || character.is_whitespace() || is_hidden)
}

#[cfg(test)]
mod tests {
    use super::{from_hex, hex, identifier, quoted, tag};

    #[test]
    fn texts() {
        assert_eq!(quoted(b""), r#""""#);
        assert_eq!(quoted(b"Small stage"), r#""Small stage""#);
        assert_eq!(
            quoted("Kleine B\u{fc}hne".as_bytes()),
            "\"Kleine B\u{fc}hne\""
        );
        assert_eq!(quoted(b"\0a\"b\\\n\xff"), r#""\x00a\"b\\\x0a\xff""#);
        assert_eq!(quoted("\u{202e}".as_bytes()), r#""\xe2\x80\xae""#);
    }

    #[test]
    fn identifiers() {
        assert_eq!(identifier(b"\0L1"), r#""\x00L1""#);
        assert_eq!(identifier(b"\0\x01\x02"), "0x000102");
        assert_eq!(identifier(b""), r#""""#);
    }

    #[test]
    fn tags() {
        assert_eq!(tag(b"de-CH"), "de-CH");
        assert_eq!(tag(b"0x12"), "\"0x12\"");
        assert_eq!(tag(b"\x1b[2J"), r#""\x1b[2J""#);
        assert_eq!(tag(b""), r#""""#);
    }

    #[test]
    fn digits() {
        assert_eq!(hex(&[0, 255, 16]), "00ff10");
        assert_eq!(from_hex("00ff10"), Some(vec![0, 255, 16]));
        assert_eq!(from_hex("00f"), None);
        assert_eq!(from_hex("0x"), None);
        assert_eq!(from_hex("+1"), None);
        assert_eq!(from_hex(""), Some(vec![]));
    }
}
