//! Text from files and from the command line as messages show it: escaped, so that it cannot pass for something else, and cut.

/// How many characters of a field are shown, and how many of a file's name.
const MOST: usize = 60;
const MOST_OF_A_PATH: usize = 300;

/// Text in quotation marks.
pub fn quoted(text: &str) -> String {
    let end = text.char_indices().nth(MOST).map_or(text.len(), |(end, _)| end);
    format!("{:?}{}", &text[..end], if end < text.len() { "..." } else { "" })
}

/// The name of a file, without quotation marks. Bytes that are no text are shown as they are, in hexadecimal.
pub fn path(bytes: &[u8]) -> String {
    let mut shown = String::new();
    let mut letters = 0;
    for chunk in bytes.utf8_chunks() {
        for letter in chunk.valid().chars() {
            letters += 1;
            match letter.is_control() {
                _ if letters > MOST_OF_A_PATH => return shown + "...",
                true => shown.extend(letter.escape_default()),
                false => shown.push(letter),
            }
        }
        shown.extend(chunk.invalid().iter().map(|byte| format!("\\x{byte:02X}")));
        letters += chunk.invalid().len();
    }
    shown
}

#[cfg(test)]
mod tests {
    use super::*;

    #[test]
    fn escaped_and_cut() {
        assert_eq!(quoted("Port"), "\"Port\"");
        assert_eq!(quoted("a\n\u{1b}[2J\""), "\"a\\n\\u{1b}[2J\\\"\"");
        assert_eq!(quoted(&"é".repeat(60)), format!("\"{}\"", "é".repeat(60)));
        assert_eq!(quoted(&"é".repeat(61)), format!("\"{}\"...", "é".repeat(60)));
        assert_eq!(path(b"sch\xC3\xB6n/a b.csv"), "schön/a b.csv");
        assert_eq!(path(b"a\xFFb\n"), "a\\xFFb\\n");
        assert_eq!(path(&[b'a'; 301]), "a".repeat(300) + "...");
    }
}
