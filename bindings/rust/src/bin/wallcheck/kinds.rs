//! Files of another kind than the command takes, told by their first bytes.

/// What a file is that is neither a text in UTF-8 nor begins as a sheet.
pub fn other(bytes: &[u8]) -> Option<&'static str> {
    match bytes {
        [0x1F, 0x8B, ..] => Some("is compressed by gzip: it has to be unpacked"),
        [b'P', b'K', 3, 4, ..] => Some("is a zip file, as a spreadsheet's own files are: it has to be saved as CSV"),
        [0xFF, 0xFE, ..] | [0xFE, 0xFF, ..] => Some(UTF_16),
        // every second byte is zero where letters are plain ones and no mark stands before them
        [b'\t'..=b'~', 0, b'\t'..=b'~', 0, ..] | [0, b'\t'..=b'~', 0, b'\t'..=b'~', ..] => Some(UTF_16),
        _ => None,
    }
}

const UTF_16: &str = "is text in UTF-16: it has to be saved as UTF-8";

/// What a file is that is no text.
pub fn no_text(bytes: &[u8]) -> Option<&'static str> {
    match bytes {
        [1, 0, 2, 0, 1 | 2, ..] => Some("is a sheet, and a text is asked for"),
        _ => other(bytes),
    }
}

#[cfg(test)]
mod tests {
    use super::*;

    #[test]
    fn told_by_their_first_bytes() {
        for (bytes, due) in [
            (&b"\x1F\x8B\x08\0"[..], "is compressed by gzip"),
            (b"PK\x03\x04\x14", "is a zip file"),
            (b"\xFF\xFEl\0i\0", "is text in UTF-16"),
            (b"\xFE\xFF\0l\0i", "is text in UTF-16"),
            (b"l\0i\0n\0", "is text in UTF-16"),
            (b"\0l\0i\0n", "is text in UTF-16"),
            (b"\x01\0\x02\0\x02\x02", "is a sheet"),
        ] {
            assert!(no_text(bytes).is_some_and(|what| what.starts_with(due)), "{bytes:?}");
        }
        for text in ["", "l", "line,name", "\u{FEFF}line", "#\n", "PK,3"] {
            assert_eq!(no_text(text.as_bytes()), None, "{text}");
        }
        assert_eq!(other(b"\x01\0\x02\0\x02\x02"), None);
    }
}
