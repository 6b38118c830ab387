//! MUD URLs and their authorities.

/// What every MUD URL begins with.
const SCHEME: &[u8] = b"https://";
/// The most bytes of a name or URL.
pub const LONGEST_NAME: usize = 255;

/// Whether `byte` may stand in a name or URL: printable ASCII without the blank.
pub fn is_visible(byte: u8) -> bool {
    (0x21..=0x7E).contains(&byte)
}

/// The authority of `url`, or `None` where `url` is no MUD URL.
///
/// It runs to the first `/`, `?`, `#` or the end, and takes in a user part and a port.
pub fn authority(url: &[u8]) -> Option<&[u8]> {
    if url.len() > LONGEST_NAME || !url.iter().all(|&byte| is_visible(byte)) {
        return None;
    }
    let rest = url.strip_prefix(SCHEME)?;
    let end = rest.iter().position(|byte| b"/?#".contains(byte)).unwrap_or(rest.len());
    if end == 0 {
        return None;
    }
    Some(&rest[..end])
}

#[cfg(test)]
mod tests {
    use super::*;

    #[test]
    fn the_authority_runs_to_a_mark_or_the_end() {
        for (url, expected) in [
            ("https://a", "a"),
            ("https://a.example/x?y#z", "a.example"),
            ("https://a.example?x/y", "a.example"),
            ("https://a.example#x/y", "a.example"),
            ("https://u@b.example:8443/x", "u@b.example:8443"),
            ("https://@", "@"),
            ("https://:", ":"),
            ("https://\"", "\""),
        ] {
            assert_eq!(authority(url.as_bytes()), Some(expected.as_bytes()), "{url}");
        }
    }

    #[test]
    fn other_texts_are_no_mud_urls() {
        for bad in [
            "", "https:/", "https://", "https:///x", "https://?x", "https://#", "http://a/x", "HTTPS://a/x",
            " https://a", "https://a b", "https://a\u{7f}", "https://\u{e9}", "https://a\n",
        ] {
            assert_eq!(authority(bad.as_bytes()), None, "{bad}");
        }
    }

    #[test]
    fn a_url_has_at_most_255_bytes() {
        let url = |length: usize| [b"https://".to_vec(), vec![b'a'; length - 8]].concat();
        assert_eq!(authority(&url(255)).map(<[u8]>::len), Some(247));
        assert_eq!(authority(&url(256)), None);
    }
}
