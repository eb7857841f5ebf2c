//! Text or the bytes of a bundle, by what is there.

/// The kind byte of a header, with which every bundle starts. As a letter it is a
/// backquote, with which no text of the notation starts.
const HEADER: u8 = 0x60;

/// Whether a file that starts so is text: it does not start with a header, and it
/// is UTF-8 without control characters other than white space. `start` may end
/// within a letter. Nothing at all is no text.
pub fn is_text(start: &[u8]) -> bool {
    let letters = match std::str::from_utf8(start) {
        Ok(letters) => letters,
        Err(error) if error.error_len().is_some() => return false,
        Err(error) => std::str::from_utf8(&start[..error.valid_up_to()]).unwrap_or_default(),
    };
    let fits = |letter: char| letter.is_whitespace() || !letter.is_control();
    !start.is_empty() && !is_bundle(start) && letters.chars().all(fits)
}

/// Whether a file that starts so starts as every bundle does, and no text.
pub fn is_bundle(start: &[u8]) -> bool {
    start.first() == Some(&HEADER)
}
