// Cutting and changing the published text. Every step fails with a clear line
// where the text is not as it was when this was written, so that a changed
// publication can't be compared with by mistake.

/// Where `needle` stands in `text`; it must stand there exactly once.
pub fn place(text: &str, needle: &str, file: &str) -> Result<usize, String> {
    match text.matches(needle).count() {
        1 => Ok(text.find(needle).unwrap_or(0)),
        many => Err(format!(
            "{file}: expected exactly once, found {many} times: {needle}"
        )),
    }
}

/// The text with `needle`, which stands in it exactly once, replaced.
pub fn change(text: &str, needle: &str, by: &str, file: &str) -> Result<String, String> {
    let at = place(text, needle, file)?;
    Ok(format!("{}{by}{}", &text[..at], &text[at + needle.len()..]))
}

/// From `first` up to and with the next line that is just `last`.
pub fn cut<'a>(text: &'a str, first: &str, last: &str, file: &str) -> Result<&'a str, String> {
    let at = place(text, first, file)?;
    let end = format!("\n{last}\n");
    match text[at..].find(&end) {
        Some(length) => Ok(&text[at..at + length + end.len()]),
        None => Err(format!("{file}: no line `{last}` after: {first}")),
    }
}
