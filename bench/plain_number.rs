//! The numbers of the plain programs.

/// A number as the files have it: its digits, with no zero to spare.
pub fn number(text: &str) -> Result<u64, &'static str> {
    let plain = text == "0" || text.starts_with(|c: char| ('1'..='9').contains(&c));
    if !plain {
        return Err("Number");
    }
    text.parse().map_err(|_| "Number")
}
