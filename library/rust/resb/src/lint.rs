use crate::{error::result_of, sys, Error};
use std::mem::zeroed;

/// An error or a warning at its place in a text.
#[derive(Clone, Debug, PartialEq, Eq)]
pub struct Finding {
    /// From 1.
    pub line: u64,
    /// In UTF-16 units, from 1.
    pub column: u64,
    /// The text doesn't compile.
    pub is_error: bool,
    /// The code of the error, such as "BadInt", or the name of the warning.
    pub rule: String,
    pub message: String,
}

/// Returns what comes before the first zero byte.
fn text_in(field: &[u8]) -> String {
    let text = field.split(|byte| *byte == 0).next().unwrap_or_default();
    String::from_utf8_lossy(text).into_owned()
}

/// Returns what `resb lint` reports of a text without settings: its error and the first warnings up to a
/// limit, in the order of the text; and how many warnings are left out. The name is that of the file,
/// such as "de", or empty.
pub fn lint(text: &[u8], name: &str, limit: usize) -> Result<(Vec<Finding>, u64), Error> {
    // SAFETY: each field is numbers.
    let mut found = vec![unsafe { zeroed::<sys::resb_finding>() }; limit + 1];
    let (mut count, mut more) = (0, 0);
    // SAFETY: the pointers have the lengths of what they point to.
    result_of(unsafe {
        sys::resb_lint(
            text.as_ptr(),
            text.len(),
            name.as_ptr(),
            name.len(),
            found.as_mut_ptr(),
            found.len(),
            &mut count,
            &mut more,
        )
    })?;
    let findings = found[..count].iter().map(|one| Finding {
        line: one.line,
        column: one.column,
        is_error: one.error != sys::RESB_OK,
        rule: text_in(&one.rule),
        message: text_in(&one.message),
    });
    Ok((findings.collect(), more))
}
