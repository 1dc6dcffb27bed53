//! ICU resource bundles in process: check, compile, and look up with locale inheritance.
//!
//! ```
//! use resb::{Bundles, Content};
//!
//! let mut bundles = Bundles::open()?;
//! bundles.install("shop", "de", Content::Text("de{menu{open{\"Öffnen\"}}}"))?;
//! assert_eq!(bundles.text("shop", "de_AT", "menu/open")?, "Öffnen");
//! # Ok::<(), resb::Error>(())
//! ```
//!
//! An item borrows its bundles, so no change can come while it is used:
//!
//! ```compile_fail,E0502
//! # use resb::{Bundles, Content};
//! let mut bundles = Bundles::open()?;
//! let item = bundles.look("shop", "de", "title")?;
//! bundles.remove("shop", "de")?;
//! println!("{:?}", item);
//! # Ok::<(), resb::Error>(())
//! ```

mod bundle;
mod bundles;
mod error;
mod lint;

pub use bundle::Bundle;
pub use bundles::{Bundles, Child, Content, Item, Locale};
pub use error::{Error, Place};
pub use lint::{lint, Finding};
pub use resb_sys as sys;

/// Checks whether bytes are a valid `.res` file, or returns the first error.
pub fn check(file: &[u8]) -> Result<(), Error> {
    // SAFETY: the pointer has the length of its slice.
    error::result_of(unsafe { sys::resb_check(file.as_ptr(), file.len()) })
}

/// Checks a file like [`check`], and for what makes libicu crash on a bundle: RESB_ICU_ALIAS,
/// RESB_ICU_PARENT, RESB_ICU_TARGET, RESB_ICU_ITEMS.
pub fn check_for_icu(file: &[u8]) -> Result<(), Error> {
    // SAFETY: the pointer has the length of its slice.
    error::result_of(unsafe { sys::resb_check_for_icu(file.as_ptr(), file.len()) })
}

/// Checks a file like [`check_for_icu`], and returns the bundles that its aliases name, which libicu
/// opens too: NAME for one beside the file, and /PACKAGE/NAME.
pub fn alias_targets(file: &[u8]) -> Result<Vec<String>, Error> {
    // SAFETY: the pointers have the lengths of what they point to.
    let names = written(256, |out, capacity, len| unsafe {
        sys::resb_alias_targets(file.as_ptr(), file.len(), out, capacity, len)
    })?;
    let names = String::from_utf8_lossy(&names);
    Ok(names.split_terminator('\0').map(String::from).collect())
}

/// Compiles a bundle text to a `.res` file, or returns the first error with its line.
pub fn compile(text: &str) -> Result<Vec<u8>, Error> {
    let mut line = 0;
    // SAFETY: the pointers have the lengths of what they point to.
    let file = written(4 * text.len() + 256, |out, capacity, len| unsafe {
        sys::resb_compile(text.as_ptr(), text.len(), out, capacity, len, &mut line)
    });
    file.map_err(|error| match line {
        0 => error,
        _ => Error {
            place: Place::Line(line),
            ..error
        },
    })
}

/// Returns what a call writes to a buffer, which grows as the call asks.
fn written(
    mut capacity: usize,
    mut call: impl FnMut(*mut u8, usize, *mut usize) -> u32,
) -> Result<Vec<u8>, Error> {
    loop {
        let mut out = Vec::with_capacity(capacity);
        let mut len = 0;
        let number = call(out.as_mut_ptr(), capacity, &mut len);
        if number == sys::RESB_NO_ROOM {
            capacity = len;
            continue;
        }
        error::result_of(number)?;
        // SAFETY: the call has written this many bytes, and there is room for them.
        unsafe { out.set_len(len) };
        return Ok(out);
    }
}
