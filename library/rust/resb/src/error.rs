use crate::sys;
use std::ffi::CStr;
use std::{fmt, ptr};

/// Where an error is in what was passed.
#[derive(Clone, Copy, Debug, PartialEq, Eq)]
pub enum Place {
    Unknown,
    /// The line of a text.
    Line(u64),
    /// The index of a bundle of ICUDATA.
    Bundle(u64),
    /// The index of a change of a release.
    Edit(usize),
}

/// An error: its number in `resb.h`, such as [`sys::RESB_MISSING`], and its place.
#[derive(Clone, Copy, Debug, PartialEq, Eq)]
pub struct Error {
    pub number: u32,
    pub place: Place,
}

impl Error {
    /// Returns the name of the error, such as "BadPath".
    pub fn name(&self) -> &'static str {
        let mut name = ptr::null();
        // SAFETY: the call writes where a text of the library begins, which ends with a zero byte.
        let name = unsafe {
            sys::resb_get_error_name(self.number, &mut name);
            CStr::from_ptr(name)
        };
        name.to_str().unwrap_or_default()
    }
}

impl fmt::Display for Error {
    fn fmt(&self, out: &mut fmt::Formatter<'_>) -> fmt::Result {
        match self.place {
            Place::Unknown => write!(out, "{}", self.name()),
            Place::Line(line) => write!(out, "{}, line {}", self.name(), line),
            Place::Bundle(index) => write!(out, "{}, bundle {} of ICUDATA", self.name(), index),
            Place::Edit(index) => write!(out, "{}, edit {}", self.name(), index),
        }
    }
}

impl std::error::Error for Error {}

/// Returns an error without a place for a number that isn't RESB_OK.
pub(crate) fn result_of(number: u32) -> Result<(), Error> {
    match number {
        sys::RESB_OK => Ok(()),
        _ => Err(Error {
            number,
            place: Place::Unknown,
        }),
    }
}
