use crate::bundles::Content;
use crate::error::{result_of, Error, Place};
use crate::{sys, written};
use std::cell::UnsafeCell;
use std::ptr;

/// A bundle that was read and checked, and belongs to no application yet.
pub struct Bundle(UnsafeCell<sys::resb_bundle>);

// SAFETY: a handle may pass from thread to thread. It is not Sync, so one call at a time uses it.
unsafe impl Send for Bundle {}

impl Drop for Bundle {
    fn drop(&mut self) {
        // SAFETY: the handle is in use by this call alone.
        unsafe { sys::resb_discard(self.0.get()) }
    }
}

/// Returns a handle without a bundle.
pub(crate) fn discarded() -> sys::resb_bundle {
    sys::resb_bundle {
        bundle: ptr::null_mut(),
        is_prepared: false,
    }
}

impl Bundle {
    /// Reads and checks a text or a `.res` file. Returns the first error, with its line in a text.
    pub fn prepare(content: Content<'_>) -> Result<Bundle, Error> {
        let (bytes, is_text) = (content.bytes(), content.is_text());
        // SAFETY: the pointers have the lengths of what they point to.
        Bundle::of(|handle, line| unsafe {
            sys::resb_prepare(bytes.as_ptr(), bytes.len(), is_text, handle, line)
        })
    }

    /// Reads and checks JSON in the form of docs/JSON.md. Returns an error with its line.
    pub fn from_json(json: &str) -> Result<Bundle, Error> {
        // SAFETY: the pointers have the lengths of what they point to.
        Bundle::of(|handle, line| unsafe {
            sys::resb_prepare_json(json.as_ptr(), json.len(), handle, line)
        })
    }

    fn of(call: impl FnOnce(*mut sys::resb_bundle, *mut u64) -> u32) -> Result<Bundle, Error> {
        let (bundle, mut line) = (Bundle(UnsafeCell::new(discarded())), 0);
        let number = call(bundle.0.get(), &mut line);
        let place = match line {
            0 => Place::Unknown,
            _ => Place::Line(line),
        };
        result_of(number).map_err(|error| Error { place, ..error })?;
        Ok(bundle)
    }

    /// Returns the bundle once more, as for the release of a second engine. It copies no bytes.
    /// RESB_MEMORY.
    pub fn try_clone(&self) -> Result<Bundle, Error> {
        // SAFETY: the handles are in use by this call alone.
        Bundle::of(|handle, _| unsafe { sys::resb_copy_bundle(self.0.get(), handle) })
    }

    /// Returns the `.res` file of the bundle.
    pub fn file(&self) -> Result<Vec<u8>, Error> {
        // SAFETY: the pointers have the lengths of what they point to.
        written(1024, |out, capacity, len| unsafe {
            sys::resb_bundle_file(self.0.get(), out, capacity, len)
        })
    }

    /// Returns the bundle as a text under the name of a locale. RESB_BAD_LOCALE,
    /// RESB_TEXT_TOO_LARGE.
    pub fn text(&self, locale: &str) -> Result<String, Error> {
        let (l, ln) = (locale.as_ptr(), locale.len());
        // SAFETY: the pointers have the lengths of what they point to.
        let text = written(1024, |out, capacity, len| unsafe {
            sys::resb_bundle_text(self.0.get(), l, ln, out, capacity, len)
        })?;
        Ok(String::from_utf8_lossy(&text).into_owned())
    }

    /// Returns the bundle as JSON in the form of docs/JSON.md. RESB_TREE_TOO_LARGE.
    pub fn json(&self) -> Result<String, Error> {
        // SAFETY: the pointers have the lengths of what they point to.
        let json = written(1024, |out, capacity, len| unsafe {
            sys::resb_bundle_json(self.0.get(), out, capacity, len)
        })?;
        Ok(String::from_utf8_lossy(&json).into_owned())
    }

    /// Takes the bundle out of the handle.
    pub(crate) fn into_handle(mut self) -> sys::resb_bundle {
        std::mem::replace(self.0.get_mut(), discarded())
    }
}
