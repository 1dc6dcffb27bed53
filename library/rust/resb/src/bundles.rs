use crate::bundle::{discarded, Bundle};
use crate::error::{result_of, Error, Place};
use crate::{sys, written};
use std::cell::UnsafeCell;
use std::collections::hash_map::RandomState;
use std::hash::{BuildHasher, Hasher};
use std::mem::MaybeUninit;
use std::{ptr, slice, str};

/// A bundle to install: a text, or a `.res` file.
#[derive(Clone, Copy, Debug)]
pub enum Content<'a> {
    Text(&'a str),
    File(&'a [u8]),
}

impl<'a> Content<'a> {
    pub(crate) fn bytes(self) -> &'a [u8] {
        match self {
            Content::Text(text) => text.as_bytes(),
            Content::File(file) => file,
        }
    }

    pub(crate) fn is_text(self) -> bool {
        matches!(self, Content::Text(_))
    }
}

/// An item that a lookup found. Strings, binaries and integer vectors are in the engine's copy of
/// the file.
#[derive(Clone, Copy, Debug, PartialEq, Eq)]
pub enum Item<'a> {
    /// UTF-16 units, which may have lone surrogates.
    String(&'a [u16]),
    Binary(&'a [u8]),
    /// 28 bits with a sign.
    Int(i32),
    IntVector(&'a [i32]),
    /// The number of entries.
    Table(usize),
    /// The number of items.
    Array(usize),
}

impl<'a> Item<'a> {
    /// # Safety
    /// A lookup wrote `found`, and its engine doesn't change while 'a lasts.
    unsafe fn of(found: sys::resb_found) -> Item<'a> {
        match found.kind {
            sys::RESB_STRING => Item::String(items(&found)),
            sys::RESB_BINARY => Item::Binary(items(&found)),
            sys::RESB_INT_VECTOR => Item::IntVector(items(&found)),
            sys::RESB_INT => Item::Int((found.number << 4) as i32 >> 4),
            sys::RESB_TABLE => Item::Table(found.count),
            _ => Item::Array(found.count),
        }
    }
}

/// # Safety
/// `found` describes items of type T, which don't change while 'a lasts.
unsafe fn items<'a, T>(found: &sys::resb_found) -> &'a [T] {
    match found.count {
        0 => &[],
        count => slice::from_raw_parts(found.at.cast(), count),
    }
}

/// An item of a table or an array.
#[derive(Clone, Copy, Debug, PartialEq, Eq)]
pub enum Child<'a> {
    Item(Item<'a>),
    /// The UTF-16 units of an alias, which a lookup of the item's path follows.
    Alias(&'a [u16]),
}

impl<'a> Child<'a> {
    /// # Safety
    /// A lookup wrote `child`, and its engine doesn't change while 'a lasts.
    unsafe fn with_key(child: sys::resb_child) -> (&'a str, Child<'a>) {
        let key = match child.key_len {
            0 => &[],
            len => slice::from_raw_parts(child.key, len),
        };
        let item = match child.item.kind {
            sys::RESB_ALIAS => Child::Alias(items(&child.item)),
            _ => Child::Item(Item::of(child.item)),
        };
        // A key is ASCII.
        (str::from_utf8(key).unwrap_or_default(), item)
    }
}

/// A locale that was opened for many lookups. Each change of its engine makes it stale.
#[derive(Clone, Copy)]
pub struct Locale(sys::resb_locale);

type Change = unsafe extern "C" fn(
    *mut sys::resb,
    *const u8,
    usize,
    *const u8,
    usize,
    *const u8,
    usize,
    bool,
) -> u32;

/// The bundles of many applications. An application sees its own bundles and those of ICUDATA alone.
///
/// It may pass from thread to thread. For lookups on several threads at once make one for each by
/// [`Bundles::share`].
pub struct Bundles(Box<UnsafeCell<sys::resb>>);

// SAFETY: a handle may pass from thread to thread. It is not Sync, so one call at a time uses it.
unsafe impl Send for Bundles {}

impl Drop for Bundles {
    fn drop(&mut self) {
        // SAFETY: all items that borrow the bundles are gone.
        unsafe { sys::resb_close(self.0.get()) }
    }
}

/// Returns random bytes, as names of others could make the engine's index slow if they knew them.
fn seed() -> [u8; 16] {
    let halves = [(); 2].map(|()| RandomState::new().build_hasher().finish());
    (u128::from(halves[0]) << 64 | u128::from(halves[1])).to_ne_bytes()
}

impl Bundles {
    /// Opens bundles, at first none. RESB_MEMORY.
    pub fn open() -> Result<Bundles, Error> {
        Bundles::open_with(&[], "")
    }

    /// Opens bundles with those of ICUDATA, by their locales, and with the explicit parents of a
    /// bundle text. Returns the errors of `resb_open_with`, with the index of the bundle or the
    /// line of the text.
    pub fn open_with(icudata: &[(&str, Content<'_>)], parents: &str) -> Result<Bundles, Error> {
        let entry = |&(locale, content): &(&str, Content<'_>)| sys::resb_entry {
            locale: locale.as_ptr(),
            locale_len: locale.len(),
            bytes: content.bytes().as_ptr(),
            len: content.bytes().len(),
            is_text: content.is_text(),
        };
        let entries: Vec<_> = icudata.iter().map(entry).collect();
        let (bundles, seed, mut at) = (Bundles::closed(), seed(), 0);
        let (p, pn) = (parents.as_ptr(), parents.len());
        // SAFETY: the pointers have the lengths of what they point to.
        let number = unsafe {
            let (first, count) = (entries.as_ptr(), entries.len());
            sys::resb_open_with(
                bundles.0.get(),
                seed.as_ptr(),
                16,
                first,
                count,
                p,
                pn,
                &mut at,
            )
        };
        let place = match number {
            sys::RESB_BAD_LOCALE | sys::RESB_BAD_TEXT | sys::RESB_BAD_FILE | sys::RESB_TWICE => {
                Place::Bundle(at)
            }
            _ if at > 0 => Place::Line(at),
            _ => Place::Unknown,
        };
        result_of(number).map_err(|error| Error { place, ..error })?;
        Ok(bundles)
    }

    fn closed() -> Bundles {
        let handle = sys::resb {
            engine: ptr::null_mut(),
            is_open: false,
        };
        Bundles(Box::new(UnsafeCell::new(handle)))
    }

    /// Returns further bundles of the same engine, for another thread. While there are several, a
    /// change returns RESB_SHARED. RESB_MEMORY.
    pub fn share(&self) -> Result<Bundles, Error> {
        let other = Bundles::closed();
        // SAFETY: both handles are in use by this call alone.
        result_of(unsafe { sys::resb_share(self.0.get(), other.0.get()) })?;
        Ok(other)
    }

    /// Returns bundles of a new engine with the same bundles, which it shares: either changes
    /// alone. RESB_MEMORY.
    pub fn snapshot(&self) -> Result<Bundles, Error> {
        let (other, seed) = (Bundles::closed(), seed());
        // SAFETY: both handles are in use by this call alone, and the seed has 16 bytes.
        let number = unsafe { sys::resb_snapshot(self.0.get(), seed.as_ptr(), 16, other.0.get()) };
        result_of(number)?;
        Ok(other)
    }

    /// Installs a bundle of an application. Returns the errors of `resb_install`, after which
    /// nothing has changed.
    pub fn install(&mut self, app: &str, locale: &str, content: Content<'_>) -> Result<(), Error> {
        self.change(sys::resb_install, app, locale, content)
    }

    /// Replaces a bundle of an application. Returns the errors of `resb_replace`, after which
    /// nothing has changed.
    pub fn replace(&mut self, app: &str, locale: &str, content: Content<'_>) -> Result<(), Error> {
        self.change(sys::resb_replace, app, locale, content)
    }

    fn change(
        &mut self,
        call: Change,
        app: &str,
        locale: &str,
        content: Content<'_>,
    ) -> Result<(), Error> {
        let (a, an, l, ln) = (app.as_ptr(), app.len(), locale.as_ptr(), locale.len());
        let (b, bn) = (content.bytes().as_ptr(), content.bytes().len());
        // SAFETY: the pointers have the lengths of what they point to.
        result_of(unsafe { call(self.0.get(), a, an, l, ln, b, bn, content.is_text()) })
    }

    /// Removes a bundle of an application. Returns the errors of `resb_remove`, after which nothing has changed.
    pub fn remove(&mut self, app: &str, locale: &str) -> Result<(), Error> {
        let (a, an, l, ln) = (app.as_ptr(), app.len(), locale.as_ptr(), locale.len());
        // SAFETY: the pointers have the lengths of their strings.
        result_of(unsafe { sys::resb_remove(self.0.get(), a, an, l, ln) })
    }

    /// Makes changes of an application in their order, all or none: the bundle that is to have a
    /// locale, or none to remove the one that has it. Returns the errors of `resb_release`, with the
    /// index of the change, after which nothing has changed.
    pub fn release(
        &mut self,
        app: &str,
        changes: Vec<(&str, Option<Bundle>)>,
    ) -> Result<(), Error> {
        let edit = |(locale, bundle): (&str, Option<Bundle>)| sys::resb_edit {
            locale: locale.as_ptr(),
            locale_len: locale.len(),
            bundle: bundle.map_or_else(discarded, Bundle::into_handle),
        };
        let mut edits: Vec<_> = changes.into_iter().map(edit).collect();
        let mut at = 0;
        let (a, an, first, count) = (app.as_ptr(), app.len(), edits.as_mut_ptr(), edits.len());
        // SAFETY: the pointers have the lengths of what they point to.
        let number = unsafe { sys::resb_release(self.0.get(), a, an, first, count, &mut at) };
        for edit in &mut edits {
            // SAFETY: the handle is in use by this call alone.
            unsafe { sys::resb_discard(&mut edit.bundle) }
        }
        let place = match number {
            sys::RESB_BAD_LOCALE | sys::RESB_ABSENT | sys::RESB_FULL => Place::Edit(at),
            _ => Place::Unknown,
        };
        result_of(number).map_err(|error| Error { place, ..error })
    }

    /// Lists the locales of an application's bundles in the order of their installation.
    /// RESB_BAD_APP, RESB_RESERVED.
    pub fn list(&self, app: &str) -> Result<Vec<String>, Error> {
        // SAFETY: the pointers have the lengths of what they point to.
        let names = written(256, |out, capacity, len| unsafe {
            sys::resb_list(self.0.get(), app.as_ptr(), app.len(), out, capacity, len)
        })?;
        let names = String::from_utf8_lossy(&names);
        Ok(names.split_terminator('\0').map(str::to_owned).collect())
    }

    /// Returns the total length of the files that an application stores, and the number of its
    /// bundles. RESB_BAD_APP, RESB_RESERVED.
    pub fn usage(&self, app: &str) -> Result<(u64, u64), Error> {
        let (mut bytes, mut bundles) = (0, 0);
        let (a, an) = (app.as_ptr(), app.len());
        // SAFETY: the pointer has the length of its string.
        result_of(unsafe { sys::resb_usage(self.0.get(), a, an, &mut bytes, &mut bundles) })?;
        Ok((bytes, bundles))
    }

    /// Returns the number of applications that have bundles.
    pub fn apps(&self) -> Result<u64, Error> {
        let mut apps = 0;
        // SAFETY: the handle is in use by this call alone.
        result_of(unsafe { sys::resb_apps(self.0.get(), &mut apps) })?;
        Ok(apps)
    }

    /// Returns what a lookup finds, which borrows the bundles.
    fn found(&self, call: impl FnOnce(*mut sys::resb_found) -> u32) -> Result<Item<'_>, Error> {
        let mut found = MaybeUninit::uninit();
        result_of(call(found.as_mut_ptr()))?;
        // SAFETY: the call has written it. A change needs the bundles mutably, and the engine
        // refuses one by another handle while this one is open, so the item is good while it
        // borrows them.
        Ok(unsafe { Item::of(found.assume_init()) })
    }

    /// Looks up the item at a path, such as "menu/open". Returns the errors of `resb_look`.
    pub fn look(&self, app: &str, locale: &str, path: &str) -> Result<Item<'_>, Error> {
        let (a, an, l, ln) = (app.as_ptr(), app.len(), locale.as_ptr(), locale.len());
        let (p, pn) = (path.as_ptr(), path.len());
        // SAFETY: the pointers have the lengths of their strings.
        self.found(|found| unsafe { sys::resb_look(self.0.get(), a, an, l, ln, p, pn, found) })
    }

    /// Looks up like [`Bundles::look`], or returns RESB_TOO_MANY_STEPS if that takes more than this
    /// many steps.
    pub fn look_within(
        &self,
        app: &str,
        locale: &str,
        path: &str,
        steps: u64,
    ) -> Result<Item<'_>, Error> {
        let (a, an, l, ln) = (app.as_ptr(), app.len(), locale.as_ptr(), locale.len());
        let (p, pn) = (path.as_ptr(), path.len());
        // SAFETY: the pointers have the lengths of their strings.
        self.found(|found| unsafe {
            sys::resb_look_within(self.0.get(), a, an, l, ln, p, pn, steps, found)
        })
    }

    /// Looks up a table or an array, and returns its items in their order with their keys, which are
    /// empty in an array; without what it inherits. RESB_OTHER_KIND, and the errors of
    /// [`Bundles::look`].
    pub fn children(
        &self,
        app: &str,
        locale: &str,
        path: &str,
    ) -> Result<Vec<(&str, Child<'_>)>, Error> {
        let (a, an, l, ln) = (app.as_ptr(), app.len(), locale.as_ptr(), locale.len());
        let (p, pn) = (path.as_ptr(), path.len());
        let call = |found: &mut Vec<sys::resb_child>, count: &mut usize| {
            let (to, room) = (found.as_mut_ptr(), found.capacity());
            // SAFETY: the pointers have the lengths of what they point to.
            unsafe { sys::resb_children(self.0.get(), a, an, l, ln, p, pn, to, room, count) }
        };
        let (mut found, mut count) = (Vec::new(), 0);
        if call(&mut found, &mut count) == sys::RESB_NO_ROOM {
            found.reserve_exact(count);
        }
        result_of(call(&mut found, &mut count))?;
        // SAFETY: the call has written this many items.
        unsafe { found.set_len(count) };
        // SAFETY: as of an item that a lookup finds.
        Ok(found
            .into_iter()
            .map(|it| unsafe { Child::with_key(it) })
            .collect())
    }

    /// Looks up like [`Bundles::look_within`], and returns the item as the reply of `resb serve`
    /// (docs/SERVER.md).
    pub fn item_json(
        &self,
        app: &str,
        locale: &str,
        path: &str,
        steps: u64,
    ) -> Result<String, Error> {
        self.item_json_within(app, locale, path, steps, u64::MAX)
    }

    /// Writes like [`Bundles::item_json`], or returns RESB_REPLY_TOO_LONG if the item has more than
    /// this many bytes.
    pub fn item_json_within(
        &self,
        app: &str,
        locale: &str,
        path: &str,
        steps: u64,
        bytes: u64,
    ) -> Result<String, Error> {
        let (a, an, l, ln) = (app.as_ptr(), app.len(), locale.as_ptr(), locale.len());
        let (p, pn, handle) = (path.as_ptr(), path.len(), self.0.get());
        // SAFETY: the pointers have the lengths of what they point to.
        let json = written(256, |out, room, len| unsafe {
            sys::resb_item_json_within(handle, a, an, l, ln, p, pn, steps, bytes, out, room, len)
        })?;
        Ok(String::from_utf8_lossy(&json).into_owned())
    }

    /// Looks up like [`Bundles::look_within`], and returns the item with everything that it inherits
    /// as one JSON value. RESB_TREE_TOO_LARGE, and the errors of that.
    pub fn tree_json(
        &self,
        app: &str,
        locale: &str,
        path: &str,
        steps: u64,
    ) -> Result<String, Error> {
        self.tree_json_within(app, locale, path, steps, u64::MAX)
    }

    /// Writes like [`Bundles::tree_json`], or returns RESB_TREE_TOO_LARGE if the tree has more than
    /// this many bytes.
    pub fn tree_json_within(
        &self,
        app: &str,
        locale: &str,
        path: &str,
        steps: u64,
        bytes: u64,
    ) -> Result<String, Error> {
        let (a, an, l, ln) = (app.as_ptr(), app.len(), locale.as_ptr(), locale.len());
        let (p, pn, handle) = (path.as_ptr(), path.len(), self.0.get());
        // SAFETY: the pointers have the lengths of what they point to.
        let json = written(1024, |out, room, len| unsafe {
            sys::resb_tree_json_within(handle, a, an, l, ln, p, pn, steps, bytes, out, room, len)
        })?;
        Ok(String::from_utf8_lossy(&json).into_owned())
    }

    /// Opens a locale of an application for [`Bundles::look_at`]. Returns the errors of
    /// `resb_open_locale`.
    pub fn open_locale(&self, app: &str, locale: &str) -> Result<Locale, Error> {
        let mut opened = MaybeUninit::uninit();
        let (a, an, l, ln) = (app.as_ptr(), app.len(), locale.as_ptr(), locale.len());
        // SAFETY: the pointers have the lengths of their strings, and without an error the call
        // has written the locale.
        unsafe {
            result_of(sys::resb_open_locale(
                self.0.get(),
                a,
                an,
                l,
                ln,
                opened.as_mut_ptr(),
            ))?;
            Ok(Locale(opened.assume_init()))
        }
    }

    /// Looks up from a locale that was opened with the same engine. RESB_STALE: the engine has
    /// changed since then. Else returns the errors of [`Bundles::look`].
    pub fn look_at(&self, opened: &Locale, path: &str) -> Result<Item<'_>, Error> {
        // SAFETY: the pointers have the lengths of what they point to.
        self.found(|found| unsafe {
            sys::resb_look_at(self.0.get(), &opened.0, path.as_ptr(), path.len(), found)
        })
    }

    /// Looks up like [`Bundles::look_at`], or returns RESB_TOO_MANY_STEPS just as
    /// [`Bundles::look_within`] does.
    pub fn look_at_within(
        &self,
        opened: &Locale,
        path: &str,
        steps: u64,
    ) -> Result<Item<'_>, Error> {
        let (at, p, pn) = (&opened.0, path.as_ptr(), path.len());
        // SAFETY: the pointers have the lengths of what they point to.
        self.found(|found| unsafe {
            sys::resb_look_at_within(self.0.get(), at, p, pn, steps, found)
        })
    }

    /// Looks up a string, with U+FFFD for lone surrogates. RESB_OTHER_KIND, and the errors of
    /// [`Bundles::look`].
    pub fn text(&self, app: &str, locale: &str, path: &str) -> Result<String, Error> {
        match self.look(app, locale, path)? {
            Item::String(units) => Ok(String::from_utf16_lossy(units)),
            _ => Err(Error {
                number: sys::RESB_OTHER_KIND,
                place: Place::Unknown,
            }),
        }
    }

    /// Returns the key of an entry of a table, in the order of the keys. RESB_OTHER_KIND,
    /// RESB_NO_ENTRY, and the errors of [`Bundles::look`].
    pub fn key(&self, app: &str, locale: &str, path: &str, index: usize) -> Result<String, Error> {
        let (a, an, l, ln) = (app.as_ptr(), app.len(), locale.as_ptr(), locale.len());
        let (p, pn) = (path.as_ptr(), path.len());
        // SAFETY: the pointers have the lengths of what they point to.
        let key = written(64, |out, capacity, len| unsafe {
            sys::resb_key(self.0.get(), a, an, l, ln, p, pn, index, out, capacity, len)
        })?;
        Ok(String::from_utf8_lossy(&key).into_owned())
    }
}
