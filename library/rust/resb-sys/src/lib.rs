//! The C functions of libresb, with the names and the rules of `resb.h`.
#![allow(non_camel_case_types)]

use std::ffi::c_void;
use std::os::raw::c_char;

pub const RESB_OK: u32 = 0;
pub const RESB_MEMORY: u32 = 1;
pub const RESB_NOT_OPEN: u32 = 2;
pub const RESB_ALREADY_OPEN: u32 = 3;
pub const RESB_SHARED: u32 = 4;
pub const RESB_NO_ROOM: u32 = 5;
pub const RESB_OTHER_KIND: u32 = 6;
pub const RESB_NO_ENTRY: u32 = 7;
pub const RESB_STALE: u32 = 8;
pub const RESB_BAD_APP: u32 = 11;
pub const RESB_RESERVED: u32 = 12;
pub const RESB_BAD_LOCALE: u32 = 13;
pub const RESB_BAD_TEXT: u32 = 14;
pub const RESB_BAD_FILE: u32 = 15;
pub const RESB_EXISTS: u32 = 16;
pub const RESB_ABSENT: u32 = 17;
pub const RESB_FULL: u32 = 18;
pub const RESB_TWICE: u32 = 19;
pub const RESB_TREE_TOO_LARGE: u32 = 20;
pub const RESB_BAD_PATH: u32 = 21;
pub const RESB_PATH_TOO_LONG: u32 = 22;
pub const RESB_CHAIN: u32 = 23;
pub const RESB_BAD_PARENT: u32 = 24;
pub const RESB_NO_BUNDLE: u32 = 25;
pub const RESB_MISSING: u32 = 26;
pub const RESB_ALIAS_TEXT: u32 = 27;
pub const RESB_ALIAS_PACKAGE: u32 = 28;
pub const RESB_TOO_MANY_ALIASES: u32 = 29;
pub const RESB_TOO_MANY_STEPS: u32 = 30;
pub const RESB_TEXT_TOO_LONG: u32 = 31;
pub const RESB_TEXT_NOT_UTF8: u32 = 32;
pub const RESB_TEXT_BAD_ESCAPE: u32 = 33;
pub const RESB_TEXT_OPEN_QUOTE: u32 = 34;
pub const RESB_TEXT_OPEN_COMMENT: u32 = 35;
pub const RESB_TEXT_UNEXPECTED: u32 = 36;
pub const RESB_TEXT_UNKNOWN_TYPE: u32 = 37;
pub const RESB_TEXT_BAD_KEY: u32 = 38;
pub const RESB_TEXT_DUPLICATE_KEY: u32 = 39;
pub const RESB_TEXT_BAD_INT: u32 = 40;
pub const RESB_TEXT_BAD_HEX: u32 = 41;
pub const RESB_TEXT_TOO_DEEP: u32 = 42;
pub const RESB_TEXT_TRAILING_TEXT: u32 = 43;
pub const RESB_TEXT_TOO_LARGE: u32 = 44;
pub const RESB_FILE_TOO_LONG: u32 = 51;
pub const RESB_FILE_HEADER: u32 = 52;
pub const RESB_FILE_BIG_ENDIAN: u32 = 53;
pub const RESB_FILE_FAMILY: u32 = 54;
pub const RESB_FILE_FORMAT_VERSION: u32 = 55;
pub const RESB_FILE_INDEXES: u32 = 56;
pub const RESB_FILE_ATTRIBUTES: u32 = 57;
pub const RESB_FILE_ROOT: u32 = 58;
pub const RESB_FILE_ITEM_TYPE: u32 = 59;
pub const RESB_FILE_OFFSET: u32 = 60;
pub const RESB_FILE_LENGTH: u32 = 61;
pub const RESB_FILE_NOT_TERMINATED: u32 = 62;
pub const RESB_FILE_KEY: u32 = 63;
pub const RESB_FILE_KEY_ORDER: u32 = 64;
pub const RESB_FILE_TOO_DEEP: u32 = 65;
pub const RESB_PARENTS_SHAPE: u32 = 71;
pub const RESB_PARENTS_BAD_LOCALE: u32 = 72;
pub const RESB_PARENTS_TWO_PARENTS: u32 = 73;
pub const RESB_ICU_ALIAS: u32 = 75;
pub const RESB_ICU_PARENT: u32 = 76;
pub const RESB_ICU_TARGET: u32 = 77;
pub const RESB_ICU_ITEMS: u32 = 78;
pub const RESB_REPLY_TOO_LONG: u32 = 79;
pub const RESB_JSON_TOO_LONG: u32 = 81;
pub const RESB_JSON_NOT_UTF8: u32 = 82;
pub const RESB_JSON_NOT_JSON: u32 = 83;
pub const RESB_JSON_TRAILING_TEXT: u32 = 84;
pub const RESB_JSON_NOT_TABLE: u32 = 85;
pub const RESB_JSON_UNKNOWN_VALUE: u32 = 86;
pub const RESB_JSON_BAD_TAG: u32 = 87;
pub const RESB_JSON_BAD_KEY: u32 = 88;
pub const RESB_JSON_DUPLICATE_KEY: u32 = 89;
pub const RESB_JSON_BAD_NUMBER: u32 = 90;
pub const RESB_JSON_BAD_BINARY: u32 = 91;
pub const RESB_JSON_BAD_UNITS: u32 = 92;
pub const RESB_JSON_TOO_DEEP: u32 = 93;
pub const RESB_JSON_TOO_LARGE: u32 = 94;

pub const RESB_STRING: u32 = 0;
pub const RESB_BINARY: u32 = 1;
pub const RESB_TABLE: u32 = 2;
pub const RESB_ALIAS: u32 = 3;
pub const RESB_INT: u32 = 7;
pub const RESB_ARRAY: u32 = 8;
pub const RESB_INT_VECTOR: u32 = 14;

#[repr(C)]
pub struct resb {
    pub engine: *mut c_void,
    pub is_open: bool,
}

#[repr(C)]
pub struct resb_entry {
    pub locale: *const u8,
    pub locale_len: usize,
    pub bytes: *const u8,
    pub len: usize,
    pub is_text: bool,
}

#[repr(C)]
pub struct resb_bundle {
    pub bundle: *mut c_void,
    pub is_prepared: bool,
}

#[repr(C)]
pub struct resb_edit {
    pub locale: *const u8,
    pub locale_len: usize,
    pub bundle: resb_bundle,
}

#[repr(C)]
pub struct resb_found {
    pub at: *const c_void,
    pub count: usize,
    pub kind: u32,
    pub number: u32,
}

#[repr(C)]
pub struct resb_child {
    pub key: *const u8,
    pub key_len: usize,
    pub item: resb_found,
}

#[repr(C)]
#[derive(Clone, Copy)]
pub struct resb_finding {
    pub line: u64,
    pub column: u64,
    pub error: u32,
    pub rule: [u8; 28],
    pub message: [u8; 464],
}

#[repr(C)]
#[derive(Clone, Copy)]
pub struct resb_locale {
    pub version: u64,
    pub app: usize,
    pub count: usize,
    pub stops: [usize; 32],
    pub names: u8,
    pub from_valid: u8,
}

extern "C" {
    pub fn resb_get_error_name(error: u32, name: *mut *const c_char);
    pub fn resb_check(file: *const u8, len: usize) -> u32;
    pub fn resb_check_for_icu(file: *const u8, len: usize) -> u32;
    pub fn resb_alias_targets(
        file: *const u8,
        len: usize,
        out: *mut u8,
        capacity: usize,
        written: *mut usize,
    ) -> u32;
    pub fn resb_lint(
        text: *const u8,
        len: usize,
        name: *const u8,
        name_len: usize,
        findings: *mut resb_finding,
        capacity: usize,
        count: *mut usize,
        more: *mut u64,
    ) -> u32;
    pub fn resb_compile(
        text: *const u8,
        len: usize,
        out: *mut u8,
        capacity: usize,
        written: *mut usize,
        line: *mut u64,
    ) -> u32;
    pub fn resb_open(engine: *mut resb, seed: *const u8, seed_len: usize) -> u32;
    pub fn resb_open_with(
        engine: *mut resb,
        seed: *const u8,
        seed_len: usize,
        icudata: *const resb_entry,
        count: usize,
        parents: *const u8,
        parents_len: usize,
        place: *mut u64,
    ) -> u32;
    pub fn resb_close(engine: *mut resb);
    pub fn resb_share(engine: *mut resb, other: *mut resb) -> u32;
    pub fn resb_snapshot(
        engine: *mut resb,
        seed: *const u8,
        seed_len: usize,
        other: *mut resb,
    ) -> u32;
    pub fn resb_install(
        engine: *mut resb,
        app: *const u8,
        app_len: usize,
        locale: *const u8,
        locale_len: usize,
        bytes: *const u8,
        len: usize,
        is_text: bool,
    ) -> u32;
    pub fn resb_replace(
        engine: *mut resb,
        app: *const u8,
        app_len: usize,
        locale: *const u8,
        locale_len: usize,
        bytes: *const u8,
        len: usize,
        is_text: bool,
    ) -> u32;
    pub fn resb_remove(
        engine: *mut resb,
        app: *const u8,
        app_len: usize,
        locale: *const u8,
        locale_len: usize,
    ) -> u32;
    pub fn resb_prepare(
        bytes: *const u8,
        len: usize,
        is_text: bool,
        bundle: *mut resb_bundle,
        line: *mut u64,
    ) -> u32;
    pub fn resb_prepare_json(
        json: *const u8,
        len: usize,
        bundle: *mut resb_bundle,
        line: *mut u64,
    ) -> u32;
    pub fn resb_bundle_file(
        bundle: *mut resb_bundle,
        out: *mut u8,
        capacity: usize,
        len: *mut usize,
    ) -> u32;
    pub fn resb_bundle_text(
        bundle: *mut resb_bundle,
        locale: *const u8,
        locale_len: usize,
        out: *mut u8,
        capacity: usize,
        len: *mut usize,
    ) -> u32;
    pub fn resb_bundle_json(
        bundle: *mut resb_bundle,
        out: *mut u8,
        capacity: usize,
        len: *mut usize,
    ) -> u32;
    pub fn resb_copy_bundle(bundle: *mut resb_bundle, copy: *mut resb_bundle) -> u32;
    pub fn resb_discard(bundle: *mut resb_bundle);
    pub fn resb_release(
        engine: *mut resb,
        app: *const u8,
        app_len: usize,
        edits: *mut resb_edit,
        count: usize,
        place: *mut usize,
    ) -> u32;
    pub fn resb_list(
        engine: *mut resb,
        app: *const u8,
        app_len: usize,
        out: *mut u8,
        capacity: usize,
        len: *mut usize,
    ) -> u32;
    pub fn resb_usage(
        engine: *mut resb,
        app: *const u8,
        app_len: usize,
        bytes: *mut u64,
        bundles: *mut u64,
    ) -> u32;
    pub fn resb_apps(engine: *mut resb, apps: *mut u64) -> u32;
    pub fn resb_look(
        engine: *mut resb,
        app: *const u8,
        app_len: usize,
        locale: *const u8,
        locale_len: usize,
        path: *const u8,
        path_len: usize,
        found: *mut resb_found,
    ) -> u32;
    pub fn resb_look_within(
        engine: *mut resb,
        app: *const u8,
        app_len: usize,
        locale: *const u8,
        locale_len: usize,
        path: *const u8,
        path_len: usize,
        steps: u64,
        found: *mut resb_found,
    ) -> u32;
    pub fn resb_item_json(
        engine: *mut resb,
        app: *const u8,
        app_len: usize,
        locale: *const u8,
        locale_len: usize,
        path: *const u8,
        path_len: usize,
        steps: u64,
        out: *mut u8,
        capacity: usize,
        len: *mut usize,
    ) -> u32;
    pub fn resb_tree_json(
        engine: *mut resb,
        app: *const u8,
        app_len: usize,
        locale: *const u8,
        locale_len: usize,
        path: *const u8,
        path_len: usize,
        steps: u64,
        out: *mut u8,
        capacity: usize,
        len: *mut usize,
    ) -> u32;
    pub fn resb_item_json_within(
        engine: *mut resb,
        app: *const u8,
        app_len: usize,
        locale: *const u8,
        locale_len: usize,
        path: *const u8,
        path_len: usize,
        steps: u64,
        bytes: u64,
        out: *mut u8,
        capacity: usize,
        len: *mut usize,
    ) -> u32;
    pub fn resb_tree_json_within(
        engine: *mut resb,
        app: *const u8,
        app_len: usize,
        locale: *const u8,
        locale_len: usize,
        path: *const u8,
        path_len: usize,
        steps: u64,
        bytes: u64,
        out: *mut u8,
        capacity: usize,
        len: *mut usize,
    ) -> u32;
    pub fn resb_open_locale(
        engine: *mut resb,
        app: *const u8,
        app_len: usize,
        locale: *const u8,
        locale_len: usize,
        opened: *mut resb_locale,
    ) -> u32;
    pub fn resb_look_at(
        engine: *mut resb,
        opened: *const resb_locale,
        path: *const u8,
        path_len: usize,
        found: *mut resb_found,
    ) -> u32;
    pub fn resb_look_at_within(
        engine: *mut resb,
        opened: *const resb_locale,
        path: *const u8,
        path_len: usize,
        steps: u64,
        found: *mut resb_found,
    ) -> u32;
    pub fn resb_text(
        engine: *mut resb,
        app: *const u8,
        app_len: usize,
        locale: *const u8,
        locale_len: usize,
        path: *const u8,
        path_len: usize,
        out: *mut u16,
        capacity: usize,
        len: *mut usize,
    ) -> u32;
    pub fn resb_key(
        engine: *mut resb,
        app: *const u8,
        app_len: usize,
        locale: *const u8,
        locale_len: usize,
        path: *const u8,
        path_len: usize,
        index: usize,
        out: *mut u8,
        capacity: usize,
        len: *mut usize,
    ) -> u32;
    pub fn resb_children(
        engine: *mut resb,
        app: *const u8,
        app_len: usize,
        locale: *const u8,
        locale_len: usize,
        path: *const u8,
        path_len: usize,
        children: *mut resb_child,
        capacity: usize,
        count: *mut usize,
    ) -> u32;
}
