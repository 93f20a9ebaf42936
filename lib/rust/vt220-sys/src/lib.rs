//! The calls of libvt220 as vt220.h and vt220-keys.h have them: these headers say what each one does and asks for.
#![allow(non_camel_case_types)]
use std::os::raw::{c_char, c_void};
use core::ptr;

pub const VT220_VERSION: u32 = 400;

pub const VT220_OK: u32 = 0;
pub const VT220_MEMORY: u32 = 1;
pub const VT220_IN_USE: u32 = 2;
pub const VT220_CLOSED: u32 = 3;
pub const VT220_PARTIAL: u32 = 4;
pub const VT220_ROOM: u32 = 5;
pub const VT220_UNSUPPORTED: u32 = 6;
pub const VT220_NO_ROW: u32 = 7;
pub const VT220_NO_KEY: u32 = 8;
pub const VT220_NO_CHARACTER: u32 = 9;
pub const VT220_LANGUAGE: u32 = 10;
pub const VT220_SIZE: u32 = 11;
pub const VT220_NO_LANGUAGE: u32 = 12;
pub const VT220_NO_SIZE: u32 = 13;

pub const VT220_HELD_NOTHING: u32 = 0;
pub const VT220_HELD_ESCAPE: u32 = 1;
pub const VT220_HELD_CONTROL: u32 = 2;
pub const VT220_HELD_STRING: u32 = 3;

pub const VT220_ROWS: usize = 24;
pub const VT220_COLUMNS: usize = 132;
pub const VT220_MOST_ROWS: usize = 255;
pub const VT220_MOST_COLUMNS: usize = 255;
pub const VT220_OF_TEXT: u32 = 0;
pub const VT220_OF_ROW_TEXT: u32 = 1;
pub const VT220_OF_SHOW: u32 = 2;
pub const VT220_OF_PICTURE: u32 = 3;
pub const VT220_OF_DRAW: u32 = 4;
pub const VT220_OF_UPDATE: u32 = 5;
pub const VT220_OF_REPAINT: u32 = 6;
pub const VT220_OF_LINES: u32 = 7;
pub const VT220_REPORT_LIMIT: usize = 10;
pub const VT220_UTF8_LINES_LIMIT: usize = 17468;
pub const VT220_XTERM_LINES_LIMIT: usize = 19056;
pub const VT220_TEXT_LIMIT: usize = 9528;
pub const VT220_ROW_TEXT_LIMIT: usize = 397;
pub const VT220_SHOW_LIMIT: usize = 51000;
pub const VT220_PICTURE_LIMIT: usize = 659968;
pub const VT220_PAINT_LIMIT: usize = 93512;
pub const VT220_XTERM_PAINT_LIMIT: usize = 187076;
pub const VT220_UPDATE_LIMIT: usize = 94152;
pub const VT220_DRAW_LIMIT: usize = 79270;
pub const VT220_KEY_LIMIT: usize = 7;
pub const VT220_TYPED_LIMIT: usize = 16;

pub const VT220_BYTES: u32 = 0;
pub const VT220_UTF8: u32 = 1;
pub const VT220_XTERM: u32 = 2;

#[repr(C)]
#[derive(Debug)]
pub struct vt220 {
    pub terminal: *mut c_void,
    pub is_open: bool,
    pub bells: u64,
}

#[repr(C)]
#[derive(Debug)]
pub struct vt220_scratch {
    pub room: *mut c_void,
    pub is_open: bool,
}

impl vt220 {
    /// A closed terminal, as VT220_INIT.
    pub const INIT: vt220 = vt220 { terminal: ptr::null_mut(), is_open: false, bells: 0 };
}

impl vt220_scratch {
    /// A closed scratch buffer, as VT220_INIT.
    pub const INIT: vt220_scratch = vt220_scratch { room: ptr::null_mut(), is_open: false };
}

#[repr(C)]
#[derive(Clone, Copy, Debug, Default)]
pub struct vt220_language_state {
    pub language: u32,
    pub pending: [u8; 3],
    pub pending_len: u8,
    pub alternate: bool,
    pub bracketed_paste: bool,
    pub reserved: [u8; 22],
}

#[repr(C)]
#[derive(Clone, Copy, Debug, Default)]
pub struct vt220_cursor_place {
    pub row: usize,
    pub col: usize,
    pub wrap: bool,
    pub reserved: [u8; 15],
}

#[repr(C)]
#[derive(Clone, Copy, Debug, Default)]
pub struct vt220_margin_rows {
    pub top: usize,
    pub bottom: usize,
    pub reserved: [u8; 16],
}

#[repr(C)]
#[derive(Clone, Copy, Debug, Default)]
pub struct vt220_mode_set {
    pub kam: bool,
    pub irm: bool,
    pub srm: bool,
    pub lnm: bool,
    pub decckm: bool,
    pub decsclm: bool,
    pub decscnm: bool,
    pub decom: bool,
    pub decawm: bool,
    pub decarm: bool,
    pub dectcem: bool,
    pub keypad_application: bool,
    pub reports_8bit: bool,
    pub reserved: [u8; 19],
}

#[repr(C)]
#[derive(Clone, Copy, Debug, Default)]
pub struct vt220_cell {
    pub glyph: u32,
    pub bold: bool,
    pub underline: bool,
    pub blink: bool,
    pub reverse: bool,
    pub is_protected: bool,
    pub reserved: [u8; 3],
}

#[repr(C)]
#[derive(Clone, Copy, Debug, Default)]
pub struct vt220_brush_look {
    pub bold: bool,
    pub underline: bool,
    pub blink: bool,
    pub reverse: bool,
    pub is_protected: bool,
    pub reserved: [u8; 11],
}

#[repr(C)]
#[derive(Clone, Copy, Debug, Default)]
pub struct vt220_graphic_sets {
    pub g0: u8,
    pub g1: u8,
    pub g2: u8,
    pub g3: u8,
    pub gl: u8,
    pub gr: u8,
    pub single_shift: u8,
    pub reserved: [u8; 9],
}

#[repr(C)]
#[derive(Clone, Copy, Debug)]
pub struct vt220_tab_stops {
    pub stop: [bool; VT220_COLUMNS],
    pub reserved: [u8; 12],
}

#[repr(C)]
#[derive(Clone, Copy, Debug, Default)]
pub struct vt220_saved_record {
    pub row: usize,
    pub col: usize,
    pub wrap: bool,
    pub origin: bool,
    pub bold: bool,
    pub underline: bool,
    pub blink: bool,
    pub reverse: bool,
    pub is_protected: bool,
    pub g0: u8,
    pub g1: u8,
    pub g2: u8,
    pub g3: u8,
    pub gl: u8,
    pub gr: u8,
    pub reserved: [u8; 19],
}

#[repr(C)]
#[derive(Clone, Copy, Debug)]
pub struct vt220_row_marks {
    pub width: usize,
    pub changed: [bool; VT220_COLUMNS],
    pub reserved: [u8; 12],
}

extern "C" {
    pub fn vt220_version() -> u32;
    pub fn vt220_status_text(status: u32) -> *const c_char;
    pub fn vt220_open(t: *mut vt220) -> u32;
    pub fn vt220_open_as(t: *mut vt220, language: u32, rows: usize, columns: usize) -> u32;
    pub fn vt220_resize(t: *mut vt220, rows: usize, columns: usize) -> u32;
    pub fn vt220_close(t: *mut vt220);
    pub fn vt220_is_open(t: *const vt220) -> bool;
    pub fn vt220_scratch_open(s: *mut vt220_scratch) -> u32;
    pub fn vt220_scratch_fit(s: *mut vt220_scratch, t: *const vt220) -> u32;
    pub fn vt220_scratch_close(s: *mut vt220_scratch);
    pub fn vt220_scratch_is_open(s: *const vt220_scratch) -> bool;
    pub fn vt220_feed(t: *mut vt220, bytes: *const u8, len: usize, reports: *mut u8, size: usize, written: *mut usize) -> usize;
    pub fn vt220_feed_log(
        t: *mut vt220,
        s: *mut vt220_scratch,
        bytes: *const u8,
        len: usize,
        reports: *mut u8,
        size: usize,
        written: *mut usize,
        lines: *mut u8,
        lines_size: usize,
        lines_written: *mut usize,
    ) -> usize;
    pub fn vt220_shown(character: u32, cells: *mut usize) -> u32;
    pub fn vt220_bells(t: *const vt220) -> u64;
    pub fn vt220_reset(t: *mut vt220) -> u32;
    pub fn vt220_copy(to: *mut vt220, from: *const vt220) -> u32;
    pub fn vt220_text(t: *const vt220, s: *mut vt220_scratch, out: *mut u8, size: usize, written: *mut usize) -> u32;
    pub fn vt220_row_text(t: *const vt220, s: *mut vt220_scratch, row: usize, out: *mut u8, size: usize, written: *mut usize) -> u32;
    pub fn vt220_show(t: *const vt220, s: *mut vt220_scratch, out: *mut u8, size: usize, written: *mut usize) -> u32;
    pub fn vt220_picture(t: *const vt220, s: *mut vt220_scratch, out: *mut u8, size: usize, written: *mut usize) -> u32;
    pub fn vt220_repaint(t: *const vt220, s: *mut vt220_scratch, out: *mut u8, size: usize, written: *mut usize) -> u32;
    pub fn vt220_repaint_as(
        t: *const vt220,
        language: u32,
        s: *mut vt220_scratch,
        out: *mut u8,
        size: usize,
        written: *mut usize,
    ) -> u32;
    pub fn vt220_draw(shown: *const vt220, to: *const vt220, s: *mut vt220_scratch, out: *mut u8, size: usize, written: *mut usize) -> u32;
    pub fn vt220_update(shown: *mut vt220, to: *const vt220, s: *mut vt220_scratch, out: *mut u8, size: usize, written: *mut usize) -> u32;
    pub fn vt220_changes_of(shown: *const vt220, to: *const vt220, row: usize, changed: *mut bool, size: usize) -> u32;
    pub fn vt220_row_changes(shown: *const vt220, to: *const vt220, row: usize, marks: *mut vt220_row_marks) -> u32;
    pub fn vt220_row(t: *const vt220, row: usize, cells: *mut vt220_cell, size: usize) -> usize;
    pub fn vt220_rows(t: *const vt220) -> usize;
    pub fn vt220_width(t: *const vt220) -> usize;
    pub fn vt220_limit(t: *const vt220, what: u32) -> usize;
    pub fn vt220_cursor(t: *const vt220, cursor: *mut vt220_cursor_place) -> bool;
    pub fn vt220_margins(t: *const vt220, margins: *mut vt220_margin_rows) -> bool;
    pub fn vt220_modes(t: *const vt220, modes: *mut vt220_mode_set) -> bool;
    pub fn vt220_brush(t: *const vt220, brush: *mut vt220_brush_look) -> bool;
    pub fn vt220_sets(t: *const vt220, sets: *mut vt220_graphic_sets) -> bool;
    pub fn vt220_stops_of(t: *const vt220, stops: *mut bool, size: usize) -> usize;
    pub fn vt220_stops(t: *const vt220, stops: *mut vt220_tab_stops) -> bool;
    pub fn vt220_saved(t: *const vt220, saved: *mut vt220_saved_record) -> bool;
    pub fn vt220_language(t: *const vt220, language: *mut vt220_language_state) -> bool;
    pub fn vt220_is_between(t: *const vt220) -> bool;
    pub fn vt220_held_kind(t: *const vt220) -> u32;
    pub fn vt220_same_state(a: *const vt220, b: *const vt220) -> bool;
    pub fn vt220_key(
        language: u32,
        modes: *const vt220_mode_set,
        key: *const c_char,
        len: usize,
        out: *mut u8,
        size: usize,
        written: *mut usize,
    ) -> u32;
    pub fn vt220_key_length(typed: *const c_char, len: usize) -> usize;
}

#[cfg(test)]
mod tests {
    use super::*;
    use core::mem::size_of;

    #[test]
    fn sizes_are_those_of_the_header() {
        assert_eq!((size_of::<vt220>(), size_of::<vt220_scratch>(), size_of::<vt220_cell>()), (24, 16, 12));
        assert_eq!((size_of::<vt220_cursor_place>(), size_of::<vt220_margin_rows>(), size_of::<vt220_mode_set>()), (32, 32, 32));
        assert_eq!((size_of::<vt220_brush_look>(), size_of::<vt220_graphic_sets>(), size_of::<vt220_saved_record>()), (16, 16, 48));
        assert_eq!((size_of::<vt220_tab_stops>(), size_of::<vt220_row_marks>(), size_of::<vt220_language_state>()), (144, 152, 32));
    }

    #[test]
    fn the_library_has_the_version_of_this_package() {
        assert_eq!(unsafe { vt220_version() } / 100, VT220_VERSION / 100);
    }
}
