//! A proved DEC VT220 terminal emulator core, over libvt220. Rows and columns count from 1.
//!
//! ```
//! let mut terminal = vt220::Terminal::new().unwrap();
//! let reports = terminal.feed(b"Hello\r\n\x1b[6n");
//! assert_eq!(reports, b"\x1b[2;1R");
//! let mut scratch = vt220::Scratch::new().unwrap();
//! assert!(terminal.text(&mut scratch).starts_with("Hello\n"));
//! ```
use std::ffi::CStr;
use std::fmt;
use std::slice;
use vt220_sys as sys;

pub use vt220_sys::{
    VT220_COLUMNS as COLUMNS, VT220_MOST_COLUMNS as MOST_COLUMNS, VT220_MOST_ROWS as MOST_ROWS, VT220_DRAW_LIMIT as DRAW_LIMIT, VT220_KEY_LIMIT as KEY_LIMIT, VT220_PAINT_LIMIT as PAINT_LIMIT, VT220_PICTURE_LIMIT as PICTURE_LIMIT,
    VT220_REPORT_LIMIT as REPORT_LIMIT, VT220_ROWS as ROWS, VT220_ROW_TEXT_LIMIT as ROW_TEXT_LIMIT,
    VT220_SHOW_LIMIT as SHOW_LIMIT, VT220_TEXT_LIMIT as TEXT_LIMIT, VT220_UPDATE_LIMIT as UPDATE_LIMIT,
    VT220_TYPED_LIMIT as TYPED_LIMIT, VT220_UTF8_LINES_LIMIT as UTF8_LINES_LIMIT, VT220_VERSION as VERSION,
    VT220_XTERM_LINES_LIMIT as XTERM_LINES_LIMIT, VT220_XTERM_PAINT_LIMIT as XTERM_PAINT_LIMIT,
};

/// Holds the cursor, and whether the next character begins a new line.
#[derive(Clone, Copy, Debug, Default, PartialEq, Eq)]
pub struct Cursor {
    pub row: usize,
    pub col: usize,
    pub wrap: bool,
}

/// Holds the first and the last row of the scroll region.
#[derive(Clone, Copy, Debug, Default, PartialEq, Eq)]
pub struct Margins {
    pub top: usize,
    pub bottom: usize,
}

macro_rules! modes {
    ($($name:ident)*) => {
        /// Holds the modes: true if set.
        #[derive(Clone, Copy, Debug, Default, PartialEq, Eq)]
        pub struct Modes {
            $(pub $name: bool,)*
        }

        impl Modes {
            /// Returns the modes as the library takes them.
            fn handed_over(&self) -> sys::vt220_mode_set {
                sys::vt220_mode_set { $($name: self.$name,)* ..Default::default() }
            }

            /// Returns the modes that the library wrote.
            fn written(set: &sys::vt220_mode_set) -> Modes {
                Modes { $($name: set.$name,)* }
            }
        }
    };
}

modes! { kam irm srm lnm decckm decsclm decscnm decom decawm decarm dectcem keypad_application reports_8bit }

/// Holds the attributes with which a character is written.
#[derive(Clone, Copy, Debug, Default, PartialEq, Eq)]
pub struct Brush {
    pub bold: bool,
    pub underline: bool,
    pub blink: bool,
    pub reverse: bool,
    /// A selective erase leaves what is written.
    pub is_protected: bool,
}

/// Holds the graphic sets: the final byte of each set in G0 to G3, and which of these are in GL and GR.
#[derive(Clone, Copy, Debug, Default, PartialEq, Eq)]
pub struct Sets {
    pub g: [u8; 4],
    pub gl: u8,
    pub gr: u8,
    /// 2 or 3 if a single shift is pending.
    pub single_shift: Option<u8>,
}

/// Holds the state that DECRC restores.
#[derive(Clone, Copy, Debug, Default, PartialEq, Eq)]
pub struct Saved {
    pub cursor: Cursor,
    pub origin: bool,
    pub brush: Brush,
    pub g: [u8; 4],
    pub gl: u8,
    pub gr: u8,
}

/// Holds one cell of the screen.
#[derive(Clone, Copy, Debug, PartialEq, Eq)]
pub struct Cell {
    pub glyph: char,
    pub brush: Brush,
}

/// Names the kind of an unfinished sequence.
#[derive(Clone, Copy, Debug, PartialEq, Eq)]
pub enum Held {
    Nothing,
    Escape,
    Control,
    String,
}

/// Names the reason for which a call changed nothing.
#[derive(Clone, Copy, Debug, PartialEq, Eq)]
pub enum Error {
    /// The allocation failed.
    Memory,
    /// A terminal is inside a sequence.
    Partial,
    /// The processor is older than x86-64-v2.
    Unsupported,
    /// There is no such row.
    NoRow,
    /// There is no such key.
    NoKey,
    /// No key sends this character.
    NoCharacter,
    /// A terminal has another language than the call needs.
    OtherLanguage,
    /// Two terminals have different sizes.
    OtherSize,
    /// There is no such size.
    NoSize,
}

impl Error {
    fn status(self) -> u32 {
        match self {
            Error::Memory => sys::VT220_MEMORY,
            Error::Partial => sys::VT220_PARTIAL,
            Error::Unsupported => sys::VT220_UNSUPPORTED,
            Error::NoRow => sys::VT220_NO_ROW,
            Error::NoKey => sys::VT220_NO_KEY,
            Error::NoCharacter => sys::VT220_NO_CHARACTER,
            Error::OtherLanguage => sys::VT220_LANGUAGE,
            Error::OtherSize => sys::VT220_SIZE,
            Error::NoSize => sys::VT220_NO_SIZE,
        }
    }
}

impl fmt::Display for Error {
    fn fmt(&self, f: &mut fmt::Formatter<'_>) -> fmt::Result {
        // SAFETY: the call takes a number, and returns a text that is never null and lives for ever.
        let text = unsafe { CStr::from_ptr(sys::vt220_status_text(self.status())) };
        f.write_str(&text.to_string_lossy())
    }
}

impl std::error::Error for Error {}

fn result(status: u32) -> Result<(), Error> {
    match status {
        sys::VT220_OK => Ok(()),
        sys::VT220_MEMORY => Err(Error::Memory),
        sys::VT220_PARTIAL => Err(Error::Partial),
        sys::VT220_UNSUPPORTED => Err(Error::Unsupported),
        sys::VT220_NO_ROW => Err(Error::NoRow),
        sys::VT220_NO_KEY => Err(Error::NoKey),
        sys::VT220_NO_CHARACTER => Err(Error::NoCharacter),
        sys::VT220_LANGUAGE => Err(Error::OtherLanguage),
        sys::VT220_SIZE => Err(Error::OtherSize),
        sys::VT220_NO_SIZE => Err(Error::NoSize),
        other => unreachable!("status {other} of an open terminal with enough capacity"),
    }
}

/// Returns the library's version, as `VERSION`.
pub fn version() -> u32 {
    // SAFETY: it takes nothing.
    unsafe { sys::vt220_version() }
}

/// What a host and its terminal speak.
#[derive(Clone, Copy, Debug, Default, PartialEq, Eq)]
pub enum Language {
    /// A VT220's bytes.
    #[default]
    Bytes,
    /// UTF-8.
    Utf8,
    /// What programs send under TERM=xterm, in UTF-8.
    Xterm,
}

impl Language {
    fn number(self) -> u32 {
        match self {
            Language::Bytes => sys::VT220_BYTES,
            Language::Utf8 => sys::VT220_UTF8,
            Language::Xterm => sys::VT220_XTERM,
        }
    }
}

/// Returns what a key sends to the host under these modes, which `Terminal::modes` returns. The key is one character, a name such as
/// `Up`, `Return` or `C-c`, or the sequence that a terminal sends for it, in UTF-8. vt220-keys.h lists the names. To a host in UTF-8 each
/// character beyond ASCII but a C1 control sends itself. Under TERM=xterm a name may have modifiers.
///
/// ```
/// use vt220::{key, Language};
/// let modes = vt220::Terminal::new().unwrap().modes();
/// assert_eq!(key("Up", &modes, Language::Bytes).unwrap(), b"\x1b[A");
/// assert_eq!(key("\u{153}", &modes, Language::Bytes).unwrap(), b"\xf7");
/// assert_eq!(key("C-Left", &modes, Language::Xterm).unwrap(), b"\x1b[1;5D");
/// ```
///
/// # Errors
///
/// `NoKey` if there is no such key; `NoCharacter` if it is a character that no key sends.
pub fn key(key: impl AsRef<[u8]>, modes: &Modes, language: Language) -> Result<Vec<u8>, Error> {
    let (key, modes, mut out, mut written) = (key.as_ref(), modes.handed_over(), vec![0; KEY_LIMIT], 0);
    let (at, size) = (out.as_mut_ptr(), out.len());
    // SAFETY: each length is that of its slice.
    result(unsafe { sys::vt220_key(language.number(), &modes, key.as_ptr().cast(), key.len(), at, size, &mut written) })?;
    out.truncate(written);
    Ok(out)
}

/// Returns how many bytes the first key has of what was typed on a modern terminal, and 0 if its end is missing.
pub fn key_length(typed: &[u8]) -> usize {
    // SAFETY: the length is that of the slice.
    unsafe { sys::vt220_key_length(typed.as_ptr().cast(), typed.len()) }
}

/// Returns the glyph with which UTF-8 input shows a character, and how many cells it has: 1 or 2. The second cell is a space. Returns
/// `None` if the character has no cell, as a control or a combining mark.
///
/// ```
/// assert_eq!(vt220::shown('\u{201c}'), Some(('"', 1)));
/// assert_eq!(vt220::shown('\u{301}'), None);
/// ```
pub fn shown(character: char) -> Option<(char, usize)> {
    let mut cells = 0;
    // SAFETY: it writes to `cells` alone.
    let glyph = unsafe { sys::vt220_shown(character.into(), &mut cells) };
    if cells == 0 { None } else { Some((char::from_u32(glyph)?, cells)) }
}

/// Owns a scratch buffer, in which the calls that write a whole screen work. One serves any number of terminals. For another size than the
/// last one it takes other memory.
pub struct Scratch {
    handle: sys::vt220_scratch,
    /// What the calls write to. A result is a copy of what was written, so it takes no more memory than it needs.
    out: Vec<u8>,
}

// SAFETY: a handle owns its memory alone, and each call that writes takes it by `&mut`.
unsafe impl Send for Scratch {}

impl Scratch {
    /// Opens a scratch buffer.
    ///
    /// # Errors
    ///
    /// `Memory` if the allocation fails; `Unsupported` on an old processor.
    pub fn new() -> Result<Scratch, Error> {
        let (mut handle, mut out) = (sys::vt220_scratch::INIT, Vec::new());
        out.try_reserve_exact(PICTURE_LIMIT).map_err(|_| Error::Memory)?;
        // SAFETY: the handle is closed.
        result(unsafe { sys::vt220_scratch_open(&mut handle) })?;
        Ok(Scratch { handle, out })
    }

    /// Makes the buffers serve the size of a terminal, and as many bytes as what it writes may have. Returns that number.
    fn serve(&mut self, of: *const sys::vt220, what: u32) -> Result<usize, Error> {
        // SAFETY: both handles are open.
        result(unsafe { sys::vt220_scratch_fit(&mut self.handle, of) })?;
        let limit = unsafe { sys::vt220_limit(of, what) }.max(PICTURE_LIMIT);
        self.out.try_reserve_exact(limit).map_err(|_| Error::Memory)?;
        Ok(limit)
    }

    /// Returns a copy of the bytes that a call writes of a terminal. The call is given the handle, the buffer and its size, and where it
    /// writes their number.
    fn written(&mut self, of: *const sys::vt220, what: u32, call: impl FnOnce(*mut sys::vt220_scratch, *mut u8, usize, *mut usize) -> u32) -> Result<Vec<u8>, Error> {
        let (mut written, limit) = (0, self.serve(of, what)?);
        result(call(&mut self.handle, self.out.as_mut_ptr(), limit, &mut written))?;
        // SAFETY: the call has written so many bytes, and has succeeded only if they fit.
        Ok(unsafe { slice::from_raw_parts(self.out.as_ptr(), written) }.to_vec())
    }

    fn text(&mut self, of: *const sys::vt220, what: u32, call: impl FnOnce(*mut sys::vt220_scratch, *mut u8, usize, *mut usize) -> u32) -> Result<String, Error> {
        Ok(String::from_utf8(self.written(of, what, call)?).expect("a text is UTF-8"))
    }
}

impl Drop for Scratch {
    fn drop(&mut self) {
        // SAFETY: the handle is as the calls left it.
        unsafe { sys::vt220_scratch_close(&mut self.handle) }
    }
}

/// Owns a terminal. The methods that only read take `&self`, and threads may call them at once.
pub struct Terminal(sys::vt220);

// SAFETY: a handle owns its memory alone.
unsafe impl Send for Terminal {}

// SAFETY: the calls that take a `const vt220 *` don't write to the terminal.
unsafe impl Sync for Terminal {}

// SAFETY of all calls below: the handle is open from `new` on, and each length is that of its slice.
impl Terminal {
    /// Opens a terminal for a VT220's bytes in its power-up state.
    ///
    /// # Errors
    ///
    /// `Memory` if the allocation fails; `Unsupported` on an old processor.
    pub fn new() -> Result<Terminal, Error> {
        Terminal::open_as(Language::Bytes)
    }

    /// Opens a terminal for a language and of a size in its power-up state: 2 to 255 rows of 2 to 255 columns. At another size than 24 by
    /// 80 DECCOLM leaves the width.
    ///
    /// ```
    /// use vt220::{Language, Scratch, Terminal};
    /// let mut terminal = Terminal::open_size(Language::Utf8, 40, 120).unwrap();
    /// terminal.feed(b"\x1b[40;118Hend");
    /// assert_eq!((terminal.rows(), terminal.width()), (40, 120));
    /// terminal.resize(30, 100).unwrap();
    /// assert_eq!(terminal.text(&mut Scratch::new().unwrap()).lines().count(), 30);
    /// ```
    ///
    /// # Errors
    ///
    /// `NoSize` if there is no such size; `Memory` if the allocation fails; `Unsupported` on an old processor.
    pub fn open_size(language: Language, rows: usize, columns: usize) -> Result<Terminal, Error> {
        let mut handle = sys::vt220::INIT;
        result(unsafe { sys::vt220_open_as(&mut handle, language.number(), rows, columns) })?;
        Ok(Terminal(handle))
    }

    /// Changes the size, as xterm does if its window changes, also inside a sequence: 2 to 255 rows of 2 to 255 columns. DECCOLM then
    /// leaves the width. If the cursor would be below the last row, so many rows leave at the top that it is in the last one: read them
    /// before, with `row_text`.
    ///
    /// # Errors
    ///
    /// `NoSize` if there is no such size; `Memory` if the allocation fails, and then nothing has changed.
    pub fn resize(&mut self, rows: usize, columns: usize) -> Result<(), Error> {
        result(unsafe { sys::vt220_resize(&mut self.0, rows, columns) })
    }

    /// Returns how many rows the screen has.
    pub fn rows(&self) -> usize {
        unsafe { sys::vt220_rows(&self.0) }
    }

    /// Opens a terminal for a language in its power-up state.
    ///
    /// ```
    /// use vt220::{Language, Scratch, Terminal};
    /// let mut terminal = Terminal::open_as(Language::Xterm).unwrap();
    /// terminal.feed("main\x1b[?1049h\x1b[2;1Hother".as_bytes());
    /// assert!(terminal.alternate());
    /// terminal.feed(b"\x1b[?1049l caf\xc3");
    /// assert_eq!(terminal.pending(), b"\xc3");
    /// terminal.feed(b"\xa9");
    /// assert_eq!(terminal.row_text(1, &mut Scratch::new().unwrap()).unwrap(), "main caf\u{e9}\n");
    /// ```
    ///
    /// # Errors
    ///
    /// `Memory` if the allocation fails; `Unsupported` on an old processor.
    pub fn open_as(language: Language) -> Result<Terminal, Error> {
        Terminal::open_size(language, ROWS, 80)
    }

    fn kept(&self) -> sys::vt220_language_state {
        let mut kept = sys::vt220_language_state::default();
        unsafe { sys::vt220_language(&self.0, &mut kept) };
        kept
    }

    /// Returns the language of the host.
    pub fn language(&self) -> Language {
        match self.kept().language {
            sys::VT220_BYTES => Language::Bytes,
            sys::VT220_UTF8 => Language::Utf8,
            _ => Language::Xterm,
        }
    }

    /// Returns what is pending of UTF-8 input: the bytes of a character that isn't complete yet, at most three.
    pub fn pending(&self) -> Vec<u8> {
        let kept = self.kept();
        kept.pending[..usize::from(kept.pending_len)].to_vec()
    }

    /// Returns whether the alternate page is shown. Only TERM=xterm has one.
    pub fn alternate(&self) -> bool {
        self.kept().alternate
    }

    /// Returns whether the program wants pasted text between `ESC [ 200 ~` and `ESC [ 201 ~` (?2004). Only TERM=xterm has this mode.
    pub fn bracketed_paste(&self) -> bool {
        self.kept().bracketed_paste
    }

    /// Opens another terminal of the same language and size in the same state.
    ///
    /// # Errors
    ///
    /// `Memory` if the allocation fails.
    pub fn try_clone(&self) -> Result<Terminal, Error> {
        let mut copy = Terminal::open_as(self.language())?;
        // A VT220's screen may be 132 columns wide, and one that was resized to 24 by 80 isn't a VT220's.
        if copy.copy_from(self) == Err(Error::OtherSize) {
            copy.resize(self.rows(), self.width())?;
            copy.copy_from(self)?;
        }
        Ok(copy)
    }

    /// Brings this terminal into the state of another one, also if the other is inside a sequence. In UTF-8 what is pending is copied, too,
    /// and under TERM=xterm both pages are.
    ///
    /// # Errors
    ///
    /// `OtherLanguage` if this terminal is under TERM=xterm and the other one isn't; `OtherSize` if the two have different sizes.
    pub fn copy_from(&mut self, other: &Terminal) -> Result<(), Error> {
        result(unsafe { sys::vt220_copy(&mut self.0, &other.0) })
    }

    /// Resets the terminal to its power-up state, also inside a sequence. Nothing is pending then, and the main page is shown.
    pub fn reset(&mut self) {
        unsafe { sys::vt220_reset(&mut self.0) };
    }

    /// Processes bytes of the host as long as there is capacity for replies. Returns how many bytes were processed, and how
    /// many bytes of replies were written. If some bytes are left, fewer than `REPORT_LIMIT` bytes of `reports` are free.
    pub fn feed_into(&mut self, bytes: &[u8], reports: &mut [u8]) -> (usize, usize) {
        let mut written = 0;
        let (len, size) = (bytes.len(), reports.len());
        let taken = unsafe { sys::vt220_feed(&mut self.0, bytes.as_ptr(), len, reports.as_mut_ptr(), size, &mut written) };
        (taken, written)
    }

    /// Processes all bytes of the host, and returns the replies to it.
    pub fn feed(&mut self, bytes: &[u8]) -> Vec<u8> {
        replies(bytes, |rest, buffer| self.feed_into(rest, buffer))
    }

    /// Processes all bytes of the host. Returns the replies to it, and the lines that scroll off the top of the screen, each as
    /// `row_text` returns it. The alternate page has no such lines.
    pub fn feed_log(&mut self, bytes: &[u8], scratch: &mut Scratch) -> (Vec<u8>, String) {
        let t: *mut sys::vt220 = &mut self.0;
        replies_and_lines(bytes, t, scratch, |s, rest, (out, size, written), (log, log_size, logged)| unsafe {
            sys::vt220_feed_log(t, s, rest.as_ptr(), rest.len(), out, size, written, log, log_size, logged)
        })
    }

    /// Returns how often BEL was carried out.
    pub fn bells(&self) -> u64 {
        unsafe { sys::vt220_bells(&self.0) }
    }

    /// Returns the screen as text: a line for each row, each without the spaces at its end, and with LF.
    pub fn text(&self, scratch: &mut Scratch) -> String {
        scratch.text(&self.0, sys::VT220_OF_TEXT, |s, out, size, written| unsafe { sys::vt220_text(&self.0, s, out, size, written) }).expect("a text has no error")
    }

    /// Returns one line of the text, that of a row from 1 on.
    ///
    /// # Errors
    ///
    /// `NoRow` if there is no such row.
    pub fn row_text(&self, row: usize, scratch: &mut Scratch) -> Result<String, Error> {
        scratch.text(&self.0, sys::VT220_OF_ROW_TEXT, |s, out, size, written| unsafe { sys::vt220_row_text(&self.0, s, row, out, size, written) })
    }

    /// Returns the screen as text with SGR sequences for the attributes.
    pub fn show(&self, scratch: &mut Scratch) -> String {
        scratch.text(&self.0, sys::VT220_OF_SHOW, |s, out, size, written| unsafe { sys::vt220_show(&self.0, s, out, size, written) }).expect("a text has no error")
    }

    /// Returns the screen as a picture: an SVG document.
    pub fn picture(&self, scratch: &mut Scratch) -> String {
        scratch.text(&self.0, sys::VT220_OF_PICTURE, |s, out, size, written| unsafe { sys::vt220_picture(&self.0, s, out, size, written) }).expect("a picture has no error")
    }

    /// Returns bytes that, fed to any terminal of the same language and size, whatever its state, leave it exactly as this one is. What is pending of
    /// UTF-8 is left out: these bytes are fed after them.
    ///
    /// # Errors
    ///
    /// `Partial` inside a sequence.
    pub fn repaint(&self, scratch: &mut Scratch) -> Result<Vec<u8>, Error> {
        self.repaint_as(self.language(), scratch)
    }

    /// Returns the repaint for a terminal of a language. For a VT220, whose input is bytes or UTF-8, it is the state with the page that is
    /// shown.
    ///
    /// # Errors
    ///
    /// `Partial` inside a sequence; `OtherLanguage` if it is for TERM=xterm and this terminal isn't.
    pub fn repaint_as(&self, language: Language, scratch: &mut Scratch) -> Result<Vec<u8>, Error> {
        let number = language.number();
        scratch.written(&self.0, sys::VT220_OF_REPAINT, |s, out, size, written| unsafe { sys::vt220_repaint_as(&self.0, number, s, out, size, written) })
    }

    /// Returns bytes that lead from the state of this terminal to that of another, and brings this one there. This one is a VT220, and `to`
    /// has any language: its page that is shown counts.
    ///
    /// # Errors
    ///
    /// `Partial` if one of the two is inside a sequence; `OtherLanguage` if this one is under TERM=xterm; `OtherSize` if the two have
    /// different sizes.
    pub fn update(&mut self, to: &Terminal, scratch: &mut Scratch) -> Result<Vec<u8>, Error> {
        scratch.written(&to.0, sys::VT220_OF_UPDATE, |s, out, size, written| unsafe { sys::vt220_update(&mut self.0, &to.0, s, out, size, written) })
    }

    /// Returns bytes that make a terminal of today, such as xterm, show this screen, given that it shows that of `shown`. `None` stands for
    /// anything else. The bytes are characters in UTF-8 and CUP, ED, SGR and DECTCEM, and there are none if both show the same. That terminal
    /// has at least the rows and the columns of this one. Afterwards it shows this terminal, so keep a copy (`copy_from`).
    pub fn draw(&self, shown: Option<&Terminal>, scratch: &mut Scratch) -> Vec<u8> {
        let shown = shown.map_or(std::ptr::null(), |shown| std::ptr::addr_of!(shown.0));
        scratch.written(&self.0, sys::VT220_OF_DRAW, |s, out, size, written| unsafe { sys::vt220_draw(shown, &self.0, s, out, size, written) }).expect("a drawing has no error")
    }

    /// Returns which cells of a row of `to` this terminal doesn't have: index c - 1 is for column c. If the two differ in `width`,
    /// redraw the whole screen instead: the cells of this terminal after the width of `to` aren't in the result.
    ///
    /// # Errors
    ///
    /// `NoRow` if there is no such row; `OtherSize` if the two have different sizes.
    pub fn row_changes(&self, to: &Terminal, row: usize) -> Result<Vec<bool>, Error> {
        let mut changed = vec![false; to.width()];
        result(unsafe { sys::vt220_changes_of(&self.0, &to.0, row, changed.as_mut_ptr(), changed.len()) })?;
        Ok(changed)
    }

    /// Returns the cells of a row, from 1 on, or `None` if there is no such row.
    pub fn row(&self, row: usize) -> Option<Vec<Cell>> {
        let mut cells = [sys::vt220_cell::default(); MOST_COLUMNS];
        let count = unsafe { sys::vt220_row(&self.0, row, cells.as_mut_ptr(), MOST_COLUMNS) };
        if count == 0 {
            return None;
        }
        cells[..count].iter().map(cell_of).collect()
    }

    /// Returns how many columns the screen has: of a VT220 80 or 132.
    pub fn width(&self) -> usize {
        unsafe { sys::vt220_width(&self.0) }
    }

    /// Returns the cursor.
    pub fn cursor(&self) -> Cursor {
        let mut now = sys::vt220_cursor_place::default();
        unsafe { sys::vt220_cursor(&self.0, &mut now) };
        Cursor { row: now.row, col: now.col, wrap: now.wrap }
    }

    /// Returns the margins.
    pub fn margins(&self) -> Margins {
        let mut now = sys::vt220_margin_rows::default();
        unsafe { sys::vt220_margins(&self.0, &mut now) };
        Margins { top: now.top, bottom: now.bottom }
    }

    /// Returns the modes.
    pub fn modes(&self) -> Modes {
        let mut now = sys::vt220_mode_set::default();
        unsafe { sys::vt220_modes(&self.0, &mut now) };
        Modes::written(&now)
    }

    /// Returns the attributes with which the next character is written.
    pub fn brush(&self) -> Brush {
        let mut now = sys::vt220_brush_look::default();
        unsafe { sys::vt220_brush(&self.0, &mut now) };
        Brush { bold: now.bold, underline: now.underline, blink: now.blink, reverse: now.reverse, is_protected: now.is_protected }
    }

    /// Returns the graphic sets.
    pub fn sets(&self) -> Sets {
        let mut now = sys::vt220_graphic_sets::default();
        unsafe { sys::vt220_sets(&self.0, &mut now) };
        let single_shift = if now.single_shift == 0 { None } else { Some(now.single_shift) };
        Sets { g: [now.g0, now.g1, now.g2, now.g3], gl: now.gl, gr: now.gr, single_shift }
    }

    /// Returns which columns have a tab stop: index c - 1 is for column c. A VT220 has 132, at any width.
    pub fn stops(&self) -> Vec<bool> {
        let mut stops = vec![false; MOST_COLUMNS];
        let count = unsafe { sys::vt220_stops_of(&self.0, stops.as_mut_ptr(), stops.len()) };
        stops.truncate(count);
        stops
    }

    /// Returns the state that DECRC restores.
    pub fn saved(&self) -> Saved {
        let mut now = sys::vt220_saved_record::default();
        unsafe { sys::vt220_saved(&self.0, &mut now) };
        let brush = Brush { bold: now.bold, underline: now.underline, blink: now.blink, reverse: now.reverse, is_protected: now.is_protected };
        let cursor = Cursor { row: now.row, col: now.col, wrap: now.wrap };
        Saved { cursor, origin: now.origin, brush, g: [now.g0, now.g1, now.g2, now.g3], gl: now.gl, gr: now.gr }
    }

    /// Returns whether the terminal is between sequences.
    pub fn is_between(&self) -> bool {
        unsafe { sys::vt220_is_between(&self.0) }
    }

    /// Returns the kind of the unfinished sequence.
    pub fn held(&self) -> Held {
        match unsafe { sys::vt220_held_kind(&self.0) } {
            sys::VT220_HELD_NOTHING => Held::Nothing,
            sys::VT220_HELD_ESCAPE => Held::Escape,
            sys::VT220_HELD_CONTROL => Held::Control,
            _ => Held::String,
        }
    }

    /// Returns whether two terminals are in the same state of a VT220, hidden parts included. What their languages keep isn't compared.
    pub fn same_state(&self, other: &Terminal) -> bool {
        unsafe { sys::vt220_same_state(&self.0, &other.0) }
    }
}

impl Drop for Terminal {
    fn drop(&mut self) {
        unsafe { sys::vt220_close(&mut self.0) }
    }
}

/// Returns the replies to all bytes. `feed` is given what is left and a buffer, and returns how many bytes it processed and wrote.
fn replies(bytes: &[u8], mut feed: impl FnMut(&[u8], &mut [u8]) -> (usize, usize)) -> Vec<u8> {
    let (mut buffer, mut reports, mut at) = ([0; 5120], Vec::new(), 0);
    while at < bytes.len() {
        let (taken, written) = feed(&bytes[at..], &mut buffer);
        reports.extend_from_slice(&buffer[..written]);
        at += taken;
    }
    reports
}

/// Returns the replies to all bytes, and the lines that scroll off. `feed` is given a scratch buffer, what is left, a buffer for replies
/// and where it writes their length, and the same for lines. It returns how many bytes it processed.
fn replies_and_lines(
    bytes: &[u8],
    of: *const sys::vt220,
    scratch: &mut Scratch,
    mut feed: impl FnMut(*mut sys::vt220_scratch, &[u8], (*mut u8, usize, *mut usize), (*mut u8, usize, *mut usize)) -> usize,
) -> (Vec<u8>, String) {
    let mut lines = Vec::new();
    let reports = replies(bytes, |rest, buffer| {
        let (mut taken, mut written) = (0, 0);
        let logged = scratch.written(of, sys::VT220_OF_LINES, |s, log, size, logged| {
            taken = feed(s, rest, (buffer.as_mut_ptr(), buffer.len(), &mut written), (log, size, logged));
            sys::VT220_OK
        });
        lines.extend(logged.expect("both are open"));
        (taken, written)
    });
    (reports, String::from_utf8(lines).expect("lines are UTF-8"))
}

fn cell_of(cell: &sys::vt220_cell) -> Option<Cell> {
    let brush = Brush { bold: cell.bold, underline: cell.underline, blink: cell.blink, reverse: cell.reverse, is_protected: cell.is_protected };
    Some(Cell { glyph: char::from_u32(cell.glyph)?, brush })
}
