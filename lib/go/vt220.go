// Package vt220 wraps libvt220, a proved DEC VT220 terminal emulator core.
//
//	terminal, err := vt220.New()
//	reports := terminal.Feed([]byte("Hello\r\n\x1b[6n")) // the host's bytes go in, the reports to the host come out
//
// It links the installed library, which pkg-config finds. With the tag vt220_source it links out/libvt220.a of the repository.
//
// Rows and columns count from 1, and lengths are in bytes. Several goroutines may call methods that only read at once. Any other
// method needs the Terminal for itself. One goroutine at a time may use a Scratch.
//
// On a closed Terminal, methods with an error return ErrClosed, and all others do nothing and return zero values. A nil Scratch is a closed
// one.
package vt220

// #include "vt220-keys.h"
import "C"

import (
	"errors"
	"runtime"
	"unsafe"
)

const (
	Rows            = 24
	Columns         = 132
	MostRows        = 255
	MostColumns     = 255
	ReportLimit     = 10
	TextLimit       = 9528
	RowTextLimit    = 397
	ShowLimit       = 51000
	PictureLimit    = 659968
	PaintLimit      = 93512
	UpdateLimit     = 94152
	DrawLimit       = 79270
	XtermPaintLimit = 187076
	KeyLimit        = 7
	TypedLimit      = 16
	Version         = 400 // 10000 * major + 100 * minor + patch
)

// The errors of the calls. A call that returns an error has changed nothing.
var (
	ErrMemory      = errors.New("vt220: the allocation failed")
	ErrClosed      = errors.New("vt220: a terminal or the scratch buffer is closed")
	ErrPartial     = errors.New("vt220: a terminal is inside a sequence")
	ErrUnsupported = errors.New("vt220: the processor is older than x86-64-v2")
	ErrNoRow       = errors.New("vt220: there is no such row")
	ErrNoKey       = errors.New("vt220: there is no such key")
	ErrNoCharacter = errors.New("vt220: no key sends this character")
	ErrLanguage    = errors.New("vt220: the terminal has another language")
	ErrSize        = errors.New("vt220: two terminals have different sizes")
	ErrNoLanguage  = errors.New("vt220: there is no such language")
	ErrNoSize      = errors.New("vt220: there is no such size")
)

// noCopy lets go vet find copies of a struct that owns a handle.
type noCopy struct{}

func (*noCopy) Lock()   {}
func (*noCopy) Unlock() {}

// Held is the kind of the unfinished sequence.
type Held int

const (
	HeldNothing Held = iota
	HeldEscape
	HeldControl
	HeldString
)

// Cursor is the cursor's position. If Wrap is true, the next glyph begins a new line.
type Cursor struct {
	Row, Col int
	Wrap     bool
}

// Margins are the first and the last row of the scroll region.
type Margins struct{ Top, Bottom int }

// Modes holds the modes: true if set.
type Modes struct {
	KAM, IRM, SRM, LNM                                       bool
	DECCKM, DECSCLM, DECSCNM, DECOM, DECAWM, DECARM, DECTCEM bool
	KeypadApplication, Reports8Bit                           bool
}

// Cell is one cell of the screen. A selective erase leaves a protected cell.
type Cell struct {
	Glyph                                        rune
	Bold, Underline, Blink, Reverse, IsProtected bool
}

// Brush holds the attributes with which the next character is written.
type Brush struct{ Bold, Underline, Blink, Reverse, IsProtected bool }

// Sets holds the final bytes of the sets in G0 to G3, the numbers of those in GL and GR, and the pending single shift: 2, 3, or 0 for
// none.
type Sets struct {
	G                   [4]byte
	GL, GR, SingleShift int
}

// Saved holds the state that DECRC restores.
type Saved struct {
	Cursor Cursor
	Origin bool
	Brush  Brush
	G      [4]byte
	GL, GR int
}

func result(status C.uint32_t) error {
	switch status {
	case C.VT220_OK:
		return nil
	case C.VT220_MEMORY:
		return ErrMemory
	case C.VT220_PARTIAL:
		return ErrPartial
	case C.VT220_UNSUPPORTED:
		return ErrUnsupported
	case C.VT220_NO_ROW:
		return ErrNoRow
	case C.VT220_NO_KEY:
		return ErrNoKey
	case C.VT220_NO_CHARACTER:
		return ErrNoCharacter
	case C.VT220_LANGUAGE:
		return ErrLanguage
	case C.VT220_SIZE:
		return ErrSize
	case C.VT220_NO_LANGUAGE:
		return ErrNoLanguage
	case C.VT220_NO_SIZE:
		return ErrNoSize
	default:
		return ErrClosed // the other two are impossible: New opens once, and the buffer always has the limit
	}
}

// LibraryVersion returns the version of the library, in the form of Version.
func LibraryVersion() int { return int(C.vt220_version()) }

// chars returns the address of the first byte, or nil if there is none.
func chars(bytes []byte) *C.char {
	if len(bytes) == 0 {
		return nil
	}
	return (*C.char)(unsafe.Pointer(&bytes[0]))
}

// Language is what a host and its terminal speak.
type Language uint32

// The languages: a VT220's bytes, UTF-8, and what programs send under TERM=xterm, which is in UTF-8.
const (
	Bytes Language = C.VT220_BYTES
	UTF8  Language = C.VT220_UTF8
	Xterm Language = C.VT220_XTERM
)

// Key returns what a key sends to the host under these modes, which the method Modes returns. The key is one character, a name such as
// Up, Return or C-c, or the sequence that a terminal sends for it, in UTF-8. vt220-keys.h lists the names. To a host in UTF-8 each
// character beyond ASCII but a C1 control sends itself. Under TERM=xterm a name may have modifiers, as C-Left. It returns ErrNoKey if
// there is no such key, and ErrNoCharacter if it is a character that no key sends.
func Key(key string, modes Modes, language Language) ([]byte, error) {
	var out [KeyLimit]C.uint8_t
	var written C.size_t
	text, m := []byte(key), modes.handedOver()
	status := C.vt220_key(C.uint32_t(language), &m, chars(text), C.size_t(len(text)), &out[0], KeyLimit, &written)
	if err := result(status); err != nil {
		return nil, err
	}
	return C.GoBytes(unsafe.Pointer(&out[0]), C.int(written)), nil
}

// Shown returns the glyph with which UTF-8 input shows a character, and how many cells it has: 0, 1 or 2. The second cell is a space. The
// glyph of a character without a cell, such as a control or a combining mark, is 0.
func Shown(character rune) (glyph rune, cells int) {
	var count C.size_t
	glyph = rune(C.vt220_shown(C.uint32_t(character), &count))
	return glyph, int(count)
}

// KeyLength returns how many bytes the first key has of what was typed on a modern terminal, and 0 if its end is missing.
func KeyLength(typed []byte) int { return int(C.vt220_key_length(chars(typed), C.size_t(len(typed)))) }

// handedOver returns the modes as the library takes them.
func (m Modes) handedOver() C.vt220_mode_set {
	return C.vt220_mode_set{
		kam: C.bool(m.KAM), irm: C.bool(m.IRM), srm: C.bool(m.SRM), lnm: C.bool(m.LNM),
		decckm: C.bool(m.DECCKM), decsclm: C.bool(m.DECSCLM), decscnm: C.bool(m.DECSCNM), decom: C.bool(m.DECOM),
		decawm: C.bool(m.DECAWM), decarm: C.bool(m.DECARM), dectcem: C.bool(m.DECTCEM),
		keypad_application: C.bool(m.KeypadApplication), reports_8bit: C.bool(m.Reports8Bit),
	}
}

// Scratch is the work buffer of the calls that write a whole screen. One serves any number of terminals.
type Scratch struct {
	_      noCopy
	handle C.vt220_scratch
	out    []C.uint8_t
}

// NewScratch opens a scratch buffer. It returns ErrMemory if the allocation fails, and ErrUnsupported on an old processor.
func NewScratch() (*Scratch, error) {
	s := &Scratch{out: make([]C.uint8_t, UpdateLimit)}
	if err := result(C.vt220_scratch_open(&s.handle)); err != nil {
		return nil, err
	}
	runtime.SetFinalizer(s, (*Scratch).Close)
	return s, nil
}

// Close frees the memory. A closed scratch buffer stays closed.
func (s *Scratch) Close() { C.vt220_scratch_close(&s.handle) }

// serve makes the buffers serve a terminal's size, and as many bytes as what it writes may have. A closed one stays closed.
func (s *Scratch) serve(of *Terminal, what C.uint32_t) error {
	if s == nil || !bool(C.vt220_scratch_is_open(&s.handle)) {
		return ErrClosed
	}
	if err := result(C.vt220_scratch_fit(&s.handle, &of.handle)); err != nil {
		return err
	}
	if limit := int(C.vt220_limit(&of.handle, what)); limit > len(s.out) {
		s.out = make([]C.uint8_t, limit)
	}
	return nil
}

// written returns a copy of what a call writes of a terminal into the buffer. The call is given the buffer, its size, and where it writes the
// length.
func (s *Scratch) written(of *Terminal, what C.uint32_t, call func(out *C.uint8_t, size C.size_t, length *C.size_t) C.uint32_t) ([]byte, error) {
	if err := s.serve(of, what); err != nil {
		return nil, err
	}
	var length C.size_t
	if err := result(call(&s.out[0], C.size_t(len(s.out)), &length)); err != nil {
		return nil, err
	}
	return C.GoBytes(unsafe.Pointer(&s.out[0]), C.int(length)), nil
}

// Terminal is a terminal for the bytes of one language. It is closed by Close, or when nothing refers to it any more.
type Terminal struct {
	_       noCopy
	handle  C.vt220
	reports [5120]C.uint8_t
}

// New opens a terminal for a VT220's bytes in its power-up state. It returns ErrMemory if the allocation fails, and ErrUnsupported on an old
// processor.
func New() (*Terminal, error) { return OpenAs(Bytes) }

// OpenAs opens a terminal for a language in its power-up state. It returns the errors of New, and ErrNoLanguage if there is no such language.
func OpenAs(language Language) (*Terminal, error) { return OpenSize(language, Rows, 80) }

// OpenSize opens a terminal for a language and of a size in its power-up state: 2 to 255 rows of 2 to 255 columns. At another size than 24 by
// 80 DECCOLM leaves the width. It returns the errors of OpenAs, and ErrNoSize if there is no such size.
func OpenSize(language Language, rows, columns int) (*Terminal, error) {
	t := new(Terminal)
	if err := result(C.vt220_open_as(&t.handle, C.uint32_t(language), C.size_t(rows), C.size_t(columns))); err != nil {
		return nil, err
	}
	runtime.SetFinalizer(t, (*Terminal).Close)
	return t, nil
}

// Resize changes the size, as xterm does if its window changes, also inside a sequence: 2 to 255 rows of 2 to 255 columns. DECCOLM then leaves
// the width. If the cursor would be below the last row, so many rows leave at the top that it is in the last one: read them before, with RowText.
// It returns ErrNoSize if there is no such size, and ErrMemory if the allocation fails, and then nothing has changed.
func (t *Terminal) Resize(rows, columns int) error {
	return result(C.vt220_resize(&t.handle, C.size_t(rows), C.size_t(columns)))
}

// Rows returns the number of rows.
func (t *Terminal) Rows() int { return int(C.vt220_rows(&t.handle)) }

// kept returns what the terminal keeps for its language. It is zero if the terminal is closed.
func (t *Terminal) kept() (kept C.vt220_language_state) {
	C.vt220_language(&t.handle, &kept)
	return kept
}

// Language returns the language of the host. It is Bytes if the terminal is closed.
func (t *Terminal) Language() Language { return Language(t.kept().language) }

// Pending returns the bytes at the end of the input that begin a character of UTF-8, at most three. After a repaint they complete a
// checkpoint: feed both to a new terminal of the language.
func (t *Terminal) Pending() []byte {
	kept := t.kept()
	return C.GoBytes(unsafe.Pointer(&kept.pending[0]), C.int(kept.pending_len))
}

// Alternate returns whether the alternate page is shown, which only TERM=xterm has. It is false if the terminal is closed.
func (t *Terminal) Alternate() bool { return bool(t.kept().alternate) }

// BracketedPaste returns whether the program wants pasted text between ESC [200~ and ESC [201~ (?2004), which only TERM=xterm has. It is
// false if the terminal is closed.
func (t *Terminal) BracketedPaste() bool { return bool(t.kept().bracketed_paste) }

// Clone opens another terminal of the same language in the same state. It returns ErrClosed if this one is closed, and otherwise the errors
// of New.
func (t *Terminal) Clone() (*Terminal, error) {
	if !t.IsOpen() {
		return nil, ErrClosed
	}
	clone, err := OpenAs(t.Language())
	if err != nil {
		return nil, err
	}
	// A VT220's screen may be 132 columns wide, and one that was resized to 24 by 80 isn't a VT220's.
	err = clone.CopyFrom(t)
	if err == ErrSize {
		if err = clone.Resize(t.Rows(), t.Width()); err == nil {
			err = clone.CopyFrom(t)
		}
	}
	if err != nil {
		clone.Close()
		return nil, err
	}
	return clone, nil
}

// Close frees the memory. A closed terminal stays closed.
func (t *Terminal) Close() { C.vt220_close(&t.handle) }

// IsOpen returns whether the terminal is open.
func (t *Terminal) IsOpen() bool { return bool(C.vt220_is_open(&t.handle)) }

// Feed plays all bytes of the host, and returns the reports to it.
func (t *Terminal) Feed(bytes []byte) (reports []byte) {
	var written C.size_t
	for len(bytes) > 0 && t.IsOpen() {
		played := C.vt220_feed(&t.handle, (*C.uint8_t)(&bytes[0]), C.size_t(len(bytes)), &t.reports[0], C.size_t(len(t.reports)), &written)
		reports = append(reports, C.GoBytes(unsafe.Pointer(&t.reports[0]), C.int(written))...)
		bytes = bytes[played:]
	}
	return reports
}

// FeedLog plays all bytes of the host as Feed does. It returns the reports, and the lines that scroll off the top of the screen, each
// as RowText returns it. The alternate page has no such lines. It returns ErrClosed if the terminal or the scratch buffer is closed, and has
// then played nothing.
func (t *Terminal) FeedLog(bytes []byte, s *Scratch) (reports, lines []byte, err error) {
	var written, logged C.size_t
	if err := s.serve(t, C.VT220_OF_LINES); err != nil {
		return nil, nil, err
	}
	for len(bytes) > 0 && t.IsOpen() {
		played := C.vt220_feed_log(&t.handle, &s.handle, (*C.uint8_t)(&bytes[0]), C.size_t(len(bytes)), &t.reports[0], C.size_t(len(t.reports)), &written,
			&s.out[0], C.size_t(len(s.out)), &logged)
		reports = append(reports, C.GoBytes(unsafe.Pointer(&t.reports[0]), C.int(written))...)
		lines = append(lines, C.GoBytes(unsafe.Pointer(&s.out[0]), C.int(logged))...)
		bytes = bytes[played:]
	}
	return reports, lines, nil
}

// Text returns the screen as text: a line for each row, each without the spaces at its end, and with a line feed.
func (t *Terminal) Text(s *Scratch) (string, error) {
	text, err := s.written(t, C.VT220_OF_TEXT, func(out *C.uint8_t, size C.size_t, length *C.size_t) C.uint32_t {
		return C.vt220_text(&t.handle, &s.handle, out, size, length)
	})
	return string(text), err
}

// RowText returns one line of Text, that of a row from 1 on. It returns ErrNoRow if there is no such row.
func (t *Terminal) RowText(row int, s *Scratch) (string, error) {
	text, err := s.written(t, C.VT220_OF_ROW_TEXT, func(out *C.uint8_t, size C.size_t, length *C.size_t) C.uint32_t {
		return C.vt220_row_text(&t.handle, &s.handle, C.size_t(row), out, size, length)
	})
	return string(text), err
}

// Show returns the screen as text with SGR sequences for the attributes.
func (t *Terminal) Show(s *Scratch) (string, error) {
	text, err := s.written(t, C.VT220_OF_SHOW, func(out *C.uint8_t, size C.size_t, length *C.size_t) C.uint32_t {
		return C.vt220_show(&t.handle, &s.handle, out, size, length)
	})
	return string(text), err
}

// Picture returns the screen as a picture: an SVG document.
func (t *Terminal) Picture(s *Scratch) (string, error) {
	text, err := s.written(t, C.VT220_OF_PICTURE, func(out *C.uint8_t, size C.size_t, length *C.size_t) C.uint32_t {
		return C.vt220_picture(&t.handle, &s.handle, out, size, length)
	})
	return string(text), err
}

// CopyFrom brings this terminal into the state of another one, also if the other is inside a sequence. In UTF-8 what is pending is copied, too,
// and under TERM=xterm both pages are. It returns ErrLanguage if this terminal is under TERM=xterm and the other one isn't, and ErrSize
// if the two have different sizes.
func (t *Terminal) CopyFrom(other *Terminal) error {
	return result(C.vt220_copy(&t.handle, &other.handle))
}

// Reset brings the terminal into its power-up state, also inside a sequence.
func (t *Terminal) Reset() error { return result(C.vt220_reset(&t.handle)) }

// Bells returns how often BEL was carried out since New.
func (t *Terminal) Bells() uint64 { return uint64(C.vt220_bells(&t.handle)) }

// RowChanges marks the cells of a row of another terminal that this one doesn't have: index c - 1 is for column c. If the two differ in
// Width, redraw the whole screen instead: the cells of this terminal after the other's width aren't in the result. It returns ErrNoRow if
// there is no such row, and ErrSize if the two have different sizes.
func (t *Terminal) RowChanges(to *Terminal, row int) ([]bool, error) {
	var marks [MostColumns]C.bool
	if err := result(C.vt220_changes_of(&t.handle, &to.handle, C.size_t(row), &marks[0], MostColumns)); err != nil {
		return nil, err
	}
	return truths(marks[:to.Width()]), nil
}

// Brush returns the attributes with which the next character is written.
func (t *Terminal) Brush() Brush {
	var b C.vt220_brush_look
	C.vt220_brush(&t.handle, &b)
	return Brush{bool(b.bold), bool(b.underline), bool(b.blink), bool(b.reverse), bool(b.is_protected)}
}

// Sets returns the graphic sets.
func (t *Terminal) Sets() Sets {
	var g C.vt220_graphic_sets
	C.vt220_sets(&t.handle, &g)
	return Sets{[4]byte{byte(g.g0), byte(g.g1), byte(g.g2), byte(g.g3)}, int(g.gl), int(g.gr), int(g.single_shift)}
}

// Stops returns which columns have a tab stop: index c - 1 is for column c. A VT220 has 132, at any width.
func (t *Terminal) Stops() []bool {
	var stops [MostColumns]C.bool
	return truths(stops[:C.vt220_stops_of(&t.handle, &stops[0], MostColumns)])
}

func truths(from []C.bool) []bool {
	to := make([]bool, len(from))
	for i, is := range from {
		to[i] = bool(is)
	}
	return to
}

// Saved returns the state that DECRC restores.
func (t *Terminal) Saved() Saved {
	var r C.vt220_saved_record
	C.vt220_saved(&t.handle, &r)
	return Saved{
		Cursor{int(r.row), int(r.col), bool(r.wrap)}, bool(r.origin),
		Brush{bool(r.bold), bool(r.underline), bool(r.blink), bool(r.reverse), bool(r.is_protected)},
		[4]byte{byte(r.g0), byte(r.g1), byte(r.g2), byte(r.g3)}, int(r.gl), int(r.gr),
	}
}

// Repaint returns bytes that, fed to any terminal of the same language and size, whatever its state, leave it exactly as this one is. What is pending of
// UTF-8 is left out: these bytes are fed after them. It returns ErrPartial inside a sequence.
func (t *Terminal) Repaint(s *Scratch) ([]byte, error) { return t.RepaintAs(t.Language(), s) }

// RepaintAs returns the repaint for a terminal of a language. For a VT220, whose input is Bytes or UTF8, it is the state with the page that is
// shown. It returns ErrPartial inside a sequence, and ErrLanguage if it is for TERM=xterm and this terminal isn't.
func (t *Terminal) RepaintAs(language Language, s *Scratch) ([]byte, error) {
	return s.written(t, C.VT220_OF_REPAINT, func(out *C.uint8_t, size C.size_t, length *C.size_t) C.uint32_t {
		return C.vt220_repaint_as(&t.handle, C.uint32_t(language), &s.handle, out, size, length)
	})
}

// Update returns bytes that lead from this terminal's state to that of another, and brings this one there. It returns no bytes if the
// states are equal, and ErrPartial if one of the two is inside a sequence. This terminal is a VT220, otherwise it returns ErrLanguage. The
// other one has any language: its page that is shown counts.
func (t *Terminal) Update(to *Terminal, s *Scratch) ([]byte, error) {
	return s.written(to, C.VT220_OF_UPDATE, func(out *C.uint8_t, size C.size_t, length *C.size_t) C.uint32_t {
		return C.vt220_update(&t.handle, &to.handle, &s.handle, out, size, length)
	})
}

// Draw returns bytes that make a terminal of today, such as xterm, show this screen, given that it shows that of another terminal. nil stands
// for anything else. The bytes are characters in UTF-8 and CUP, ED, SGR and DECTCEM, and there are none if both show the same. That terminal has
// at least the rows and the columns of this one. Afterwards it shows this terminal, so keep a copy (CopyFrom).
func (t *Terminal) Draw(shown *Terminal, s *Scratch) ([]byte, error) {
	var former *C.vt220
	if shown != nil {
		former = &shown.handle
	}
	return s.written(t, C.VT220_OF_DRAW, func(out *C.uint8_t, size C.size_t, length *C.size_t) C.uint32_t {
		return C.vt220_draw(former, &t.handle, &s.handle, out, size, length)
	})
}

// Row returns the cells of a row, from 1 on. It returns nil if there is no such row.
func (t *Terminal) Row(row int) []Cell {
	var cells [MostColumns]C.vt220_cell
	if row < 1 || row > t.Rows() {
		return nil
	}
	found := cells[:C.vt220_row(&t.handle, C.size_t(row), &cells[0], MostColumns)]
	told := make([]Cell, len(found))
	for i, c := range found {
		told[i] = Cell{rune(c.glyph), bool(c.bold), bool(c.underline), bool(c.blink), bool(c.reverse), bool(c.is_protected)}
	}
	return told
}

// Cursor returns the cursor.
func (t *Terminal) Cursor() Cursor {
	var c C.vt220_cursor_place
	C.vt220_cursor(&t.handle, &c)
	return Cursor{int(c.row), int(c.col), bool(c.wrap)}
}

// Width returns the number of columns: of a VT220 80 or 132.
func (t *Terminal) Width() int { return int(C.vt220_width(&t.handle)) }

// Margins returns the margins.
func (t *Terminal) Margins() Margins {
	var m C.vt220_margin_rows
	C.vt220_margins(&t.handle, &m)
	return Margins{int(m.top), int(m.bottom)}
}

// Modes returns the modes.
func (t *Terminal) Modes() Modes {
	var m C.vt220_mode_set
	C.vt220_modes(&t.handle, &m)
	return Modes{
		bool(m.kam), bool(m.irm), bool(m.srm), bool(m.lnm),
		bool(m.decckm), bool(m.decsclm), bool(m.decscnm), bool(m.decom), bool(m.decawm), bool(m.decarm), bool(m.dectcem),
		bool(m.keypad_application), bool(m.reports_8bit),
	}
}

// IsBetween returns whether the terminal is between sequences.
func (t *Terminal) IsBetween() bool { return bool(C.vt220_is_between(&t.handle)) }

// Held returns the kind of the unfinished sequence.
func (t *Terminal) Held() Held { return Held(C.vt220_held_kind(&t.handle)) }

// SameState returns whether two terminals are in the same state, hidden parts included.
func (t *Terminal) SameState(other *Terminal) bool {
	return bool(C.vt220_same_state(&t.handle, &other.handle))
}
