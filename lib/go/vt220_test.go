package vt220

import (
	"fmt"
	"os"
	"os/exec"
	"runtime"
	"strings"
	"testing"
	"time"
)

func open(t *testing.T, start string) *Terminal {
	terminal, err := New()
	if err != nil {
		t.Fatal(err)
	}
	terminal.Feed([]byte(start))
	return terminal
}

func openAs(t *testing.T, language Language) *Terminal {
	terminal, err := OpenAs(language)
	if err != nil {
		t.Fatal(err)
	}
	return terminal
}

func scratch(t *testing.T) *Scratch {
	s, err := NewScratch()
	if err != nil {
		t.Fatal(err)
	}
	return s
}

func TestDraw(t *testing.T) {
	terminal, fresh, s := open(t, "\x1b[1mab"), open(t, ""), scratch(t)
	for _, of := range []struct {
		shown *Terminal
		sent  string
	}{{fresh, "\x1b[0;1mab\x1b[0m"}, {nil, "\x1b[0m\x1b[1;1H\x1b[J\x1b[?25h\x1b[0;1mab\x1b[0m"}, {terminal, ""}} {
		if sent, err := terminal.Draw(of.shown, s); err != nil || string(sent) != of.sent {
			t.Errorf("%q and not %q: %v", sent, of.sent, err)
		}
	}
}

func TestReaders(t *testing.T) {
	terminal := open(t, "\x1b[2;3H\x1b[1;4mx")
	if cell := terminal.Row(2)[2]; cell != (Cell{'x', true, true, false, false, false}) {
		t.Error("row", cell)
	}
	if len(terminal.Row(24)) != 80 || terminal.Row(0) != nil || terminal.Row(25) != nil || terminal.Row(-1) != nil {
		t.Error("rows")
	}
	if update, err := terminal.Update(terminal, scratch(t)); len(update) != 0 || err != nil || !terminal.SameState(terminal) || LibraryVersion() != Version {
		t.Error("itself, version")
	}
}

func TestClosed(t *testing.T) {
	terminal, other, s := open(t, "x"), open(t, ""), scratch(t)
	terminal.Close()
	terminal.Close()
	_, err1 := terminal.Text(s)
	_, err2 := terminal.Repaint(s)
	_, err3 := terminal.Update(other, s)
	_, err4 := other.Update(terminal, s)
	for _, err := range []error{err1, err2, err3, err4} {
		if err != ErrClosed {
			t.Error(err)
		}
	}
	if clone, err := terminal.Clone(); clone != nil || err != ErrClosed {
		t.Error("clone", err)
	}
	if terminal.IsOpen() || terminal.Feed([]byte("x")) != nil || len(terminal.Row(1)) != 0 || terminal.Width() != 0 || terminal.SameState(other) || terminal.SameState(terminal) || len(terminal.Pending()) != 0 {
		t.Error("closed")
	}
	s.Close()
	if _, err := other.Text(s); err != ErrClosed {
		t.Error("closed scratch", err)
	}
}

func TestNilScratch(t *testing.T) {
	terminal, other := open(t, "x"), open(t, "y")
	defer func() {
		if told := recover(); told != nil {
			t.Error(told)
		}
	}()
	_, err1 := terminal.Text(nil)
	_, err2 := terminal.RowText(1, nil)
	_, err3 := terminal.Show(nil)
	_, err4 := terminal.Picture(nil)
	_, err5 := terminal.Repaint(nil)
	_, err6 := terminal.Update(other, nil)
	_, _, err7 := terminal.FeedLog([]byte("z"), nil)
	for _, err := range []error{err1, err2, err3, err4, err5, err6, err7} {
		if err != ErrClosed {
			t.Error(err)
		}
	}
	if terminal.SameState(other) || terminal.Cursor() != (Cursor{1, 2, false}) {
		t.Error("something was done")
	}
}

func TestParts(t *testing.T) {
	a, b, s := open(t, "\x1b[3;7H\x1b(A\x1b)0\x0e\x1b[1m\x1b7\x1b[m\x1b[4m\x1bO\a"), open(t, ""), scratch(t)
	if b.CopyFrom(a) != nil || !b.SameState(a) {
		t.Error("copy")
	}
	if clone, err := a.Clone(); err != nil || !clone.SameState(a) || clone.Bells() != 0 {
		t.Error("clone", err)
	}
	a.Feed([]byte("\x1b[3;9HB\x1b(B\x0fz"))
	changed, err := b.RowChanges(a, 3)
	if err != nil || len(changed) != 80 || !changed[8] || !changed[9] || changed[7] {
		t.Error("changes", err)
	}
	if _, err := b.RowChanges(a, 25); err != ErrNoRow {
		t.Error("no such row")
	}
	if _, err := b.RowText(0, s); err != ErrNoRow {
		t.Error("no such row")
	}
	line, _ := a.RowText(3, s)
	show, _ := a.Show(s)
	picture, _ := a.Picture(s)
	if len(line) == 0 || len(show) == 0 || picture[:5] != "<svg " {
		t.Error("what is written")
	}
	if a.Reset() != nil || !a.SameState(open(t, "")) {
		t.Error("reset")
	}
}

func TestLog(t *testing.T) {
	terminal, s := open(t, "top\x1b[24H"), scratch(t)
	reports, lines, err := terminal.FeedLog([]byte("\xe9\n\x1b[6n"), s)
	if err != nil || string(reports) != "\x1b[24;2R" || string(lines) != "top\n" {
		t.Errorf("%q %q %v", reports, lines, err)
	}
	_, lines, err = terminal.FeedLog([]byte(strings.Repeat("\r\nx", 30)), s)
	if err != nil || string(lines) != strings.Repeat("\n", 22)+"é\n"+"\n"+strings.Repeat("x\n", 6) {
		t.Errorf("%q %v", lines, err)
	}
	s.Close()
	if _, _, err := terminal.FeedLog([]byte("x"), s); err != ErrClosed {
		t.Error(err)
	}
}

// A terminal of another size: what it has, what changes with it, and what two sizes refuse.
func TestSizes(t *testing.T) {
	terminal, err := OpenSize(Xterm, 40, 120)
	if err != nil {
		t.Fatal(err)
	}
	terminal.Feed([]byte("\x1b[40;118Hend"))
	if terminal.Rows() != 40 || terminal.Width() != 120 || len(terminal.Row(40)) != 120 || terminal.Row(41) != nil || len(terminal.Stops()) != 120 {
		t.Error("40 rows of 120 columns")
	}
	if err := terminal.Resize(30, 255); err != nil || terminal.Rows() != 30 || terminal.Width() != 255 {
		t.Error("30 rows of 255 columns", err)
	}
	if row, err := terminal.RowText(30, scratch(t)); err != nil || len(row) != 121 {
		t.Error("the text of a row", row, err)
	}
	small := open(t, "")
	if small.CopyFrom(terminal) != ErrSize || terminal.Resize(1, 80) != ErrNoSize || terminal.Resize(24, 256) != ErrNoSize {
		t.Error("two sizes")
	}
	if _, err := small.RowChanges(terminal, 1); err != ErrSize {
		t.Error("marks of two sizes", err)
	}
	if _, err := OpenSize(Bytes, 24, -1); err != ErrNoSize {
		t.Error("no such size", err)
	}
}

func TestLanguages(t *testing.T) {
	terminal, other, s := openAs(t, Xterm), open(t, ""), scratch(t)
	if _, err := OpenAs(4); err != ErrNoLanguage {
		t.Error("a language that isn't there", err)
	}
	terminal.Feed([]byte("main\x1b[?1049halt"))
	if terminal.Language() != Xterm || other.Language() != Bytes || openAs(t, UTF8).Language() != UTF8 || !terminal.Alternate() {
		t.Error("languages")
	}
	if err := terminal.CopyFrom(other); err != ErrLanguage {
		t.Error("a copy of a VT220", err)
	}
	if _, err := terminal.Update(other, s); err != ErrLanguage {
		t.Error("an update of an xterm", err)
	}
	if _, err := other.RepaintAs(Xterm, s); err != ErrLanguage {
		t.Error("pages of a VT220", err)
	}
	bytes, err := terminal.RepaintAs(Bytes, s)
	if other.Feed(bytes); err != nil || !other.SameState(terminal) || other.Alternate() {
		t.Error("a repaint for a VT220", err)
	}
	if terminal.Reset(); terminal.Alternate() {
		t.Error("a reset")
	}
	terminal.Close()
	if terminal.Alternate() || terminal.Language() != Bytes {
		t.Error("closed")
	}
}

// By the tables of docs/SPECIFICATION.md, 'UTF-8'.
func TestShown(t *testing.T) {
	for _, c := range []struct {
		character, glyph rune
		cells            int
	}{{'A', 'A', 1}, {'\u201c', '"', 1}, {'\u2501', '\u2500', 1}, {'\u4e16', '\u2426', 2}, {'\uff21', 'A', 2}, {'\u0301', 0, 0}, {'\u0085', 0, 0}, {'\n', 0, 0}} {
		if glyph, cells := Shown(c.character); glyph != c.glyph || cells != c.cells {
			t.Errorf("%U is shown as %U in %d cells", c.character, glyph, cells)
		}
	}
}

func TestTyped(t *testing.T) {
	if KeyLength([]byte("\x1b[A")) != 3 || KeyLength([]byte("\x1b[")) != 0 || KeyLength([]byte("éx")) != 2 || KeyLength(nil) != 0 {
		t.Error("lengths")
	}
	if _, err := Key("", Modes{}, Bytes); err != ErrNoKey {
		t.Error(err)
	}
}

// heap returns how many bytes the C library's heap has, also those that were never touched. It is one mapping under oneHeap.
func heap(t *testing.T) int {
	maps, err := os.ReadFile("/proc/self/maps")
	if err != nil {
		t.Skip("no /proc")
	}
	for _, line := range strings.Split(string(maps), "\n") {
		if !strings.HasSuffix(line, "[heap]") {
			continue
		}
		var begin, end int
		if _, err := fmt.Sscanf(line, "%x-%x", &begin, &end); err != nil {
			t.Fatal(err)
		}
		return end - begin
	}
	return 0
}

// oneHeap is the environment in which the C library has one heap for all threads, and maps no large block by itself. Otherwise each new
// thread may reserve 64 MB more, and how many threads there are depends on how busy the machine is.
var oneHeap = []string{"MALLOC_ARENA_MAX=1", "MALLOC_MMAP_MAX_=0"}

// collect waits until the finalizers of what nothing refers to have run.
func collect(t *testing.T) {
	done := make(chan bool)
	runtime.SetFinalizer(new([16]byte), func(*[16]byte) { close(done) })
	for tries := 0; ; tries++ {
		runtime.GC()
		select {
		case <-done:
			return
		case <-time.After(100 * time.Millisecond):
			if tries == 600 {
				t.Fatal("no finalizer runs")
			}
		}
	}
}

// Terminals and scratch buffers that are dropped without Close give back their memory. Otherwise these take 300 MB and 690 MB.
func TestDropped(t *testing.T) {
	if os.Getenv("MALLOC_ARENA_MAX") != "1" {
		again := exec.Command(os.Args[0], "-test.run=^TestDropped$")
		again.Env = append(os.Environ(), oneHeap...)
		if said, err := again.CombinedOutput(); err != nil {
			t.Errorf("%v\n%s", err, said)
		}
		return
	}
	const limit = 100 << 20
	for _, kind := range []struct {
		name string
		size int
		drop func()
	}{
		{"terminals", 100, func() { open(t, "x") }},
		{"scratch buffers", 10, func() { scratch(t) }},
	} {
		collect(t)
		before := heap(t)
		for batch := 0; batch < 100; batch++ {
			for i := 0; i < kind.size; i++ {
				kind.drop()
			}
			collect(t)
		}
		if grown := heap(t) - before; grown > limit {
			t.Errorf("%s: %d bytes more", kind.name, grown)
		}
	}
}
