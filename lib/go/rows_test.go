package vt220

import (
	"encoding/hex"
	"errors"
	"fmt"
	"io/fs"
	"os"
	"reflect"
	"regexp"
	"sort"
	"strconv"
	"strings"
	"testing"
)

// rowsOf returns the rows of a file that lib/rows/flat.py wrote, each as its fields: in the directory that VT220_ROWS names, or else in this repository.
// The published module has no such file beside it, so the test is skipped there.
func rowsOf(t *testing.T, name string, least int) (rows [][]string) {
	place, isNamed := os.LookupEnv("VT220_ROWS")
	if !isNamed {
		place = "../../out/tests/rows"
	}
	file, err := os.ReadFile(place + "/" + name + ".rows")
	if errors.Is(err, fs.ErrNotExist) && !isNamed {
		t.Skip("no rows: VT220_ROWS names their directory")
	}
	if err != nil {
		t.Fatal(err)
	}
	for _, line := range strings.SplitAfter(string(file), "\n") {
		if line != "" {
			rows = append(rows, strings.Split(strings.TrimSuffix(line, "\n"), "\t"))
		}
	}
	if len(rows) < least {
		t.Errorf("%d rows of %s", len(rows), name)
	}
	return rows
}

func unhex(t *testing.T, field string) []byte {
	content, err := hex.DecodeString(field)
	if err != nil {
		t.Fatal(err)
	}
	return content
}

func number(field string) int {
	value, _ := strconv.Atoi(field)
	return value
}

// is returns how the rows have a flag.
func is(set bool) int { return map[bool]int{true: 1}[set] }

// screen is a row of screens.rows: two sizes and two inputs, of which the second may be nothing.
type screen struct {
	name            string
	language        Language
	sizes           [2][2]int
	inputs          [2][]byte
	wanted, repaint string
}

// change gives terminals the second size.
func (r screen) change(t *testing.T, terminals ...*Terminal) {
	for _, terminal := range terminals {
		if rows, columns := r.sizes[1][0], r.sizes[1][1]; rows > 0 {
			if err := terminal.Resize(rows, columns); err != nil || terminal.Rows() != rows || terminal.Width() != columns {
				t.Fatal(r.name, err)
			}
		}
	}
}

func (r screen) open(t *testing.T, start string) *Terminal {
	terminal, err := OpenSize(r.language, r.sizes[0][0], r.sizes[0][1])
	if err != nil {
		t.Fatal(r.name, err)
	}
	terminal.Feed([]byte(start))
	return terminal
}

// described returns what a terminal has and returned, as the rows have it.
func described(t *testing.T, terminal *Terminal, s *Scratch, reports, lines string) string {
	text, err := terminal.Show(s)
	if err != nil {
		t.Fatal(err)
	}
	cursor, brush := terminal.Cursor(), terminal.Brush()
	var names []string
	for i, isSet := range []bool{brush.Bold, brush.Underline, brush.Blink, brush.Reverse} {
		if isSet {
			names = append(names, []string{"bold", "underline", "blink", "reverse"}[i])
		}
	}
	return fmt.Sprintf("text %x cursor %d;%d wrap %d brush %s alternate %d paste %d bells %d pending %x reports %x lines %x", strings.TrimRight(text, "\n"), cursor.Row, cursor.Col,
		is(cursor.Wrap), strings.Join(names, " "), is(terminal.Alternate()), is(terminal.BracketedPaste()), terminal.Bells(), terminal.Pending(), reports, lines)
}

// isSame returns whether two terminals show the same, and keep the same for their language but for the page that isn't shown.
func isSame(one, other *Terminal) bool {
	return one.SameState(other) && one.Alternate() == other.Alternate() && string(one.Pending()) == string(other.Pending())
}

// play plays the row in chunks, with the log and without one.
func (r screen) play(t *testing.T, s *Scratch, size int) {
	terminal, other := r.open(t, ""), r.open(t, "")
	var reports, lines string
	for i, input := range r.inputs {
		if i == 1 {
			r.change(t, terminal, other)
		}
		for len(input) > 0 {
			piece := input
			if len(piece) > size {
				piece = piece[:size]
			}
			now, off, err := terminal.FeedLog(piece, s)
			if err != nil || string(other.Feed(piece)) != string(now) || !isSame(other, terminal) {
				t.Errorf("%s: % X: the log differs: %v", r.name, piece, err)
			}
			reports, lines, input = reports+string(now), lines+string(off), input[len(piece):]
		}
	}
	if found := described(t, terminal, s, reports, lines); r.wanted != "-" && found != r.wanted {
		t.Errorf("%s in chunks of %d: %s, and not %s", r.name, size, found, r.wanted)
	}
	repaint, failed := terminal.Repaint(s)
	if failed != nil && (failed != ErrPartial || terminal.IsBetween()) || r.repaint != "-" && r.repaint != "partial" && hex.EncodeToString(repaint) != r.repaint {
		t.Errorf("%s in chunks of %d: the repaint %q, and not %s: %v", r.name, size, repaint, r.repaint, failed)
	}
	text, err := terminal.Text(s)
	shown, _ := terminal.Show(s)
	plain := regexp.MustCompile(`(?m) +$`).ReplaceAllString(regexp.MustCompile(`\x1b\[[0-9;]*m`).ReplaceAllString(shown, ""), "")
	if err != nil || text != plain {
		t.Errorf("%s: the text %q, shown as %q", r.name, text, shown)
	}
}

func TestScreens(t *testing.T) {
	s := scratch(t)
	for _, f := range rowsOf(t, "screens", 800) {
		r := screen{f[0], Language(number(f[1])), [2][2]int{{number(f[2]), number(f[3])}, {number(f[5]), number(f[6])}}, [2][]byte{unhex(t, f[4]), unhex(t, f[7])}, f[8], f[9]}
		for _, size := range []int{1 << 16, 1, 5} {
			r.play(t, s, size)
		}
	}
}

// nameInC returns the name in C of a field of Modes.
func nameInC(name string) string {
	return strings.NewReplacer("keypada", "keypad_a", "reports8", "reports_8").Replace(strings.ToLower(name))
}

// fieldsOf returns what each reader returns, by the names of lib/rows/fields.txt.
func fieldsOf(t *Terminal) string {
	found := []string{fmt.Sprintf("width=%d", t.Width()), fmt.Sprintf("bells=%d", t.Bells()), fmt.Sprintf("held=%d", t.Held())}
	put := func(of string, values ...any) {
		for i := 0; i < len(values); i += 2 {
			found = append(found, fmt.Sprintf("%s.%s=%d", of, values[i], values[i+1]))
		}
	}
	attributes := func(of string, b Brush) {
		put(of, "bold", is(b.Bold), "underline", is(b.Underline), "blink", is(b.Blink), "reverse", is(b.Reverse), "is_protected", is(b.IsProtected))
	}
	place := func(of string, c Cursor) { put(of, "row", c.Row, "col", c.Col, "wrap", is(c.Wrap)) }
	sets := func(of string, g [4]byte, gl, gr int) {
		put(of, "g0", g[0], "g1", g[1], "g2", g[2], "g3", g[3], "gl", gl, "gr", gr)
	}
	margins, c, s, r, modes := t.Margins(), t.Row(1)[0], t.Sets(), t.Saved(), reflect.ValueOf(t.Modes())
	put("margins", "top", margins.Top, "bottom", margins.Bottom)
	for i := 0; i < modes.NumField(); i++ {
		put("modes", nameInC(modes.Type().Field(i).Name), is(modes.Field(i).Bool()))
	}
	put("cell", "glyph", c.Glyph)
	attributes("cell", Brush{c.Bold, c.Underline, c.Blink, c.Reverse, c.IsProtected})
	attributes("brush", t.Brush())
	sets("sets", s.G, s.GL, s.GR)
	place("cursor", t.Cursor())
	put("sets", "single_shift", s.SingleShift)
	place("saved", r.Cursor)
	put("saved", "origin", is(r.Origin))
	attributes("saved", r.Brush)
	sets("saved", r.G, r.GL, r.GR)
	for i, isSet := range t.Stops() {
		put("stop", strconv.Itoa(i+1), is(isSet))
	}
	sort.Slice(found, func(i, j int) bool { return strings.Split(found[i], "=")[0] < strings.Split(found[j], "=")[0] })
	return strings.Join(found, " ")
}

func TestFields(t *testing.T) {
	for _, fields := range rowsOf(t, "fields", 50) {
		terminal := open(t, string(unhex(t, fields[1])))
		if found := fieldsOf(terminal); found != fields[2] {
			t.Errorf("%s: %s, and not %s", fields[0], found, fields[2])
		}
		terminal.Close()
	}
}

func TestKeys(t *testing.T) {
	failures := map[string]error{"no key": ErrNoKey, "no character": ErrNoCharacter}
	for _, fields := range rowsOf(t, "keys", 6000) {
		setting, wanted := number(fields[1]), fields[3]
		if failures[wanted] != nil {
			wanted = ""
		}
		modes := Modes{LNM: setting&8 != 0, DECCKM: setting&4 != 0, KeypadApplication: setting&2 != 0, Reports8Bit: setting&1 != 0}
		if sent, err := Key(fields[2], modes, Language(number(fields[0]))); err != failures[fields[3]] || hex.EncodeToString(sent) != wanted {
			t.Errorf("%q: %x, %v", fields, sent, err)
		}
	}
}
