//! The rows that lib/rows/flat.py writes: VT220_ROWS names their directory. Without it, they are those of this repository. A test ends if there are none: what
//! is packed has none.
use std::{collections::BTreeMap, env, fs};
use vt220::{key, Brush, Cursor, Error, Held, Language, Modes, Scratch, Terminal};

const LANGUAGES: [Language; 3] = [Language::Bytes, Language::Utf8, Language::Xterm];

/// Returns the rows of a file, each as its fields.
fn rows_of(name: &str, least: usize) -> Vec<Vec<String>> {
    let here = concat!(env!("CARGO_MANIFEST_DIR"), "/../../../out/tests/rows").to_string();
    let named = env::var("VT220_ROWS");
    let file = fs::read_to_string(format!("{}/{name}.rows", named.as_ref().unwrap_or(&here)));
    if named.is_err() && file.is_err() {
        return vec![];
    }
    let rows: Vec<_> = file.unwrap().lines().map(|line| line.split('\t').map(str::to_string).collect()).collect();
    assert!(rows.len() > least);
    rows
}

fn bytes_of(hex: &str) -> Vec<u8> {
    (0..hex.len() / 2).map(|at| u8::from_str_radix(&hex[2 * at..2 * at + 2], 16).unwrap()).collect()
}

fn hex_of(bytes: &[u8]) -> String {
    bytes.iter().map(|byte| format!("{byte:02x}")).collect()
}

/// A row of screens: two sizes and two inputs, of which the second may be nothing.
struct Screen {
    name: String,
    language: Language,
    sizes: [(usize, usize); 2],
    inputs: [Vec<u8>; 2],
    wanted: String,
    repaint: String,
}

impl Screen {
    fn of(fields: &[String]) -> Screen {
        let number = |at: usize| fields[at].parse::<usize>().unwrap();
        Screen {
            name: fields[0].clone(),
            language: LANGUAGES[number(1)],
            sizes: [(number(2), number(3)), (number(5), number(6))],
            inputs: [bytes_of(&fields[4]), bytes_of(&fields[7])],
            wanted: fields[8].clone(),
            repaint: fields[9].clone(),
        }
    }

    fn open(&self) -> Terminal {
        Terminal::open_size(self.language, self.sizes[0].0, self.sizes[0].1).unwrap()
    }

    /// Gives a terminal the second size.
    fn change(&self, terminal: &mut Terminal) {
        let (rows, columns) = self.sizes[1];
        if rows > 0 {
            terminal.resize(rows, columns).unwrap();
            assert_eq!((terminal.rows(), terminal.width()), (rows, columns));
        }
    }

    /// Plays the row in chunks, with the log and without one.
    fn play(&self, size: usize, scratch: &mut Scratch) {
        let (mut terminal, mut other) = (self.open(), self.open());
        let (mut reports, mut lines) = (Vec::new(), String::new());
        for (i, input) in self.inputs.iter().enumerate() {
            if i == 1 {
                self.change(&mut terminal);
                self.change(&mut other);
            }
            for piece in input.chunks(size) {
                let (now, off) = terminal.feed_log(piece, scratch);
                assert!(other.feed(piece) == now && is_same(&other, &terminal), "{}: {piece:?}", self.name);
                reports.extend(now);
                lines += &off;
            }
        }
        let (found, repaint) = (described(&terminal, scratch, &reports, &lines), terminal.repaint(scratch).map(|bytes| hex_of(&bytes)));
        assert!(repaint == Err(Error::Partial) || terminal.is_between());
        let repaint = repaint.unwrap_or("partial".to_string());
        assert!(self.wanted == "-" || found == self.wanted, "{} in chunks of {size}: {found}, and not {}", self.name, self.wanted);
        assert!(self.repaint == "-" || repaint == self.repaint, "{} in chunks of {size}: {repaint}, and not {}", self.name, self.repaint);
        assert_eq!(terminal.text(scratch), plain(&terminal.show(scratch)));
    }
}

fn is_same(one: &Terminal, other: &Terminal) -> bool {
    one.same_state(other) && one.alternate() == other.alternate() && one.pending() == other.pending()
}

/// Returns the lines that are shown, without SGR and without the spaces at their ends.
fn plain(shown: &str) -> String {
    let parts = shown.split('\x1b').enumerate().map(|(i, part)| if i == 0 { part } else { part.split_once('m').unwrap().1 });
    parts.collect::<String>().split('\n').map(str::trim_end).collect::<Vec<_>>().join("\n")
}

/// Returns what a terminal has and returned, as the rows have it.
fn described(terminal: &Terminal, scratch: &mut Scratch, reports: &[u8], lines: &str) -> String {
    let (cursor, brush, shown) = (terminal.cursor(), terminal.brush(), terminal.show(scratch));
    let set = [(brush.bold, "bold"), (brush.underline, "underline"), (brush.blink, "blink"), (brush.reverse, "reverse")];
    let (look, flags) = (set.iter().filter(|(is_set, _)| *is_set).map(|(_, name)| *name).collect::<Vec<_>>().join(" "), [terminal.alternate(), terminal.bracketed_paste()].map(u8::from));
    let (text, pending, reports, lines) = (hex_of(shown.trim_end_matches('\n').as_bytes()), hex_of(&terminal.pending()), hex_of(reports), hex_of(lines.as_bytes()));
    let place = format!("text {text} cursor {};{} wrap {} brush {look} alternate {} paste {}", cursor.row, cursor.col, u8::from(cursor.wrap), flags[0], flags[1]);
    format!("{place} bells {} pending {pending} reports {reports} lines {lines}", terminal.bells())
}

#[test]
fn screens() {
    let mut scratch = Scratch::new().unwrap();
    for row in rows_of("screens", 800).iter().map(|fields| Screen::of(fields)) {
        for size in [1 << 16, 1, 5] {
            row.play(size, &mut scratch);
        }
    }
}

/// The fields of a terminal, by the names of lib/rows/fields.txt.
#[derive(Default)]
struct Fields(BTreeMap<String, u32>);

impl Fields {
    fn put(&mut self, of: &str, values: &[(&str, u32)]) {
        self.0.extend(values.iter().map(|(name, value)| (format!("{of}{name}"), *value)));
    }

    fn put_brush(&mut self, of: &str, brush: &Brush) {
        let attributes = [("bold", brush.bold), ("underline", brush.underline), ("blink", brush.blink), ("reverse", brush.reverse), ("is_protected", brush.is_protected)];
        self.put(of, &attributes.map(|(name, is_set)| (name, is_set.into())));
    }

    fn put_cursor(&mut self, of: &str, cursor: &Cursor) {
        self.put(of, &[("row", cursor.row as u32), ("col", cursor.col as u32), ("wrap", cursor.wrap.into())]);
    }

    fn put_sets(&mut self, of: &str, g: &[u8; 4], gl: u8, gr: u8) {
        self.put(of, &[("g0", g[0].into()), ("g1", g[1].into()), ("g2", g[2].into()), ("g3", g[3].into()), ("gl", gl.into()), ("gr", gr.into())]);
    }

    fn of(terminal: &Terminal) -> Fields {
        let mut all = Fields::default();
        let held = [Held::Nothing, Held::Escape, Held::Control, Held::String].iter().position(|held| *held == terminal.held()).unwrap();
        let (cell, sets, saved, margins) = (terminal.row(1).unwrap()[0], terminal.sets(), terminal.saved(), terminal.margins());
        all.put("", &[("width", terminal.width() as u32), ("bells", terminal.bells() as u32), ("held", held as u32)]);
        all.put("margins.", &[("top", margins.top as u32), ("bottom", margins.bottom as u32)]);
        // The modes have the names that their `Debug` writes.
        let text = format!("{:?}", terminal.modes());
        for part in text["Modes { ".len()..text.len() - " }".len()].split(", ") {
            let (name, value) = part.split_once(": ").unwrap();
            all.put("modes.", &[(name, value.parse::<bool>().unwrap().into())]);
        }
        all.put("cell.", &[("glyph", cell.glyph.into())]);
        all.put_brush("cell.", &cell.brush);
        all.put_brush("brush.", &terminal.brush());
        all.put_cursor("cursor.", &terminal.cursor());
        all.put_sets("sets.", &sets.g, sets.gl, sets.gr);
        all.put("sets.", &[("single_shift", sets.single_shift.unwrap_or(0).into())]);
        all.put_cursor("saved.", &saved.cursor);
        all.put("saved.", &[("origin", saved.origin.into())]);
        all.put_brush("saved.", &saved.brush);
        all.put_sets("saved.", &saved.g, saved.gl, saved.gr);
        for (i, is_set) in terminal.stops().iter().enumerate() {
            all.put("stop.", &[(&(i + 1).to_string(), (*is_set).into())]);
        }
        all
    }
}

#[test]
fn fields() {
    for row in rows_of("fields", 50) {
        let mut terminal = Terminal::new().unwrap();
        terminal.feed(&bytes_of(&row[1]));
        let found: Vec<_> = Fields::of(&terminal).0.iter().map(|(name, value)| format!("{name}={value}")).collect();
        assert_eq!(found.join(" "), row[2], "{}", row[0]);
    }
}

#[test]
fn keys() {
    for row in rows_of("keys", 6000) {
        let (language, setting) = (LANGUAGES[row[0].parse::<usize>().unwrap()], row[1].parse::<u8>().unwrap());
        let modes = Modes { lnm: setting & 8 != 0, decckm: setting & 4 != 0, keypad_application: setting & 2 != 0, reports_8bit: setting & 1 != 0, ..Modes::default() };
        let wanted = match row[3].as_str() {
            "no key" => Err(Error::NoKey),
            "no character" => Err(Error::NoCharacter),
            bytes => Ok(bytes_of(bytes)),
        };
        assert_eq!(key(&row[2], &modes, language), wanted, "{row:?}");
    }
}
