//! The calls through Rust, with values from docs/SPECIFICATION.md.
use vt220::{key, key_length, shown, Error, Language, Modes, Scratch, Terminal};

#[test]
fn readers() {
    let mut terminal = Terminal::new().unwrap();
    terminal.feed(b"\x1b[2;3H\x1b[1;4mx");
    let cell = terminal.row(2).unwrap()[2];
    assert!(cell.glyph == 'x' && cell.brush.bold && cell.brush.underline && !cell.brush.blink && !cell.brush.is_protected);
    assert_eq!(terminal.row(24).unwrap().len(), 80);
    assert!(terminal.row(0).is_none() && terminal.row(25).is_none());
    assert_eq!(terminal.feed_into(b"\x1b[6n", &mut [0; 9]), (0, 0));
    assert_eq!(vt220::version(), vt220::VERSION);
}

#[test]
fn logs() {
    let (mut terminal, mut scratch) = (Terminal::new().unwrap(), Scratch::new().unwrap());
    let (reports, lines) = terminal.feed_log(b"top\x1b[24H\xe9\n\x1b[6n", &mut scratch);
    assert_eq!((reports.as_slice(), lines.as_str()), (&b"\x1b[24;2R"[..], "top\n"));
    let many = "x".repeat(8000);
    let (_, lines) = terminal.feed_log(many.as_bytes(), &mut scratch);
    assert_eq!(lines.lines().filter(|line| *line == "x".repeat(80)).count(), 76);
}

#[test]
fn copies_and_changes() {
    let (mut a, mut scratch) = (Terminal::new().unwrap(), Scratch::new().unwrap());
    a.feed(b"abc\x1b[2");
    let mut b = a.try_clone().unwrap();
    assert!(a.same_state(&b) && a.same_state(&a) && a.update(&b, &mut scratch) == Err(Error::Partial));
    a.feed(b"H");
    b.feed(b"HB");
    let marks = a.row_changes(&b, 2).unwrap();
    assert!(marks.len() == 80 && marks[0] && marks.iter().filter(|&&changed| changed).count() == 1);
    assert_eq!(a.row_changes(&b, 25), Err(Error::NoRow));
    assert_eq!(b.row_text(2, &mut scratch).unwrap(), "B\n");
    assert_eq!(b.row_text(0, &mut scratch), Err(Error::NoRow));
    assert!(b.show(&mut scratch).starts_with("abc\nB\n") && b.picture(&mut scratch).starts_with("<svg "));
    b.reset();
    assert!(b.same_state(&Terminal::new().unwrap()));
    assert_eq!(Error::Partial.to_string(), "a terminal is inside a sequence");
}

#[test]
fn a_terminal_of_today_is_drawn_on() {
    let (mut terminal, fresh, mut scratch) = (Terminal::new().unwrap(), Terminal::new().unwrap(), Scratch::new().unwrap());
    terminal.feed(b"\x1b[1mab");
    assert_eq!(terminal.draw(Some(&fresh), &mut scratch), b"\x1b[0;1mab\x1b[0m");
    assert_eq!(terminal.draw(None, &mut scratch), b"\x1b[0m\x1b[1;1H\x1b[J\x1b[?25h\x1b[0;1mab\x1b[0m");
    assert!(terminal.draw(Some(&terminal), &mut scratch).is_empty());
}

// By the tables of docs/SPECIFICATION.md, 'UTF-8'.
#[test]
fn glyphs() {
    assert_eq!([shown('A'), shown('\u{201c}'), shown('\u{2501}')], [Some(('A', 1)), Some(('"', 1)), Some(('\u{2500}', 1))]);
    assert_eq!([shown('\u{4e16}'), shown('\u{ff21}')], [Some(('\u{2426}', 2)), Some(('A', 2))]);
    assert_eq!([shown('\u{301}'), shown('\u{85}'), shown('\n')], [None; 3]);
}

#[test]
fn capacity() {
    let mut utf8 = Terminal::open_as(Language::Utf8).unwrap();
    assert_eq!(utf8.feed(b"caf\xc3"), b"");
    assert_eq!(utf8.feed_into(b"\xa9\x1b[6n", &mut [0; 9]), (0, 0));
    assert_eq!(utf8.feed_into(b"\xa9\x1b[6n\xc3", &mut [0; 10]), (5, 6));
    assert_eq!((utf8.feed(b"\xa9\x1b[6n"), utf8.pending()), (b"\x1b[1;6R".to_vec(), vec![]));
    let mut terminal = Terminal::open_as(Language::Xterm).unwrap();
    assert_eq!(terminal.feed_into(b"\x1b[6n", &mut [0; 9]), (0, 0));
    assert_eq!(terminal.feed_into(b"\x1b[3G\x1b[6n\x1b[?47h", &mut [0; 10]), (8, 6));
    assert!(!terminal.alternate() && terminal.language() == Language::Xterm);
}

#[test]
fn languages() {
    let (mut terminal, mut other, mut scratch) = (Terminal::open_as(Language::Xterm).unwrap(), Terminal::new().unwrap(), Scratch::new().unwrap());
    terminal.feed(b"main\x1b[?1049halt");
    assert_eq!(terminal.copy_from(&other), Err(Error::OtherLanguage));
    assert_eq!(terminal.update(&other, &mut scratch), Err(Error::OtherLanguage));
    assert_eq!(other.repaint_as(Language::Xterm, &mut scratch), Err(Error::OtherLanguage));
    other.feed(&terminal.repaint_as(Language::Bytes, &mut scratch).unwrap());
    assert!(other.same_state(&terminal) && !other.alternate());
    terminal.reset();
    assert!(!terminal.alternate() && terminal.text(&mut scratch) == "\n".repeat(24));
}

#[test]
fn a_terminal_has_another_size() {
    let (mut terminal, mut scratch) = (Terminal::open_size(Language::Xterm, 40, 120).unwrap(), Scratch::new().unwrap());
    terminal.feed(b"\x1b[40;118Hend");
    assert_eq!((terminal.rows(), terminal.width(), terminal.stops().len()), (40, 120, 120));
    assert_eq!(terminal.row(40).map(|cells| cells.len()), Some(120));
    assert_eq!(terminal.row(41), None);
    assert!(terminal.row_text(40, &mut scratch).unwrap().ends_with("end\n"));
    assert_eq!(terminal.row_text(41, &mut scratch), Err(Error::NoRow));
    terminal.resize(10, 80).unwrap();
    assert!(terminal.try_clone().unwrap().same_state(&terminal) && terminal.picture(&mut scratch).contains("</svg>"));
    let (_, lines) = terminal.feed_log(&b"\n".repeat(20), &mut scratch);
    assert_eq!((terminal.text(&mut scratch).lines().count(), lines.lines().count()), (10, 20));
}

#[test]
fn two_sizes_are_refused() {
    let (mut terminal, other, mut scratch) = (Terminal::new().unwrap(), Terminal::open_size(Language::Bytes, 25, 80).unwrap(), Scratch::new().unwrap());
    assert_eq!(terminal.copy_from(&other), Err(Error::OtherSize));
    assert_eq!(terminal.update(&other, &mut scratch), Err(Error::OtherSize));
    assert_eq!(terminal.row_changes(&other, 1), Err(Error::OtherSize));
    assert!(!other.draw(Some(&terminal), &mut scratch).is_empty());
    for (rows, columns) in [(1, 80), (256, 80), (24, 1), (24, 256)] {
        assert_eq!(terminal.resize(rows, columns), Err(Error::NoSize));
        assert_eq!(Terminal::open_size(Language::Utf8, rows, columns).err(), Some(Error::NoSize));
    }
}

#[test]
fn typed() {
    assert_eq!((key_length(b"\x1b[A"), key_length(b"\x1b["), key_length("\u{e9}x".as_bytes())), (3, 0, 2));
    assert_eq!(key(b"\xe9", &Modes::default(), Language::Bytes), Err(Error::NoKey));
    assert_eq!(Error::NoCharacter.to_string(), "no key sends this character");
}

// A server may queue thousands of results, so none keeps the capacity of the longest one.
#[test]
fn results_take_no_more_memory_than_they_need() {
    let (mut shown, mut terminal, mut scratch) = (Terminal::new().unwrap(), Terminal::new().unwrap(), Scratch::new().unwrap());
    terminal.feed(b"x");
    let (update, repaint) = (shown.update(&terminal, &mut scratch).unwrap(), terminal.repaint(&mut scratch).unwrap());
    let texts = [terminal.text(&mut scratch), terminal.row_text(1, &mut scratch).unwrap(), terminal.show(&mut scratch), terminal.picture(&mut scratch)];
    let results = [update, repaint].into_iter().chain(texts.map(String::into_bytes));
    for result in results {
        assert!(!result.is_empty() && result.capacity() < result.len() + 32, "{} of {}", result.len(), result.capacity());
    }
}

#[test]
fn threads_read_at_once() {
    let mut terminal = Terminal::new().unwrap();
    terminal.feed(b"shared");
    std::thread::scope(|scope| {
        for _ in 0..4 {
            scope.spawn(|| {
                let mut scratch = Scratch::new().unwrap();
                for _ in 0..200 {
                    assert!(terminal.text(&mut scratch).starts_with("shared\n") && terminal.width() == 80);
                }
            });
        }
    });
}
