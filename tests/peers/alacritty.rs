//! Prints the text of a screen by the alacritty_terminal crate, which reads UTF-8. It keeps no history.
use alacritty_terminal::ansi::Processor;
use alacritty_terminal::config::Config;
use alacritty_terminal::event::VoidListener;
use alacritty_terminal::index::{Column, Line};
use alacritty_terminal::term::cell::Flags;
use alacritty_terminal::term::test::TermSize;
use alacritty_terminal::term::Term;
use std::io::{Read, Write};

/// Returns the columns and the rows that the first argument names, as `80x24`.
fn size() -> Option<(usize, usize)> {
    let word = std::env::args().nth(1)?;
    let (columns, rows) = word.split_once('x')?;
    Some((columns.parse().ok()?, rows.parse().ok()?))
}

fn main() -> std::io::Result<()> {
    let (columns, rows) = size().expect("COLUMNSxROWS");
    let mut data = Vec::new();
    std::io::stdin().read_to_end(&mut data)?;
    let mut config = Config::default();
    config.scrolling.set_history(0);
    let (mut terminal, mut parser) = (Term::new(&config, &TermSize::new(columns, rows), VoidListener), Processor::new());
    for byte in data {
        parser.advance(&mut terminal, byte);
    }
    for row in 0..rows {
        let cells = (0..columns).map(|column| &terminal.grid()[Line(row as i32)][Column(column)]);
        let shown = cells.filter(|cell| !cell.flags.contains(Flags::WIDE_CHAR_SPACER));
        let line: String = shown.map(|cell| if cell.c == '\t' { ' ' } else { cell.c }).collect();
        std::io::stdout().write_all(format!("{}\n", line.trim_end_matches(' ')).as_bytes())?;
    }
    Ok(())
}
