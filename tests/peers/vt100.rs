//! Prints the text of a screen by the vt100 crate, which reads UTF-8.
use std::io::{Read, Write};

/// Returns the columns and the rows that the first argument names, as `80x24`.
fn size() -> Option<(u16, u16)> {
    let word = std::env::args().nth(1)?;
    let (columns, rows) = word.split_once('x')?;
    Some((columns.parse().ok()?, rows.parse().ok()?))
}

fn main() -> std::io::Result<()> {
    let mut data = Vec::new();
    std::io::stdin().read_to_end(&mut data)?;
    let (columns, rows) = size().expect("COLUMNSxROWS");
    let mut parser = vt100::Parser::new(rows, columns, 0);
    parser.process(&data);
    for line in parser.screen().rows(0, columns) {
        std::io::stdout().write_all(format!("{}\n", line.trim_end_matches(' ')).as_bytes())?;
    }
    Ok(())
}
