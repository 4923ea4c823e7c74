//! Document 01's program `answers`, second writing.

use std::io::{self, Write};

fn main() -> io::Result<()> {
    let text = second::report::read_input()?;
    io::stdout().write_all(second::report::answers(&text).as_bytes())
}
