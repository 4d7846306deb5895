//! Plays the log on standard input.

use std::io::{self, BufWriter, Read};

fn main() -> io::Result<()> {
    let mut log = Vec::new();
    io::stdin().lock().read_to_end(&mut log)?;
    second::log::play(&log, &mut BufWriter::new(io::stdout().lock()))
}
