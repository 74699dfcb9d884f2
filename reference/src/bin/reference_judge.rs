//! The program "judge": a summary file on standard input, its answer on
//! standard output.

use std::io::{self, Read, Write};

use hankboulder_reference::program::output;

fn main() -> io::Result<()> {
    let mut file = vec![];
    io::stdin().read_to_end(&mut file)?;
    io::stdout().write_all(output(&file).as_bytes())
}
