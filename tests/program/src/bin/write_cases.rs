//! Writes the folder `cases` anew: each file, and the reference's output for it.

use std::fs;
use std::io;

use hankboulder_program::cases::{cases, folder};
use hankboulder_reference::program::output;

fn main() -> io::Result<()> {
    if folder().is_dir() {
        fs::remove_dir_all(folder())?;
    }
    fs::create_dir(folder())?;
    for case in cases() {
        fs::write(case.summary_path(), &case.file)?;
        fs::write(case.expected_path(), output(&case.file))?;
    }
    println!("{} cases", cases().len());
    Ok(())
}
