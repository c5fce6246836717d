//! Reads a list of numbers as text from standard input and writes its sheet to standard output; what follows a # on a line is left out.
//! Where the list is no sheet, it says why and exits with 1.

use belaykeel::Sheet;
use harness::text::numbers;
use std::error::Error;
use std::io::{read_to_string, stdin, stdout, Write};

fn main() -> Result<(), Box<dyn Error>> {
    let sheet = Sheet::write(&numbers(&read_to_string(stdin())?))?;
    stdout().write_all(sheet.as_bytes())?;
    Ok(())
}
