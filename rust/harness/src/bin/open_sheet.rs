//! Opens the sheet of standard input by the engine whose number is given, every field selected, and prints the masks of the offers. The
//! test *engines* runs it under callgrind.

use belaykeel::{Engine, Order, Selection, Session, Sheet, WorkSpaces};
use std::error::Error;
use std::io::{stdin, Read};

fn main() -> Result<(), Box<dyn Error>> {
    let number = std::env::args().nth(1).unwrap_or_default();
    let engine = Engine::ALL.into_iter().find(|engine| engine.number().to_string() == number).ok_or("usage: open_sheet 1|2|3")?;
    let mut bytes = Vec::new();
    stdin().read_to_end(&mut bytes)?;
    let offers = Session::default().open(&Sheet::from_bytes(bytes), engine, &Order::Rising, &Selection::All, &mut WorkSpaces::new())?;
    println!("{:?}", offers.masks());
    Ok(())
}
