//! Prints the text of a sheet, with the standing options: cargo run --example read_sheet FILE

use std::error::Error;
use std::io::Write;

fn main() -> Result<(), Box<dyn Error>> {
    let file = std::env::args_os().nth(1).ok_or("read_sheet FILE")?;
    let text = levzhada::extract(&std::fs::read(file)?, &levzhada::Options::default())?.text;
    writeln!(std::io::stdout(), "{text}")?;
    Ok(())
}
