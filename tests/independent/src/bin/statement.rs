//! The statement program of the independent implementation (Rule 10.7).
use std::io::{self, Read, Write};

fn main() -> io::Result<()> {
    let mut file = Vec::new();
    io::stdin().read_to_end(&mut file)?;
    io::stdout().write_all(independent::files::statement_program(&file).as_bytes())
}
