//! Prints a stream of cases from standard input in a readable form; `show NUMBER` prints one of them, counted from 1.

use std::io::{self, BufReader, Write};
use stream::table::{self, Refusal};
use stream::Case;

fn main() -> io::Result<()> {
    let only: Option<u64> = std::env::args().nth(1).and_then(|word| word.parse().ok());
    let mut input = BufReader::with_capacity(1 << 20, io::stdin().lock());
    let mut output = io::stdout().lock();
    let mut number = 0;
    while let Some(case) = Case::read(&mut input)? {
        number += 1;
        if only.is_none_or(|one| one == number) {
            let grade = match table::refusal(&case) {
                Some(Refusal { number, at: None }) => format!("refused {number}"),
                Some(Refusal { number, at: Some(at) }) => format!("refused {number} at {at}"),
                None if case.call.has_field() => table::grade(&case).to_string(),
                None => "no field".to_string(),
            };
            writeln!(output, "case {number} ({grade})\n{}\n", case.show())?;
        }
    }
    Ok(())
}
