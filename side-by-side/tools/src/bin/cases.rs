//! Writes a stream of cases to standard output.
//! Usage: `cases SEED COUNT [CALLS]` for random ones, `cases entries SEED COUNT [CALLS]` for random ones whose entries are broken,
//! `cases units SEED COUNT [CALLS]` for random ones whose weights are scaled by one power of two, 2^-23 to 2^28,
//! `cases together SEED COUNT` for COUNT fields of up to 12 variables, each with its anchors and what other calls find from the same start values,
//! `cases recorded [CALLS]` for the recorded set; CALLS is a list of names with commas.

use std::io::{self, BufWriter, Write};
use tools::random::Random;
use tools::{breaks, calls_named, make, recorded, together};

fn main() -> io::Result<()> {
    let mut words: Vec<String> = std::env::args().skip(1).collect();
    let mut output = BufWriter::with_capacity(1 << 20, io::stdout().lock());
    if words.first().is_some_and(|word| word == "recorded") {
        for case in recorded::recorded(&calls_named(words.get(1).map(String::as_str))) {
            case.write(&mut output)?;
        }
        return output.flush();
    }
    let broken = words.first().is_some_and(|word| word == "entries");
    let scaled = words.first().is_some_and(|word| word == "units");
    let grouped = words.first().is_some_and(|word| word == "together");
    if broken || scaled || grouped {
        words.remove(0);
    }
    let number = |at: usize, name: &str| -> u64 {
        let word = words.get(at).and_then(|word| word.parse().ok());
        word.unwrap_or_else(|| panic!("{name} is a number: cases [entries|units|together] SEED COUNT [CALLS]"))
    };
    let (seed, count) = (number(0, "SEED"), number(1, "COUNT"));
    let calls = calls_named(words.get(2).map(String::as_str));
    for at in 0..count {
        // Each case has its own seed, so that one case does not depend on those before it.
        let mut random = Random::new(seed.wrapping_mul(0x9e37_79b9) ^ (at << 32) ^ at);
        if grouped {
            for case in together::cases(&mut random) {
                case.write(&mut output)?;
            }
            continue;
        }
        let call = calls[random.below(calls.len())];
        let mut case = make::random_case(&mut random, call, broken);
        if broken && call.has_field() {
            breaks::break_entries(&mut random, &mut case);
        }
        if scaled {
            make::scale(&mut random, &mut case);
        }
        case.write(&mut output)?;
    }
    output.flush()
}
