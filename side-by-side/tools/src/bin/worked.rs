//! The requirements' values worked by hand, its two that were run, and the requests' examples under C-11, C-13, C-14, C-17, C-18, C-19, C-20 and C-21.
//! Usage: `worked` writes them as a stream of cases, `worked ANSWERS` checks the answers to it.

use std::io::{self, BufWriter, Write};
use stream::line::part;
use stream::{Call, Case};
use tools::recorded::{
    allow_case, ample, kept_case, listed_case, reason_case, worked_case, Worked, ALLOWED, FLAT, KEPT, LISTED, REASONS, STAYS,
    SMALLER, WORKED,
};

/// A value's name, the call, and what stands in the answer: its first words, a part's name and content.
type Expected = (&'static str, Call, &'static str, &'static str, &'static str);

const EXPECTED: [Expected; 146] = [
    ("a", Call::Closure, "0 exact ", "values", ""),
    ("b", Call::Closure, "0 exact ", "values", "2"),
    ("b", Call::Preprocess, "0 exact ", "values", "0"),
    ("c", Call::Closure, "0 exact ", "values", "0"),
    ("d", Call::Closure, "0 exact ", "values", "1"),
    ("e", Call::Closure, "0 exact ", "values", "22"),
    ("f", Call::Closure, "0 exact ", "values", "22"),
    ("g", Call::Closure, "0 exact ", "values", "10"),
    ("h", Call::Closure, "0 exact ", "values", "01"),
    ("i", Call::Probe, "0 exact ", "constraints", "0,1,9"),
    ("i", Call::Probe, "0 exact ", "found", "22"),
    ("i", Call::Pairs, "0 exact ", "constraints", ""),
    ("j", Call::Pairs, "0 exact ", "constraints", "0,1,8"),
    ("g", Call::Pairs, "0 exact ", "constraints", "0,1,3"),
    (
        "one record",
        Call::Probe,
        "0 exact ",
        "constraints",
        "0,1,4",
    ),
    ("k", Call::Propagation, "10 ", "values", "kept"),
    ("l", Call::Propagation, "0 ", "values", "22"),
    ("12, x0=1", Call::Propagation, "10 ", "values", "kept"),
    ("12, x1=1", Call::Propagation, "0 ", "values", "01"),
    ("12, x0=0", Call::Propagation, "0 ", "values", "02"),
    ("15", Call::Propagation, "0 ", "values", "22"),
    ("15, x0=1", Call::Propagation, "10 ", "values", "kept"),
    ("15, x1=0", Call::Propagation, "10 ", "values", "kept"),
    ("turned", Call::Propagation, "7 ", "values", "kept"),
    ("set 0", Call::Propagation, "7 ", "values", "kept"),
    ("set 16", Call::Propagation, "7 ", "values", "kept"),
    ("m", Call::Preprocess, "0 exact ", "values", "10"),
    ("m", Call::Anchors, "0 exact ", "variables", "0"),
    ("n", Call::Closure, "0 exact ", "values", "01"),
    ("small", Call::Pairs, "0 inexact ", "constraints", ""),
    ("small", Call::Pairs, "0 inexact ", "pairs", "1"),
    ("swallowed", Call::Closure, "0 inexact ", "values", "0011"),
    (
        "cold, x1 at 0",
        Call::ColdProbe,
        "0 inexact ",
        "found",
        "00",
    ),
    (
        "cold, x1 at 0",
        Call::SingleProbe,
        "0 inexact ",
        "found",
        "00",
    ),
    (
        "cold, x1 at 1",
        Call::ColdProbe,
        "0 inexact ",
        "found",
        "11",
    ),
    (
        "cold, x1 at 1",
        Call::SingleProbe,
        "0 inexact ",
        "found",
        "11",
    ),
    (
        "cold, turned, x1 at 0",
        Call::ColdProbe,
        "0 inexact ",
        "found",
        "00",
    ),
    (
        "cold, turned, x1 at 0",
        Call::SingleProbe,
        "0 inexact ",
        "found",
        "00",
    ),
    ("stays, x2 at 0", Call::ColdProbe, "0 inexact ", "found", "200"),
    ("stays, x2 at 0", Call::SingleProbe, "0 inexact ", "found", "200"),
    ("i, x0 at 0", Call::ColdProbe, "0 exact ", "found", "01"),
    ("i, x0 at 0", Call::SingleProbe, "0 exact ", "found", "01"),
    ("i, x0 at 1", Call::ColdProbe, "0 exact ", "found", "10"),
    ("i, x0 at 1", Call::SingleProbe, "0 exact ", "found", "10"),
    ("i", Call::ColdFull, "0 exact ", "constraints", "0,1,9"),
    ("i", Call::ColdLimited, "0 exact ", "constraints", "0,1,9"),
    ("cold", Call::Closure, "0 inexact ", "values", "22"),
    ("both", Call::Closure, "0 exact ", "values", "22"),
    ("a", Call::Preprocess, "0 exact ", "values", ""),
    ("g", Call::Preprocess, "0 exact ", "values", "10"),
    ("h", Call::Preprocess, "0 exact ", "values", "01"),
    ("n", Call::Heavy, "0 exact ", "values", "01"),
    ("m", Call::Heavy, "0 exact ", "values", "10"),
    ("b", Call::Closure, "0 exact ", "count", "1"),
    ("e", Call::Closure, "0 exact ", "count", "0"),
    ("stored zero", Call::Closure, "0 exact ", "values", "22"),
    ("stored zero", Call::Closure, "0 exact ", "count", "2"),
    ("neighbour", Call::Closure, "0 exact ", "values", "12"),
    ("neighbour", Call::Closure, "0 exact ", "count", "1"),
    ("given", Call::Closure, "0 exact ", "values", "0"),
    ("given", Call::Closure, "0 exact ", "count", "0"),
    ("cancelling", Call::Closure, "0 inexact ", "values", "20"),
    ("cancelling", Call::Closure, "0 inexact ", "count", "1"),
    (
        "g: x0",
        Call::Reason,
        "0 exact ground=upper unit=0 ",
        "bound",
        "c158000000000000",
    ),
    ("g: x0", Call::Reason, "0 exact ", "variables", ""),
    (
        "g: x1",
        Call::Reason,
        "0 exact ground=lower unit=0 ",
        "bound",
        "4140000000000000",
    ),
    ("g: x1", Call::Reason, "0 exact ", "variables", "0"),
    (
        "h: x1",
        Call::Reason,
        "0 exact ground=upper unit=0 ",
        "bound",
        "c140000000000000",
    ),
    ("h: x1", Call::Reason, "0 exact ", "variables", "0"),
    (
        "h: x0",
        Call::Reason,
        "0 exact ground=given unit=0 ",
        "bound",
        "0000000000000000",
    ),
    ("h: x0", Call::Reason, "0 exact ", "variables", ""),
    (
        "both ways: x1",
        Call::Reason,
        "0 exact ground=lower unit=0 ",
        "bound",
        "4148000000000000",
    ),
    ("both ways: x1", Call::Reason, "0 exact ", "variables", "0"),
    (
        "waiting: x2",
        Call::Reason,
        "0 exact ground=lower unit=0 ",
        "bound",
        "4140000000000000",
    ),
    ("waiting: x2", Call::Reason, "0 exact ", "variables", "0"),
    (
        "zero listed: x0",
        Call::Reason,
        "0 exact ground=upper unit=0 ",
        "bound",
        "c140000000000000",
    ),
    (
        "zero listed: x0",
        Call::Reason,
        "0 exact ",
        "variables",
        "1",
    ),
    (
        "coarse: x0",
        Call::Reason,
        "0 exact ground=upper unit=30 ",
        "bound",
        "c1e0000000000000",
    ),
    ("e: x0", Call::Reason, "13 ", "variables", "kept"),
    ("e: x2", Call::Reason, "13 ", "variables", "kept"),
    ("swallowed: x0", Call::Reason, "12 ", "variables", "kept"),
    ("swallowed: x9", Call::Reason, "12 ", "floats", "zeros"),
    (
        "g, given",
        Call::SubProblem,
        "0 exact ",
        "linear",
        "3ff0000000000000",
    ),
    ("g, given", Call::SubProblem, "0 exact ", "variables", "1"),
    ("g, given", Call::SubProblem, "0 exact ", "entries", ""),
    (
        "g, given",
        Call::SubProblem,
        "0 exact ",
        "constant",
        "c014000000000000",
    ),
    (
        "crossed",
        Call::SubProblem,
        "0 exact ",
        "linear",
        "c000000000000000,401c000000000000",
    ),
    (
        "crossed",
        Call::SubProblem,
        "0 exact ",
        "entries",
        "0,1,c018000000000000",
    ),
    (
        "crossed",
        Call::SubProblem,
        "0 exact ",
        "constant",
        "bff0000000000000",
    ),
    ("crossed", Call::SubProblem, "0 exact ", "variables", "0,2"),
    (
        "diagonals",
        Call::SubProblem,
        "0 inexact ",
        "linear",
        "4000000000000000",
    ),
    (
        "diagonals",
        Call::SubProblem,
        "0 inexact ",
        "entries",
        "0,0,4018000000000000",
    ),
    (
        "diagonals",
        Call::SubProblem,
        "0 inexact ",
        "constant",
        "4008000000000000",
    ),
    ("all given", Call::SubProblem, "0 exact ", "variables", ""),
    (
        "all given",
        Call::SubProblem,
        "0 exact ",
        "constant",
        "4000000000000000",
    ),
    (
        "minus zero",
        Call::SubProblem,
        "0 exact ",
        "linear",
        "0000000000000000",
    ),
    (
        "left inexact",
        Call::SubProblem,
        "0 exact ",
        "linear",
        "41d0000000200000",
    ),
    (
        "overflow",
        Call::SubProblem,
        "0 inexact ",
        "linear",
        "7ff0000000000000",
    ),
    (
        "made",
        Call::Keep,
        "0 exact ",
        "bounds",
        "bff0000000000000,c018000000000000,bfe0000000000000,3ff0000000000000,c008000000000000,3fe0000000000000",
    ),
    ("made", Call::Keep, "0 exact ", "strict", "1"),
    ("made", Call::Keep, "0 exact ", "found", "011"),
    (
        "pinned",
        Call::Keep,
        "0 exact ",
        "bounds",
        "bff0000000000000,0000000000000000,3fe0000000000000,bff0000000000000,0000000000000000,3fe0000000000000",
    ),
    ("pinned", Call::Keep, "0 exact ", "strict", "2"),
    ("pinned", Call::Keep, "0 exact ", "found", "100"),
    (
        "released",
        Call::Keep,
        "0 exact ",
        "bounds",
        "bff0000000000000,c018000000000000,bfe0000000000000,3ff0000000000000,c008000000000000,3fe0000000000000",
    ),
    ("released", Call::Keep, "0 exact ", "strict", "1"),
    ("released", Call::Keep, "0 exact ", "found", "011"),
    (
        "other",
        Call::Keep,
        "0 exact ",
        "bounds",
        "0000000000000000,c010000000000000,bfe0000000000000,0000000000000000,c008000000000000,3fe0000000000000",
    ),
    ("other", Call::Keep, "0 exact ", "strict", "1"),
    ("other", Call::Keep, "0 exact ", "found", "111"),
    ("pinned again", Call::Keep, "0 exact ", "operations", "0,7"),
    ("other", Call::Keep, "0 exact ", "operations", "0,7"),
    (
        "minus zero",
        Call::Keep,
        "0 exact ",
        "bounds",
        "0000000000000000,0000000000000000,0000000000000000,0000000000000000",
    ),
    (
        "out of order",
        Call::Mend,
        "0 exact ",
        "entries",
        "1,0,4000000000000000;0,1,3ff0000000000000",
    ),
    ("out of order", Call::Mend, "0 exact ", "changes", "0,1,1;1,1,0"),
    ("a repeat", Call::Mend, "0 exact ", "entries", "0,1,4008000000000000"),
    ("a repeat", Call::Mend, "0 exact ", "changes", "1,2,0"),
    (
        "outside",
        Call::Mend,
        "0 exact ",
        "entries",
        "1,0,4008000000000000;0,1,8000000000000000",
    ),
    (
        "outside",
        Call::Mend,
        "0 exact ",
        "changes",
        "0,0,65535;1,1,0;2,1,1",
    ),
    (
        "all kinds",
        Call::Mend,
        "0 inexact ",
        "entries",
        "0,1,4340000000000002;2,1,0000000000000000",
    ),
    (
        "all kinds",
        Call::Mend,
        "0 inexact ",
        "changes",
        "0,1,1;1,1,0;2,2,1;3,0,65535;4,2,0;5,2,0",
    ),
    ("not finite", Call::Mend, "18 ", "field", "kept"),
    ("not finite", Call::Mend, "18 ", "words", "kept"),
    ("dropped alone", Call::Mend, "0 exact ", "entries", ""),
    ("dropped alone", Call::Mend, "0 exact ", "changes", "0,0,65535;1,0,65535"),
    ("turned", Call::Mend, "0 inexact ", "changes", "1,2,0;2,2,0"),
    (
        "good",
        Call::Mend,
        "0 exact ",
        "entries",
        "1,0,8000000000000000;0,1,0000000000000000",
    ),
    ("good", Call::Mend, "0 exact ", "changes", ""),
    ("both kinds", Call::Allow, "0 no=0 ", "assignment", "22"),
    ("both kinds", Call::Allow, "0 no=0 ", "counts", "4,4,4,4"),
    ("all four", Call::Allow, "0 no=0 ", "assignment", "22"),
    ("all four", Call::Allow, "0 no=0 ", "counts", "4,4,4,4"),
    ("exactly one", Call::Allow, "0 yes ", "assignment", "01"),
    ("exactly one", Call::Allow, "0 yes ", "counts", "2,2,2,2"),
    ("x0 is 1", Call::Allow, "0 yes ", "assignment", "10"),
    ("x0 is 1", Call::Allow, "0 yes ", "counts", "4,1,2,2"),
    ("chain", Call::Allow, "0 yes ", "assignment", "011"),
    ("chain", Call::Allow, "0 yes ", "counts", "3,1,3,2,3,2"),
    ("forced", Call::Allow, "0 yes ", "assignment", "101"),
    ("forced", Call::Allow, "0 yes ", "counts", "6,3,3,6,6,3"),
    ("x1 is neither", Call::Allow, "0 no=1 ", "assignment", "222"),
    ("x1 is neither", Call::Allow, "0 no=1 ", "counts", "1,1,4,4,4,4"),
    ("no variables", Call::Allow, "0 yes ", "assignment", ""),
    ("no variables", Call::Allow, "0 yes ", "counts", ""),
    ("no records", Call::Allow, "0 yes ", "assignment", "0"),
    ("no records", Call::Allow, "0 yes ", "counts", "1,1"),
];

fn worked_field(name: &str) -> &'static Worked {
    WORKED
        .iter()
        .chain(&FLAT)
        .chain(&REASONS)
        .chain([&STAYS])
        .chain(&SMALLER)
        .find(|w| w.0 == name)
        .expect("a worked field")
}

/// A name, start values and records.
const PROPAGATED: [(&str, [u8; 2], &[u16]); 11] = [
    ("k", [1, 2], &[0, 1, 6, 0, 1, 9]),
    ("l", [2, 2], &[0, 1, 6, 0, 1, 9]),
    ("12, x0=1", [1, 2], &[0, 1, 12]),
    ("12, x1=1", [2, 1], &[0, 1, 12]),
    ("12, x0=0", [0, 2], &[0, 1, 12]),
    ("15", [2, 2], &[0, 1, 15]),
    ("15, x0=1", [1, 2], &[0, 1, 15]),
    ("15, x1=0", [2, 0], &[0, 1, 15]),
    ("turned", [2, 2], &[1, 0, 6]),
    ("set 0", [2, 2], &[0, 1, 0]),
    ("set 16", [2, 2], &[0, 1, 16]),
];

fn case_of(&(name, call, ..): &Expected) -> Case {
    if call == Call::Propagation {
        let mut case = Case::new(call);
        let (_, start, constraints) = PROPAGATED
            .iter()
            .find(|row| row.0 == name)
            .expect("a worked list");
        case.start = start.to_vec();
        case.constraints = constraints.to_vec();
        ample(&mut case);
        return case;
    }
    if call == Call::Keep {
        let &(name, linear, entries, start, script) =
            KEPT.iter().find(|row| row.0 == name).expect("a record");
        return kept_case(name, linear, entries, start, script);
    }
    if call == Call::Allow {
        let row = ALLOWED.iter().find(|row| row.0 == name);
        let (_, variables, constraints) = row.expect("a worked list");
        return allow_case(*variables, constraints);
    }
    if call == Call::Reason {
        let (field, variable) = name.split_once(": x").expect("a variable");
        let variable = variable.parse().expect("its number");
        return reason_case(worked_field(field), variable);
    }
    if call == Call::Mend {
        let listed = LISTED.iter().find(|listed| listed.0 == name);
        return listed_case(listed.expect("a worked list"));
    }
    let (field, probed) = name.rsplit_once(", x").unwrap_or((name, ""));
    let mut case = worked_case(call, worked_field(field));
    if call.probes_one() {
        case.variable = probed[..1].parse().expect("a probed variable");
        case.value = u64::from(name.ends_with('1'));
    }
    case
}

fn main() -> io::Result<()> {
    let Some(answers) = std::env::args().nth(1) else {
        let mut output = BufWriter::new(io::stdout().lock());
        for expected in &EXPECTED {
            case_of(expected).write(&mut output)?;
        }
        return output.flush();
    };
    let text = std::fs::read_to_string(answers)?;
    let mut wrong = 0;
    for (expected, line) in EXPECTED.iter().zip(text.lines()) {
        let (name, call, first, list, content) = *expected;
        if !line.starts_with(first) || part(line, list) != Some(content) {
            wrong += 1;
            println!(
                "{name}, {}: wants {first}{list}={content}, but: {line}",
                call.name()
            );
        }
    }
    let count = text.lines().count();
    println!("{count} worked values, {wrong} wrong");
    std::process::exit(i32::from(wrong > 0 || count != EXPECTED.len()));
}
