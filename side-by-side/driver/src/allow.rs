//! Whether constraints allow any assignment, from the requests' words, which the text has no function for: each question is answered in two ways or three, and they must agree.

use crate::propagation;
use hercules::FixedVarMap;
use stream::line::Allowed;
use stream::Case;

/// The numbers of variables up to which every assignment is tried, every literal is handed to the text's propagation, and every choice is tried by itself.
const TRIED: usize = 12;
const HANDED: usize = 60;
const CHOSEN: usize = 300;

/// For each literal 2i + v those that it leads to in one step.
fn arrows(case: &Case) -> Vec<Vec<usize>> {
    let mut arrows = vec![Vec::new(); 2 * case.n()];
    for record in case.constraints.chunks_exact(3) {
        let (i, j) = (usize::from(record[0]), usize::from(record[1]));
        for (a, b) in [(0, 0), (0, 1), (1, 0), (1, 1)] {
            if record[2] >> (2 * a + b) & 1 == 1 {
                arrows[2 * i + a].push(2 * j + 1 - b);
                arrows[2 * j + b].push(2 * i + 1 - a);
            }
        }
    }
    arrows
}

/// The literals that one reaches, itself included, by a search.
fn reached(arrows: &[Vec<usize>], from: usize) -> Vec<bool> {
    let mut seen = vec![false; arrows.len()];
    let mut waiting = vec![from];
    seen[from] = true;
    while let Some(a) = waiting.pop() {
        for &b in &arrows[a] {
            if !seen[b] {
                seen[b] = true;
                waiting.push(b);
            }
        }
    }
    seen
}

/// The number of each literal's component in a graph where the components of what it reaches have lower numbers (Tarjan, in linear time).
fn components(arrows: &[Vec<usize>]) -> Vec<usize> {
    const NONE: usize = usize::MAX;
    let n = arrows.len();
    let (mut order, mut low, mut part) = (vec![NONE; n], vec![0; n], vec![NONE; n]);
    let (mut stack, mut next, mut parts) = (Vec::new(), 0, 0);
    for root in 0..n {
        if order[root] != NONE {
            continue;
        }
        let mut calls = vec![(root, 0)];
        while let Some((a, at)) = calls.pop() {
            if at == 0 {
                order[a] = next;
                low[a] = next;
                next += 1;
                stack.push(a);
            }
            if let Some(&b) = arrows[a].get(at) {
                calls.push((a, at + 1));
                if order[b] == NONE {
                    calls.push((b, 0));
                } else if part[b] == NONE {
                    low[a] = low[a].min(order[b]);
                }
                continue;
            }
            if low[a] == order[a] {
                while let Some(b) = stack.pop() {
                    part[b] = parts;
                    if b == a {
                        break;
                    }
                }
                parts += 1;
            }
            if let Some(&(up, _)) = calls.last() {
                low[up] = low[up].min(low[a]);
            }
        }
    }
    part
}

/// Whether some assignment has these literals and all that is implied: no variable's literals share a component once each literal is also led to by its negation.
fn allows(arrows: &[Vec<usize>], literals: &[usize]) -> bool {
    let mut more = arrows.to_vec();
    for &a in literals {
        more[a ^ 1].push(a);
    }
    let part = components(&more);
    (0..part.len() / 2).all(|i| part[2 * i] != part[2 * i + 1])
}

fn meets(case: &Case, x: usize) -> bool {
    let value = |i: u16| x >> i & 1;
    case.constraints
        .chunks_exact(3)
        .all(|r| r[2] >> (2 * value(r[0]) + value(r[1])) & 1 == 0)
}

/// The least assignment in the order of lists that meets every record, of all there are.
fn least_of_all(case: &Case) -> Option<Vec<u8>> {
    let n = case.n();
    let list = |x: usize| (0..n).map(|i| (x >> i & 1) as u8).collect::<Vec<_>>();
    (0..1 << n).filter(|&x| meets(case, x)).map(list).min()
}

/// Each variable in rising order 0, wherever some assignment with the earlier choices still allows it.
fn least_by_choices(arrows: &[Vec<usize>]) -> Option<Vec<u8>> {
    let mut chosen = Vec::new();
    if !allows(arrows, &chosen) {
        return None;
    }
    for i in 0..arrows.len() / 2 {
        chosen.push(2 * i);
        if !allows(arrows, &chosen) {
            chosen.pop();
            chosen.push(2 * i + 1);
        }
    }
    Some(chosen.iter().map(|a| (a & 1) as u8).collect())
}

/// The same by what each literal reaches.
fn least_by_reach(rows: &[Vec<bool>]) -> Vec<u8> {
    let mut led = vec![false; rows.len()];
    let mut values = Vec::new();
    for i in 0..rows.len() / 2 {
        let value = usize::from(rows[2 * i][2 * i + 1] || led[2 * i + 1]);
        for (b, is_led) in led.iter_mut().enumerate() {
            *is_led |= rows[2 * i + value][b];
        }
        values.push(value as u8);
    }
    values
}

/// What the text's propagation gives from one literal alone is what the literal reaches; a clash says that it reaches its negation.
fn hand_over(case: &Case, rows: &[Vec<bool>]) {
    for (a, row) in rows.iter().enumerate() {
        let given = FixedVarMap::from_iter([(a / 2, a % 2)]);
        match propagation(case, given) {
            None => assert!(row[a ^ 1], "the text clashes from literal {a}"),
            Some(values) => {
                assert!(!row[a ^ 1], "the text does not clash from literal {a}");
                let held = |b: usize| values.get(&(b / 2)) == Some(&(b % 2));
                assert!((0..rows.len()).all(|b| row[b] == held(b)), "literal {a}");
            }
        }
    }
}

pub fn allow(case: &Case) -> Allowed {
    let n = case.n();
    let arrows = arrows(case);
    let rows: Vec<_> = (0..2 * n).map(|a| reached(&arrows, a)).collect();
    let named = (0..n).find(|&i| rows[2 * i][2 * i + 1] && rows[2 * i + 1][2 * i]);
    assert_eq!(named.is_none(), allows(&arrows, &[]), "by components");
    if n <= HANDED {
        hand_over(case, &rows);
    }
    let least = named.is_none().then(|| least_by_reach(&rows));
    if n <= CHOSEN {
        assert_eq!(least, least_by_choices(&arrows), "choice by choice");
    }
    if n <= TRIED {
        assert_eq!(least, least_of_all(case), "of all assignments");
    }
    Allowed {
        named,
        assignment: least.unwrap_or_else(|| vec![2; n]),
        counts: rows.iter().map(|row| row.iter().filter(|&&x| x).count()).collect(),
    }
}
