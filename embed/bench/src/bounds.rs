//! The bounds on the ratios, and the worst ratio of all.

use other::MOST_CELLS;

use crate::tables::{Line, On};

/// The largest ratio that each call may have, on the largest room where it takes one.
const BOUNDS: [(&str, f64); 8] = [
    ("step", 0.80),
    ("ask, put", 0.80),
    ("catalogue", 0.80),
    ("next", 1.00),
    ("read", 1.00),
    ("write", 1.40),
    ("in turn", 0.80),
    ("hoard list", 1.00),
];

/// Prints a line for each bound, and at last the worst ratio of all tables.
pub fn print(lines: &[Line]) {
    println!("\nBounds on the ratios");
    for (call, bound) in BOUNDS {
        let bounded = lines.iter().filter(|line| line.call == call && is_bounded(line.on));
        if let Some(line) = worst(bounded) {
            let holds = if line.ratio() <= bound { "holds" } else { "does not hold" };
            println!("{}, bound {bound:.2}: {holds}", ratio_of(line));
        }
    }
    if let Some(line) = worst(lines.iter()) {
        println!("worst ratio: {:.2}, {}", line.ratio(), line.place());
    }
}

/// Whether there is a bound on it. Among rooms there is one on the largest alone, and
/// none where it is mixed, as no run leaves it: that shows what the worst room costs.
fn is_bounded(on: On) -> bool {
    match on {
        On::Room(sizes, state) => sizes.length() == MOST_CELLS && state != "mixed",
        On::Catalogue(..) | On::NoRoom(_) => true,
    }
}

fn worst<'a>(lines: impl Iterator<Item = &'a Line>) -> Option<&'a Line> {
    lines.max_by(|one, other| one.ratio().total_cmp(&other.ratio()))
}

/// The worst ratio of a call, and the state or the case in which it has it.
fn ratio_of(line: &Line) -> String {
    let (call, ratio) = (line.call, line.ratio());
    match line.on {
        On::Room(_, state) => format!("{call}, largest room: worst {ratio:.2} ({state})"),
        On::Catalogue(_, case) => format!("{call}: worst {ratio:.2} ({case})"),
        On::NoRoom(_) => format!("{call}: {ratio:.2}"),
    }
}
