//! 003's figures as the conditions give them, to be laid beside the paper.

use crate::counting::Counting;
use crate::layout::{Layout, Layouts, OldShape, GROUPS_OFFERED};

const PUBLISHED_RANGE: u64 = 1 << 56;

/// "rows 0 to 60" of the binomials, the largest of which has 57 bits.
const LAST_ROW: usize = 60;

/// One line `m t v: list, wits` for Example 1, then for each column of Table I
/// (m 2 and v 2^56, t from 2 to 10), then for the 56 bits written twice at m 3
/// of 003's section V, where the conditions give 93 wits.
pub fn figures(layouts: &mut Layouts) -> String {
    let example = std::iter::once((2, 10));
    let table = (2..=10).map(|t| (2, t));
    let at_three = std::iter::once((3, 2));
    let asked = example.chain(table).chain(at_three);
    asked.map(|(m, t)| figure(m, t, layouts)).collect()
}

fn figure(m: u64, t: u64, layouts: &mut Layouts) -> String {
    let v = PUBLISHED_RANGE;
    let shape = OldShape { m, t, v }.in_form_0();
    match layouts.grant(&shape, GROUPS_OFFERED) {
        Ok(layout) => format!("{} {} {}: {}, {}\n", m, t, v, list(&layout), layout.wits()),
        Err(refusal) => format!("{} {} {}: refused {}\n", m, t, v, refusal.number()),
    }
}

/// The counts h_1 .. h_t with single spaces between them.
pub fn list(layout: &Layout) -> String {
    let counts = layout.counts().iter().map(|count| count.to_string());
    counts.collect::<Vec<String>>().join(" ")
}

/// The binomials, one line `n: C(n, 0) .. C(n, n)` for each row.
pub fn triangle() -> String {
    let counting = &mut Counting::default();
    (0..=LAST_ROW).map(|n| row(n, counting)).collect()
}

fn row(n: usize, counting: &mut Counting) -> String {
    let numbers = (0..=n).map(|k| {
        let number = counting.choose(n, k).to_u64();
        number.map_or_else(String::new, |number| number.to_string())
    });
    format!("{}: {}\n", n, numbers.collect::<Vec<String>>().join(" "))
}
