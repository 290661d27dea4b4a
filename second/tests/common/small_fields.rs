//! Fields of all forms that are small enough to go through all of their buffers.

use second::layout::{OldShape, Shape};

/// m, t, v and the list that goes with them in both forms of one range, 16 wits at most.
const FIELDS: [(u64, u64, u64, &[usize]); 14] = [
    (2, 2, 2, &[2, 1]),
    (2, 2, 20, &[5, 3]),
    (2, 2, 80, &[6, 4]),
    (2, 3, 4, &[4, 3, 2]),
    (2, 3, 9, &[6, 5, 3]),
    (2, 3, 30, &[8, 6, 4]),
    (2, 4, 9, &[7, 6, 5, 3]),
    (2, 8, 2, &[8, 7, 6, 5, 4, 3, 2, 1]),
    (3, 2, 48, &[4, 2]),
    (3, 5, 6, &[5, 4, 3, 2, 1]),
    (4, 2, 14, &[2, 1]),
    (4, 2, 200, &[4, 2]),
    (4, 3, 40, &[4, 3, 2]),
    (4, 4, 14, &[4, 3, 2, 1]),
];

/// The same behind a form, where v is a sum of condition b exactly.
const FIELDS_OF_ONE_FORM: [(u64, u64, u64, u64, &[usize]); 7] = [
    (0, 2, 2, 13, &[4, 3]),
    (1, 2, 2, 13, &[5, 3]),
    (0, 3, 2, 22, &[3, 2]),
    (1, 3, 2, 22, &[4, 2]),
    (0, 4, 2, 46, &[3, 2]),
    (1, 4, 2, 46, &[4, 2]),
    (0, 3, 3, 36, &[5, 4, 2]),
];

/// m, the ranges and the list of form 2.
const FIELDS_OF_FORM_2: [(u64, &[u64], &[usize]); 15] = [
    (2, &[2, 2], &[2, 1]),
    (2, &[13, 13], &[5, 3]),
    (2, &[4, 4, 4], &[4, 3, 2]),
    (2, &[20, 4, 2], &[4, 2, 1]),
    (2, &[2, 4, 20], &[5, 4, 3]),
    (2, &[3, 30, 3], &[5, 4, 2]),
    (2, &[100, 2, 9], &[6, 4, 3]),
    (2, &[9, 5, 3, 2], &[4, 3, 2, 1]),
    (2, &[2, 3, 5, 9], &[6, 5, 4, 3]),
    (2, &[2, 2, 27, 2], &[6, 5, 4, 1]),
    (3, &[100, 6], &[3, 1]),
    (3, &[7, 50, 6], &[4, 3, 1]),
    (4, &[15, 14], &[2, 1]),
    (4, &[2, 224], &[3, 2]),
    (4, &[200, 28, 14], &[4, 2, 1]),
];

/// A shape and its list.
pub type Listed = (Shape, &'static [usize]);

pub fn fields() -> Vec<Listed> {
    let shape = |form, m, t, v| OldShape { m, t, v }.in_form(form);
    let in_form = |form| FIELDS.map(|(m, t, v, counts)| (shape(form, m, t, v), counts));
    let of_one_form = FIELDS_OF_ONE_FORM;
    let of_one_form = of_one_form.map(|(form, m, t, v, counts)| (shape(form, m, t, v), counts));
    let of_form_2 = FIELDS_OF_FORM_2;
    let of_form_2 = of_form_2.map(|(m, ranges, counts)| (Shape::of_ranges(m, ranges), counts));
    [&in_form(0)[..], &in_form(1), &of_one_form, &of_form_2].concat()
}
