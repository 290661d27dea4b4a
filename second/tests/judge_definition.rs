//! "Yes exactly when some choice of spare groups makes the after cells a right write": on
//! small fields every choice and every number is tried, on large ones the choice that the
//! after cells show.

#[path = "common/judge_calls.rs"]
mod judge_calls;
#[path = "common/listed_field.rs"]
mod listed_field;

use judge_calls::judge_calls;
use listed_field::{choices, every_buffer, fields, is_blank, Field};
use second::cells;
use second::field;
use second::judging::{self, Judged};
use second::layout::{Layout, Layouts};
use second::protocol::JudgeCall;
use second::refusal::Refusal;
use second::whole::Whole;
use std::collections::BTreeMap;

/// What each right write on some cells leaves, and its number.
type RightWrites = BTreeMap<Vec<u8>, u64>;

/// Every number of the generation that is due, on every choice of its places among the
/// zero groups. There are none on spent cells.
fn right_writes(field: &Field, before: &[u8]) -> Result<RightWrites, Refusal> {
    let mut right = BTreeMap::new();
    let generation = match field.generation_due(before) {
        Err(Refusal::LastGenerationUsed) => return Ok(right),
        due => due?,
    };
    let groups = field.groups(before).expect("no left-over bit is set");
    let zeros = groups.iter().filter(|group| **group == 0).count();
    let in_range = field.range(generation) as usize;
    let patterns = &field.listed[generation - 1][..in_range];
    for choice in choices(zeros, field.counts[generation - 1]) {
        let mut is_chosen = choice.into_iter();
        let is_place = |group: &u64| *group == 0 && is_chosen.next() == Some(true);
        let places: Vec<bool> = groups.iter().map(is_place).collect();
        for (number, pattern) in patterns.iter().enumerate() {
            let after = field.cells(&field.on_places(&places, pattern));
            let other = right.insert(after, number as u64);
            assert_eq!(other, None, "one pair of cells would have two numbers");
        }
    }
    Ok(right)
}

/// Cells before, and what is right on them.
struct Tried<'field> {
    field: &'field Field,
    before: Vec<u8>,
    right: Result<RightWrites, Refusal>,
}

impl Tried<'_> {
    fn new(field: &Field, before: Vec<u8>) -> Tried<'_> {
        let right = right_writes(field, &before);
        Tried {
            field,
            before,
            right,
        }
    }

    fn judgement_due(&self, after: &[u8]) -> Result<Judged, Refusal> {
        let right = self.right.as_ref().map_err(|refusal| *refusal)?;
        self.field.reading_due(after)?;
        Ok(match right.get(after) {
            Some(number) => Judged::Yes { number: *number },
            None => Judged::No,
        })
    }

    fn hold(&self, after: &[u8], layouts: &mut Layouts) {
        let judged = judging::judge(&self.field.shape, &self.before, after, layouts);
        let pair = (&self.before, after);
        assert_eq!(judged, self.judgement_due(after), "{:?}", pair);
        if let Ok(Judged::Yes { .. }) = judged {
            let mut bytes = self.before.iter().zip(after);
            assert!(bytes.all(|(before, after)| before & !after == 0));
        }
    }
}

fn fields_of(bytes: usize) -> Vec<Field> {
    let fields = fields();
    let fields = fields.iter().map(Field::new);
    fields.filter(|field| field.bytes() == bytes).collect()
}

#[test]
fn every_pair_of_buffers_of_one_byte() {
    let mut layouts = Layouts::default();
    let mut right_writes = 0;
    for field in fields_of(1) {
        for before in every_buffer(1) {
            let tried = Tried::new(&field, before);
            every_buffer(1).for_each(|after| tried.hold(&after, &mut layouts));
            right_writes += tried.right.map_or(0, |right| right.len());
        }
    }
    assert!(right_writes > 1_000);
}

/// The cells with each bit turned over, one at a time.
fn neighbours(cells: &[u8]) -> impl Iterator<Item = Vec<u8>> + '_ {
    (0..8 * cells.len()).map(move |bit| {
        let mut other = cells.to_vec();
        other[bit / 8] ^= 1 << (bit % 8);
        other
    })
}

/// Blank cells, and readable ones of every generation.
fn some_before(field: &Field) -> Vec<Vec<u8>> {
    let mut some = vec![vec![0; field.bytes()]];
    for generation in 1..=field.counts.len() {
        let is_of_it = |(_, (other, _)): &(&Vec<u8>, &(usize, u64))| *other == generation;
        let mut of_it: Vec<&Vec<u8>> = field
            .readable
            .iter()
            .filter(is_of_it)
            .map(|pair| pair.0)
            .collect();
        of_it.sort();
        some.extend(
            of_it
                .iter()
                .step_by(1 + of_it.len() / 4)
                .map(|cells| cells.to_vec()),
        );
    }
    some
}

/// Behind each of some cells stands every right write, what is a bit off some of them, and
/// every seventeenth of all buffers.
#[test]
fn pairs_of_buffers_of_two_bytes() {
    let mut layouts = Layouts::default();
    for field in fields_of(2) {
        for before in some_before(&field) {
            let tried = Tried::new(&field, before);
            let right = tried.right.as_ref().expect("it is readable or blank");
            let right: Vec<&Vec<u8>> = right.keys().collect();
            for after in &right {
                tried.hold(after, &mut layouts);
            }
            let some = right.iter().step_by(1 + right.len() / 50);
            for after in some.flat_map(|after| neighbours(after)) {
                tried.hold(&after, &mut layouts);
            }
            for after in every_buffer(2).step_by(17) {
                tried.hold(&after, &mut layouts);
            }
        }
    }
}

/// The cells before with all nonzero groups erased, those zero ones too that are erased in
/// the cells after, and the number's pattern on the others. Nothing where these are not as
/// many as the generation has places.
fn written_again(
    generation: usize,
    layout: &Layout,
    (before, after): (&[u64], &[u64]),
    number: u64,
) -> Option<Vec<u64>> {
    let erased = layout.erased();
    let groups = before.iter().zip(after);
    let prepared = groups.map(|(before, after)| match (*before, generation) {
        (0, 1) => 0,
        (0, _) if *after != erased => 0,
        _ => erased,
    });
    let prepared: Vec<u64> = prepared.collect();
    let places = prepared.iter().filter(|group| **group == 0).count();
    if places != layout.count(generation) || number >= layout.range(generation) {
        return None;
    }
    let counting = &mut Layouts::default().counting;
    let pattern = field::pattern_for(generation, layout, &Whole::from(number), counting)?;
    Some(field::with_pattern(&prepared, &pattern))
}

/// Of a call that is not refused.
fn judgement_due(call: &JudgeCall, layouts: &mut Layouts) -> Result<Judged, Refusal> {
    let layout = layouts.grant(&call.shape, 256)?;
    let before = cells::groups_of(&layout, &call.before)?;
    let after = cells::groups_of(&layout, &call.after)?;
    let generation = match is_blank(&call.before) {
        true => 1,
        false => field::read(&call.shape, &call.before, layouts)?.generation + 1,
    };
    let number = field::read(&call.shape, &call.after, layouts)?.number;
    let again = match generation > layout.generations() {
        true => None,
        false => written_again(generation, &layout, (&before, &after), number),
    };
    Ok(match again == Some(after) {
        true => Judged::Yes { number },
        false => Judged::No,
    })
}

#[test]
fn made_calls_are_judged_as_a_write_by_the_same_choice() {
    let mut layouts = Layouts::default();
    let (mut yes, mut no) = (0, 0);
    for call in [0, 1, 2].into_iter().flat_map(judge_calls) {
        let judged = judging::judge(&call.shape, &call.before, &call.after, &mut layouts);
        match judged {
            Ok(Judged::Yes { .. }) => yes += 1,
            Ok(Judged::No) => no += 1,
            Err(_) => continue,
        }
        assert_eq!(judged, judgement_due(&call, &mut layouts));
    }
    assert!(yes > 1_000 && no > 1_000);
}
