//! Ranges that the patterns of generation 1 fill exactly in form 0. Form 1 and form 2 of
//! equal ranges have one pattern fewer, so that their list is another one there and
//! nowhere else.

use super::shapes::LARGEST_RANGE;
use crate::counting::Counting;
use crate::dealing::Deal;
use crate::layout::OldShape;
use crate::whole::Whole;

/// Above every second count and every step of a granted list: the most is 186
/// groups, at m 2, t 16 and v 2^56, and 15 for a step.
const HIGHEST_COUNT: usize = 200;
const LONGEST_STEP: usize = 16;

/// Every shape of form 0 whose range is the sum in condition b of its own list.
pub fn shapes(counting: &mut Counting) -> Vec<OldShape> {
    (2..=4).flat_map(|m| shapes_with(m, counting)).collect()
}

fn shapes_with(m: u64, counting: &mut Counting) -> Vec<OldShape> {
    let erased = (1 << m) - 1;
    let rooms = middle_rooms(erased, counting);
    let mut largest = last_ranges(erased);
    let mut shapes = Vec::new();
    for t in 2..=16 {
        let sums = exact_sums(erased, &largest, counting);
        shapes.extend(sums.into_iter().map(|v| OldShape { m, t, v }));
        largest = ranges_with_one_more(&largest, &rooms);
    }
    shapes
}

/// `largest` has for each count the largest range that it holds as the second one.
fn exact_sums(erased: u64, largest: &[u64], counting: &mut Counting) -> Vec<u64> {
    let mut exact = Vec::new();
    for next in 1..=HIGHEST_COUNT {
        // Just these ranges have the second count `next`.
        let ranges = largest[next - 1] + 1..=largest[next];
        let sums = sums_up_to(*ranges.end(), erased, next, counting);
        exact.extend(sums.into_iter().filter(|sum| ranges.contains(sum)));
    }
    exact
}

/// For each count the largest range that it holds as the last one, condition d. As
/// in all ranges here, more than the largest allowed one counts as that.
fn last_ranges(erased: u64) -> Vec<u64> {
    let one = Whole::from(1);
    let range = |count: usize| {
        let room = Whole::power(erased, count).minus(&one);
        up_to_largest(&room.unwrap_or_else(Whole::zero))
    };
    (0..=HIGHEST_COUNT).map(range).collect()
}

/// For each count the numbers that it holds as a middle one, condition c, by steps
/// from 1 up to the next count.
fn middle_rooms(erased: u64, counting: &mut Counting) -> Vec<Vec<u64>> {
    let mut rooms = Vec::new();
    for count in 0..=HIGHEST_COUNT {
        let steps = 1..count.min(LONGEST_STEP + 1);
        let deals = steps.map(|step| Deal::middle(erased, count, count - step));
        rooms.push(
            deals
                .map(|deal| up_to_largest(&deal.room(counting)))
                .collect(),
        );
    }
    rooms
}

/// The same with one more generation in front of the counts: the best of all steps.
fn ranges_with_one_more(largest: &[u64], rooms: &[Vec<u64>]) -> Vec<u64> {
    let range = |count: usize| {
        let by_step = rooms[count].iter().zip(1..);
        let ranges = by_step.map(|(room, step)| largest[count - step].min(*room));
        ranges.max().unwrap_or(0)
    };
    (0..=HIGHEST_COUNT).map(range).collect()
}

/// The sums of condition b in form 0 for steps from 1 up.
fn sums_up_to(most: u64, erased: u64, next: usize, counting: &mut Counting) -> Vec<u64> {
    let deals = (1..).map(|step| Deal::first(erased, next + step, next, 0));
    let sums = deals.map(|deal| deal.room(counting).to_u64().unwrap_or(u64::MAX));
    sums.take_while(|sum| *sum <= most).collect()
}

fn up_to_largest(room: &Whole) -> u64 {
    room.to_u64().unwrap_or(LARGEST_RANGE).min(LARGEST_RANGE)
}
