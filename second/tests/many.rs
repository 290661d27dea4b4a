//! Many numbers in one call, held to single writes one after another.

#[path = "common/many_calls.rs"]
mod many_calls;
#[path = "common/octets.rs"]
mod octets;

use many_calls::many_calls;
use octets::octets;
use second::cells::ones;
use second::field;
use second::layout::{Layouts, OldShape, Shape};
use second::many::{self, ManyWritten};
use second::protocol::ManyCall;
use second::refusal::Refusal;
use std::ops::Range;

fn small() -> Shape {
    OldShape { m: 2, t: 3, v: 4 }.in_form_0()
}

fn of_20() -> Shape {
    OldShape { m: 2, t: 2, v: 20 }.in_form_0()
}

fn write_many(shape: &Shape, numbers: &[u64], cells: &[u8]) -> Result<ManyWritten, Refusal> {
    many::write_many(shape, numbers, cells, &mut Layouts::default())
}

/// The refusal's number where nothing was written.
fn refusal_of_all(shape: &Shape, numbers: &[u64], cells: &[u8]) -> Option<u8> {
    let refusal = write_many(shape, numbers, cells).err();
    refusal.map(Refusal::number)
}

/// Generation and turned count of each field written, and of the refused one behind them
/// the refusal's number and what it carries.
type Told = (Vec<(usize, u64)>, Vec<usize>);

fn told_of_stop(refusal: Refusal) -> Vec<usize> {
    [vec![refusal.number().into()], refusal.carried()].concat()
}

fn told_of(many: &ManyWritten) -> Told {
    let fields = many.fields.iter();
    let pairs = fields.map(|field| (field.generation, field.turned));
    let stop = many.stop.map_or_else(Vec::new, told_of_stop);
    (pairs.collect(), stop)
}

fn assert_written(shape: &Shape, numbers: &[u64], cells: &str, after: &str, told: Told) {
    let many = write_many(shape, numbers, &octets(cells)).expect("its length is right");
    assert_eq!(many.cells, octets(after), "{} {:?}", cells, numbers);
    assert_eq!(told_of(&many), told);
}

#[test]
fn fields_that_are_all_written() {
    let told = (vec![(1, 2), (1, 1), (1, 1)], vec![]);
    assert_written(&small(), &[3, 1, 2], "00 00 00", "03 01 02", told);
    let form_1 = Shape { form: 1, ..small() };
    let told = (vec![(1, 1); 3], vec![]);
    assert_written(&form_1, &[0, 0, 0], "00 00 00", "01 01 01", told);
    // In form 0 a 0 on blank cells is a write that turns no wit.
    let told = (vec![(1, 0), (2, 1), (1, 0)], vec![]);
    assert_written(&small(), &[0, 1, 0], "00 03 00", "00 0B 00", told);
    assert_written(&small(), &[], "", "", (vec![], vec![]));
}

#[test]
fn the_first_refused_field_stops_the_call() {
    let told = (vec![(2, 1)], vec![5]);
    assert_written(&small(), &[1, 1, 1], "03 4F 00", "0B 4F 00", told);
    let told = (vec![(1, 2)], vec![6]);
    assert_written(&small(), &[3, 4, 2], "00 00 00", "03 00 00", told);
    let told = (vec![(1, 2), (1, 1)], vec![16, 2]);
    assert_written(&small(), &[3, 1, 2], "00 00 43", "03 01 43", told);
    let told = (vec![(2, 1)], vec![15, 2, 2]);
    assert_written(&small(), &[1, 1, 1], "03 0F 00", "0B 0F 00", told);
    assert_written(&small(), &[1, 3], "4F 00", "4F 00", (vec![], vec![5]));
}

#[test]
fn a_left_over_bit_is_refused_when_its_field_is_reached() {
    let told = (vec![(2, 4)], vec![3]);
    let (before, after) = ("00 40 00 41 00 40", "C1 C0 00 41 00 40");
    assert_written(&of_20(), &[0, 0, 0], before, after, told);
    let told = (vec![(1, 2), (1, 2)], vec![3]);
    let (before, after) = ("00 00 00 00 00 01", "01 40 02 40 00 01");
    assert_written(&of_20(), &[16, 19, 0], before, after, told);
    assert_written(&of_20(), &[0], "00 41", "00 41", (vec![], vec![3]));
}

#[test]
fn a_field_is_refused_in_the_order_3_6_15_16_5() {
    let stop = |number: u64, cells: &[u8]| {
        let many = write_many(&of_20(), &[0, number], &[&[0, 0], cells].concat());
        let (pairs, stop) = told_of(&many.expect("its length is right"));
        assert_eq!(pairs, [(1, 0)]);
        stop
    };
    // With a left-over bit: blank, miscounted, beyond, spent.
    for cells in [[0x00, 0x01], [0xff, 0xc1], [0x02, 0x81], [0xc1, 0xc1]] {
        assert_eq!(stop(20, &cells), vec![3]);
        assert_eq!(stop(0, &cells), vec![3]);
    }
    for cells in [[0x00, 0x00], [0xff, 0xc0], [0x02, 0x80], [0xc1, 0xc0]] {
        assert_eq!(stop(20, &cells), vec![6]);
        assert_eq!(stop(u64::MAX, &cells), vec![6]);
    }
    assert_eq!(stop(19, &[0xff, 0xc0]), vec![15, 2, 0]);
    assert_eq!(stop(19, &[0x02, 0x80]), vec![16, 1]);
    assert_eq!(stop(19, &[0xc1, 0xc0]), vec![5]);
}

#[test]
fn refusals_before_any_write_in_the_order_14_1_3() {
    let beyond = Shape { m: 5, ..small() };
    assert_eq!(refusal_of_all(&beyond, &[0; 65], &[0]), Some(14));
    assert_eq!(refusal_of_all(&small(), &[0; 65], &[0; 65]), Some(14));
    assert_eq!(refusal_of_all(&small(), &[9; 65], &[]), Some(14));
    assert_eq!(refusal_of_all(&small(), &[0; 128], &[0; 128]), Some(14));
    assert_eq!(refusal_of_all(&beyond, &[0; 64], &[0; 64]), Some(1));
    assert_eq!(refusal_of_all(&beyond, &[0; 64], &[0]), Some(1));
    assert_eq!(refusal_of_all(&beyond, &[], &[]), Some(1));
    let form_3 = Shape { form: 3, ..small() };
    assert_eq!(refusal_of_all(&form_3, &[], &[0]), Some(1));
    let of_one_range = Shape { form: 2, ..small() };
    assert_eq!(refusal_of_all(&of_one_range, &[], &[0]), Some(1));
    assert_eq!(refusal_of_all(&small(), &[], &[0]), Some(3));
    assert_eq!(refusal_of_all(&small(), &[4, 4], &[0x43]), Some(3));
    assert_eq!(refusal_of_all(&small(), &[0], &[]), Some(3));
    assert_eq!(refusal_of_all(&small(), &[3, 3], &[0; 3]), Some(3));
    assert_eq!(refusal_of_all(&of_20(), &[3, 3], &[0; 2]), Some(3));
    assert_eq!(refusal_of_all(&of_20(), &[3, 3], &[0; 5]), Some(3));
}

#[test]
fn no_number_to_sixty_four() {
    for count in [0, 1, 2, 63, 64] {
        let numbers: Vec<u64> = (0..count as u64).map(|place| place % 20).collect();
        let many = write_many(&of_20(), &numbers, &vec![0; 2 * count]);
        let many = many.expect("at most 64 numbers");
        assert_eq!((many.fields.len(), many.stop), (count, None));
        assert_eq!(
            refusal_of_all(&of_20(), &numbers, &vec![0; 2 * count + 1]),
            Some(3)
        );
    }
}

#[test]
fn a_stop_at_every_place() {
    for stop in 0..64 {
        let mut numbers = [3; 64];
        numbers[stop] = 4;
        // A spent field behind it is not reached.
        let mut before = [0; 64];
        before[63] = if stop < 63 { 0x4f } else { 0 };
        let many = write_many(&small(), &numbers, &before).expect("its length is right");
        assert_eq!(told_of(&many), (vec![(1, 2); stop], vec![6]));
        assert_eq!(many.cells[..stop], vec![0x03; stop]);
        assert_eq!(many.cells[stop..], before[stop..]);
    }
}

#[test]
fn quarter_after_quarter_until_the_fields_are_spent() {
    for form in [0, 1] {
        let (m, t, v) = (2, 10, 1 << 56);
        let shape = OldShape { m, t, v }.in_form(form);
        let mut layouts = Layouts::default();
        let mut cells = vec![0; 64 * 35];
        for generation in 1..=10 {
            let numbers: Vec<u64> = (1..=64).map(|field| field * generation as u64).collect();
            let many = many::write_many(&shape, &numbers, &cells, &mut layouts);
            let many = many.expect("its length is right");
            assert!(many
                .fields
                .iter()
                .all(|field| field.generation == generation));
            assert_eq!((many.fields.len(), many.stop), (64, None));
            cells = many.cells;
            for (field, number) in cells.chunks(35).zip(numbers) {
                let read = field::read(&shape, field, &mut layouts).expect("it was written");
                assert_eq!(read.number, number);
            }
        }
        let many = many::write_many(&shape, &[0; 64], &cells, &mut layouts);
        let many = many.expect("its length is right");
        assert_eq!((many.fields, many.cells), (vec![], cells));
        assert_eq!(many.stop, Some(Refusal::LastGenerationUsed));
    }
}

/// Single writes in place, up to the first that is refused.
fn single_writes(call: &ManyCall, cells: &mut [u8], layouts: &mut Layouts) -> Told {
    let mut pairs = Vec::new();
    let field_bytes = cells.len() / call.numbers.len().max(1);
    for (place, number) in call.numbers.iter().enumerate() {
        let field = &mut cells[place * field_bytes..(place + 1) * field_bytes];
        match field::write(&call.shape, *number, field, layouts) {
            Ok(written) => {
                field.copy_from_slice(&written.cells);
                pairs.push((written.generation, written.turned));
            }
            Err(refusal) => return (pairs, told_of_stop(refusal)),
        }
    }
    (pairs, Vec::new())
}

/// The made calls that are not refused before any write, and their answers.
fn answered_calls(seeds: Range<u64>) -> Vec<(ManyCall, ManyWritten)> {
    let mut layouts = Layouts::default();
    let calls = seeds.flat_map(many_calls);
    let answered = calls.filter_map(|call| {
        let many = many::write_many(&call.shape, &call.numbers, &call.cells, &mut layouts);
        Some((call, many.ok()?))
    });
    answered.collect()
}

#[test]
fn made_calls_equal_single_writes() {
    let mut layouts = Layouts::default();
    let answered = answered_calls(0..3);
    for (call, many) in &answered {
        let mut cells = call.cells.clone();
        assert_eq!(told_of(many), single_writes(call, &mut cells, &mut layouts));
        assert_eq!(many.cells, cells);
    }
    let stopped = answered.iter().filter(|(_, many)| many.stop.is_some());
    let stopped = stopped.count();
    assert!(stopped > 1_000 && answered.len() - stopped > 1_000);
}

#[test]
fn turned_counts_add_up_to_the_ones_that_came() {
    for (call, many) in answered_calls(0..2) {
        let turned: u64 = many.fields.iter().map(|field| field.turned).sum();
        assert_eq!(turned, ones(&many.cells) - ones(&call.cells));
        let falls = |(before, after): (&u8, &u8)| before & !after != 0;
        assert!(!call.cells.iter().zip(&many.cells).any(falls));
    }
}
