//! Two fields as one: examples and the order of the refusals.

#[path = "common/octets.rs"]
mod octets;

use octets::octets;
use second::field::Written;
use second::layout::Layouts;
use second::pairs::{self, PairReading, PairShape, PairWritten};
use second::refusal::Refusal;

/// Two fields of list 5, 3.
fn of_20(form: u64) -> PairShape {
    PairShape {
        form,
        m: 2,
        t: [2, 2],
        v: [20, 20],
    }
}

/// Lists 4, 3, 2 and 3, 2, a byte each.
fn of_4(form: u64) -> PairShape {
    PairShape {
        form,
        m: 2,
        t: [3, 2],
        v: [4, 4],
    }
}

fn read(pair: &PairShape, first: &str, second: &str) -> Result<PairReading, Refusal> {
    let cells = [octets(first), octets(second)];
    pairs::read(pair, [&cells[0], &cells[1]], &mut Layouts::default())
}

fn write(pair: &PairShape, cells: [&str; 2], number: u64) -> Result<PairWritten, Refusal> {
    let cells = cells.map(octets);
    pairs::write(
        pair,
        number,
        [&cells[0], &cells[1]],
        &mut Layouts::default(),
    )
}

fn reading(number: u64, left: usize) -> Result<PairReading, Refusal> {
    Ok(PairReading { number, left })
}

/// The field, what it answers and its cells.
fn written(field: usize, told: (usize, u64), cells: &str) -> Result<PairWritten, Refusal> {
    let (generation, turned) = told;
    let cells = octets(cells);
    Ok(PairWritten {
        field,
        written: Written {
            generation,
            turned,
            cells,
        },
    })
}

fn refused<T>(number: u8) -> Result<T, u8> {
    Err(number)
}

fn number_of<T>(outcome: Result<T, Refusal>) -> Result<T, u8> {
    outcome.map_err(Refusal::number)
}

#[test]
fn from_blank_until_both_are_spent() {
    let pair = &of_20(1);
    assert_eq!(
        write(pair, ["00 00", "00 00"], 7),
        written(0, (1, 1), "08 00")
    );
    assert_eq!(
        write(pair, ["08 00", "00 00"], 19),
        written(0, (2, 5), "EC 80")
    );
    assert_eq!(
        write(pair, ["EC 80", "00 00"], 0),
        written(1, (1, 1), "00 80")
    );
    assert_eq!(
        write(pair, ["EC 80", "00 80"], 13),
        written(1, (2, 5), "D8 C0")
    );
    assert_eq!(read(pair, "EC 80", "D8 C0"), reading(13, 0));
    assert_eq!(number_of(write(pair, ["EC 80", "D8 C0"], 1)), refused(5));
}

#[test]
fn fields_of_form_0() {
    let pair = &of_20(0);
    assert_eq!(read(pair, "00 00", "00 00"), reading(0, 4));
    assert_eq!(read(pair, "04 00", "00 00"), reading(7, 3));
    assert_eq!(
        write(pair, ["00 40", "00 00"], 5),
        written(0, (2, 4), "C8 C0")
    );
    assert_eq!(
        write(pair, ["C2 C0", "00 00"], 0),
        written(1, (1, 2), "02 40")
    );
    // A used second beside a first that is not spent: 19 and 1 are 20.
    assert_eq!(
        write(pair, ["00 00", "00 40"], 0),
        written(0, (1, 2), "02 40")
    );
    assert_eq!(read(pair, "02 40", "00 40"), reading(0, 2));
    assert_eq!(number_of(write(pair, ["C1 C0", "C1 C0"], 5)), refused(5));
    // A 0 on blank cells leaves them blank.
    assert_eq!(
        write(pair, ["00 00", "00 00"], 0),
        written(0, (1, 0), "00 00")
    );
}

#[test]
fn a_blank_field_of_form_1() {
    let pair = &of_20(1);
    // A blank second counts as 0, a blank first has no reading.
    assert_eq!(read(pair, "08 00", "00 00"), reading(7, 3));
    assert_eq!(read(pair, "00 00", "08 00"), Err(Refusal::Blank));
    assert_eq!(read(pair, "00 00", "00 00"), Err(Refusal::Blank));
    // Writing goes on: 6 and 7 are 13.
    assert_eq!(
        write(pair, ["00 00", "08 00"], 13),
        written(0, (1, 1), "04 00")
    );
}

#[test]
fn unequal_ranges_come_before_all_else() {
    let beyond = PairShape {
        form: 9,
        m: 9,
        t: [0, 0],
        v: [20, 21],
    };
    for pair in [
        beyond,
        PairShape {
            v: [20, 21],
            ..of_20(0)
        },
    ] {
        assert_eq!(number_of(read(&pair, "", "00 41")), refused(18));
        assert_eq!(number_of(write(&pair, ["00 40", "00 00"], 5)), refused(18));
        assert_eq!(number_of(write(&pair, ["00 40", "00 00"], 99)), refused(18));
    }
    // Equal ones may be out of bounds.
    let pair = PairShape {
        v: [1, 1],
        ..of_20(0)
    };
    assert_eq!(number_of(read(&pair, "", "")), refused(1));
}

#[test]
fn refusals_of_the_first_field_come_before_those_of_the_second() {
    let second_beyond = PairShape {
        t: [2, 17],
        ..of_20(0)
    };
    for pair in [of_20(0), second_beyond] {
        for second in ["", "00 41", "02 80", "FF C0"] {
            assert_eq!(number_of(read(&pair, "00", second)), refused(3));
            assert_eq!(number_of(read(&pair, "00 41", second)), refused(3));
            assert_eq!(number_of(read(&pair, "FF C0", second)), refused(15));
            assert_eq!(number_of(read(&pair, "02 80", second)), refused(16));
            assert_eq!(number_of(write(&pair, ["00", second], 20)), refused(3));
            assert_eq!(number_of(write(&pair, ["00 40", second], 20)), refused(6));
            assert_eq!(number_of(write(&pair, ["02 80", second], 20)), refused(6));
            assert_eq!(number_of(write(&pair, ["FF C0", second], 20)), refused(6));
            assert_eq!(number_of(write(&pair, ["02 80", second], 5)), refused(16));
            assert_eq!(number_of(write(&pair, ["FF C0", second], 5)), refused(15));
        }
    }
    let form_1 = PairShape {
        t: [2, 17],
        ..of_20(1)
    };
    assert_eq!(number_of(read(&form_1, "00 00", "00 00")), refused(11));
}

#[test]
fn refusals_of_the_second_field_come_while_the_first_is_written() {
    let pair = of_20(0);
    // Blank, used and spent.
    for first in ["00 00", "00 40", "C1 C0"] {
        assert_eq!(number_of(write(&pair, [first, "00"], 5)), refused(3));
        assert_eq!(number_of(write(&pair, [first, "00 41"], 5)), refused(3));
        assert_eq!(number_of(write(&pair, [first, "FF C0"], 5)), refused(15));
        assert_eq!(number_of(write(&pair, [first, "02 80"], 5)), refused(16));
        assert_eq!(number_of(read(&pair, first, "02 80")), refused(16));
        for t in [0, 1, 17, u64::MAX] {
            let pair = PairShape { t: [2, t], ..pair };
            assert_eq!(number_of(write(&pair, [first, "00 00"], 5)), refused(1));
            assert_eq!(number_of(read(&pair, first, "00")), refused(1));
        }
    }
    assert_eq!(number_of(write(&pair, ["02 80", "00"], 20)), refused(6));
    let unlike = PairShape {
        t: [3, 2],
        ..of_4(0)
    };
    assert_eq!(number_of(read(&unlike, "4F", "00 00")), refused(3));
}

#[test]
fn forms_that_no_pair_has() {
    for form in [2, 3, 4, u64::MAX] {
        assert_eq!(number_of(read(&of_20(form), "00", "00")), refused(1));
        assert_eq!(
            number_of(write(&of_20(form), ["00 00", "00 00"], 20)),
            refused(1)
        );
    }
}

#[test]
fn fields_of_unequal_length() {
    let pair = &of_4(1);
    assert_eq!(write(pair, ["00", "00"], 3), written(0, (1, 1), "04"));
    // The numbers of spent cells that were written one by one.
    let mut cells = ["00".to_string(), "00".to_string()];
    for number in [3, 1, 2, 0, 3] {
        let told = write(pair, [&cells[0], &cells[1]], number).expect("one is not spent");
        let hex: Vec<String> = told
            .written
            .cells
            .iter()
            .map(|byte| format!("{:02X}", byte))
            .collect();
        cells[told.field] = hex.join(" ");
        let read = read(pair, &cells[0], &cells[1]).expect("it was written");
        assert_eq!(read.number, number);
    }
    assert_eq!(
        number_of(write(pair, [&cells[0], &cells[1]], 1)),
        refused(5)
    );
}
