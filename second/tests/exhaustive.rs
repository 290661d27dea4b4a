//! Goes through every buffer of small fields and holds reading and writing
//! against a table made by listing the patterns one by one in the document's
//! order, without the formula for ranks.

#[path = "common/listed_field.rs"]
mod listed_field;
#[path = "common/listed_writes.rs"]
mod listed_writes;

use listed_field::{every_buffer, fields, is_blank, Field};
use second::field::{self, Written};
use second::layout::Layouts;
use second::refusal::Refusal;

impl Field {
    /// The number that the list has for the groups as cells of a generation.
    fn listed_number(&self, generation: usize, groups: &[u64]) -> Option<u64> {
        let pattern = match generation {
            1 => groups.to_vec(),
            _ => self.unerased(groups),
        };
        let mut listed = self.listed[generation - 1].iter();
        let place = listed.position(|other| *other == pattern);
        place.map(|place| place as u64)
    }

    /// In form 2 a number is out of range by the generation that takes it, so that there
    /// has to be one.
    fn write_due(&self, cells: &[u8], number: u64) -> Result<Written, Refusal> {
        self.groups(cells).ok_or(Refusal::WrongBytes)?;
        if self.shape.form < 2 && number >= self.range(1) {
            return Err(Refusal::NumberOutOfRange);
        }
        let generation = self.generation_due(cells)?;
        if number >= self.range(generation) {
            return Err(Refusal::NumberOutOfRange);
        }
        Ok(self.written_at(generation, cells, number))
    }
}

fn check_writes(field: &Field, cells: &[u8], layouts: &mut Layouts) {
    for number in 0..=field.longest_range() {
        let written = field::write(&field.shape, number, cells, layouts);
        assert_eq!(written, field.write_due(cells, number));
        let written = match written {
            Ok(written) => written,
            Err(_) => continue,
        };
        let mut bytes = cells.iter().zip(&written.cells);
        assert!(bytes.all(|(before, after)| before & !after == 0));
        let read_back = field::read(&field.shape, &written.cells, layouts)
            .map(|reading| (reading.generation, reading.number));
        assert_eq!(read_back, Ok((written.generation, number)));
    }
}

#[test]
fn every_buffer_of_small_fields() {
    let mut layouts = Layouts::default();
    for listed in fields() {
        let (shape, counts) = &listed;
        let granted = layouts
            .grant(shape, 256)
            .map(|layout| layout.counts().to_vec());
        assert_eq!(granted, Ok(counts.to_vec()));
        let field = Field::new(&listed);
        for cells in every_buffer(field.bytes()) {
            let due = field.reading_due(&cells);
            assert_eq!(field::read(shape, &cells, &mut layouts), due, "{:?}", cells);
            if due.is_ok() || is_blank(&cells) {
                check_writes(&field, &cells, &mut layouts);
            } else {
                for number in [0, field.longest_range()] {
                    let refused = field::write(shape, number, &cells, &mut layouts);
                    assert_eq!(refused, field.write_due(&cells, number));
                }
            }
        }
    }
}

/// Whether the reading of a buffer is refused with 15 or 16, each of which has to be true
/// of the buffer and to carry what its groups say.
fn is_refused_rightly(field: &Field, cells: &[u8], layouts: &mut Layouts) -> bool {
    let groups = field.groups(cells).expect("no left-over bit is set");
    match field::read(&field.shape, cells, layouts) {
        Err(Refusal::Miscounted {
            generation,
            unerased,
        }) => {
            assert!(generation > 1);
            assert!(field.points_to(generation, &groups));
            assert_eq!(unerased, field.unerased(&groups).len());
            assert_ne!(unerased, field.counts[generation - 1]);
            true
        }
        Err(Refusal::Beyond { generation }) => {
            assert!(field.points_to(generation, &groups));
            let number = field.listed_number(generation, &groups);
            assert!(number.expect("a pattern is on the places") >= field.range(generation));
            true
        }
        _ => false,
    }
}

/// Two refusals are there now where there was one, for cells that are no number of any
/// generation. Of those, blank cells of forms 1 and 2 are refused before.
#[test]
fn buffers_that_stand_for_no_number_are_miscounted_or_beyond() {
    let mut layouts = Layouts::default();
    for listed in fields() {
        let field = Field::new(&listed);
        let sound = every_buffer(field.bytes()).filter(|cells| field.groups(cells).is_some());
        for cells in sound.filter(|cells| field.shape.form == 0 || !is_blank(cells)) {
            let is_refused = is_refused_rightly(&field, &cells, &mut layouts);
            assert_eq!(is_refused, !field.readable.contains_key(&cells));
        }
    }
}

#[test]
fn buffers_of_another_byte_count_are_refused() {
    let mut layouts = Layouts::default();
    for listed in fields() {
        let field = Field::new(&listed);
        for count in (0..5).filter(|count| *count != field.bytes()) {
            let cells = vec![0; count];
            let read = field::read(&field.shape, &cells, &mut layouts);
            assert_eq!(read, Err(Refusal::WrongBytes));
            let written = field::write(&field.shape, 0, &cells, &mut layouts);
            assert_eq!(written, Err(Refusal::WrongBytes));
        }
    }
}
