//! New dumps for made calls, whole, damaged and of full size, and old ones of few
//! layouts or of as many as a list holds, to be moved.

use super::ranges::ranges_given;
use super::shapes::{BOUNDARY_NUMBERS, PUBLISHED};
use super::Maker;
use crate::dump::{self, LARGEST_SERIAL};
use crate::layout::{self, OldShape, Shape, GENERATION_BOUNDS};
use crate::newdump::{self, MOST_LAYOUTS};
use crate::refusal::Refusal;

/// Cell bytes of the record that brings a dump to its length, so many or more: their
/// count is a number of three bytes.
const FILLING: usize = 20_000;

/// One or more of these are the number of a listed layout if only their low 8 or 32
/// bits are looked at.
const NUMBERS_BEYOND: [u64; 8] = [63, 64, 127, 128, 256, 257, 1 << 32, LARGEST_SERIAL];

/// "T outside 2 to 16", some of them within if only their low 8 or 32 bits are looked at.
const GENERATIONS_BEYOND: [u64; 8] = [
    0,
    1,
    17,
    18,
    258,
    (1 << 32) + 3,
    LARGEST_SERIAL - 1,
    LARGEST_SERIAL,
];

impl Maker {
    pub fn new_dump(&mut self) -> Vec<u8> {
        let shapes = self.listed_shapes();
        match self.chance.between(1, 116) {
            1..=2 => Vec::new(),
            3..=6 => {
                let count = self.chance.index(24);
                self.chance.bytes(count)
            }
            7..=44 => self.whole_new_dump(&shapes),
            45..=54 => {
                let dump = self.whole_new_dump(&shapes);
                self.truncated(dump)
            }
            55..=64 => {
                let dump = self.whole_new_dump(&shapes);
                self.corrupted(dump)
            }
            65..=78 => self.new_dump_with_an_odd_list(&shapes),
            79..=90 => self.new_dump_with_an_odd_record(&shapes),
            91..=96 => self.new_dump_with_a_number_beyond(&shapes),
            97..=100 => self.new_dump_of_too_many_layouts(),
            _ => self.new_dump_with_a_fault_of_ranges(shapes),
        }
    }

    /// A new dump that moves to old if it is as short as it mostly is.
    pub fn new_dump_of_form_0(&mut self) -> Vec<u8> {
        let shapes = self.listed_shapes_of_form_0();
        self.whole_new_dump(&shapes)
    }

    /// A whole new dump with one layout, used or not, that keeps it from being moved.
    pub fn new_dump_of_form_0_but_for_one(&mut self) -> Vec<u8> {
        let mut shapes = self.listed_shapes_of_form_0();
        let other = match self.chance.one_in(3) {
            true => self.small_shape().in_form(1),
            false => self.shape_of_small_ranges(),
        };
        let place = self.chance.index(MOST_LAYOUTS.min(shapes.len() + 1));
        shapes.truncate(MOST_LAYOUTS - 1);
        shapes.insert(place, other);
        self.whole_new_dump(&shapes)
    }

    fn listed_shapes_of_form_0(&mut self) -> Vec<Shape> {
        let mut shapes = self.listed_shapes();
        for shape in shapes.iter_mut() {
            shape.form = 0;
            shape.ranges.truncate(1);
        }
        shapes
    }

    /// Few layouts mostly, equal ones among them; at times as many as a list holds.
    fn listed_shapes(&mut self) -> Vec<Shape> {
        let count = match self.chance.between(1, 40) {
            1..=2 => 0,
            3..=14 => 1,
            15 => MOST_LAYOUTS - 1,
            16..=17 => MOST_LAYOUTS,
            _ => 2 + self.chance.index(4),
        };
        let mut shapes: Vec<Shape> = Vec::new();
        for _ in 0..count {
            let shape = match shapes.is_empty() || !self.chance.one_in(4) {
                true => self.listed_shape(),
                false => shapes[self.chance.index(shapes.len())].clone(),
            };
            shapes.push(shape);
        }
        shapes
    }

    /// One that a list holds as it is: nine bytes hold no number above the largest serial.
    fn listed_shape(&mut self) -> Shape {
        let mut shape = self.shape();
        while !can_be_listed(&shape) {
            shape = self.shape();
        }
        let numbers = [&mut shape.form, &mut shape.m, &mut shape.t].into_iter();
        for number in numbers.chain(&mut shape.ranges) {
            *number = LARGEST_SERIAL.min(*number);
        }
        shape
    }

    fn whole_new_dump(&mut self, shapes: &[Shape]) -> Vec<u8> {
        let mut dump = newdump::list_bytes(shapes);
        dump.extend(self.new_records(shapes, 5));
        dump
    }

    /// None where no layout is listed.
    fn new_records(&mut self, shapes: &[Shape], most: usize) -> Vec<u8> {
        let count = match shapes {
            [] => 0,
            _ => self.chance.index(most + 1),
        };
        (0..count).flat_map(|_| self.new_record(shapes)).collect()
    }

    /// A whole record, its cells readable or not. The last layout is used as often as
    /// all others together.
    fn new_record(&mut self, shapes: &[Shape]) -> Vec<u8> {
        let number = match self.chance.one_in(2) {
            true => shapes.len() - 1,
            false => self.chance.index(shapes.len()),
        };
        let cells = self.cells(&shapes[number]);
        newdump::record_bytes(self.serial(), number as u64, &cells)
    }

    fn new_dump_with_an_odd_list(&mut self, shapes: &[Shape]) -> Vec<u8> {
        let numbers = listed_numbers_of(shapes);
        // The count decides how the rest is read.
        let odd = match self.chance.one_in(3) {
            true => 0,
            false => self.chance.index(numbers.len()),
        };
        let mut dump = self.numbers_with_an_odd_one(&numbers, odd);
        dump.extend(self.new_records(shapes, 2));
        dump
    }

    /// The serial, the layout number or n is odd.
    fn new_dump_with_an_odd_record(&mut self, shapes: &[Shape]) -> Vec<u8> {
        let mut dump = newdump::list_bytes(shapes);
        dump.extend(self.new_records(shapes, 1));
        let number = self.chance.index(shapes.len().max(1));
        let cells = match shapes.get(number) {
            Some(shape) => self.cells(shape),
            None => Vec::new(),
        };
        let numbers = [self.serial(), number as u64, cells.len() as u64];
        let odd = self.chance.index(numbers.len());
        dump.extend(self.numbers_with_an_odd_one(&numbers, odd));
        dump.extend(cells);
        dump.extend(self.new_records(shapes, 1));
        dump
    }

    /// A record whose layout is not listed, otherwise whole.
    fn new_dump_with_a_number_beyond(&mut self, shapes: &[Shape]) -> Vec<u8> {
        let mut dump = newdump::list_bytes(shapes);
        dump.extend(self.new_records(shapes, 2));
        let count = shapes.len() as u64;
        let number = match self.chance.one_in(2) {
            true => count,
            false => self.chance.pick(&NUMBERS_BEYOND).max(count),
        };
        let cells = self.chance.index(3);
        let cells = self.chance.bytes(cells);
        dump.extend(newdump::record_bytes(self.serial(), number, &cells));
        dump.extend(self.new_records(shapes, 1));
        dump
    }

    fn new_dump_of_too_many_layouts(&mut self) -> Vec<u8> {
        let count = self.chance.pick(&[65, 65, 66, 127, 128]);
        let shape = self.listed_shape();
        self.whole_new_dump(&vec![shape; count])
    }

    /// A layout of form 2 whose t breaks the list, used or not, that has a range more or
    /// less than t says, or whose ranges are odd or cut off.
    fn new_dump_with_a_fault_of_ranges(&mut self, shapes: Vec<Shape>) -> Vec<u8> {
        let mut shapes = shapes;
        shapes.truncate(MOST_LAYOUTS - 1);
        let place = self.chance.index(shapes.len() + 1);
        let mut faulty = self.shape_of_small_ranges();
        match self.chance.between(1, 8) {
            1..=3 => {
                faulty.t = self.chance.pick(&GENERATIONS_BEYOND);
                if self.chance.one_in(2) {
                    faulty.ranges.resize(ranges_given(faulty.t), 2);
                }
            }
            4 => faulty.ranges.push(2),
            5 => faulty.ranges.truncate(faulty.ranges.len() - 1),
            _ => {
                shapes.push(faulty);
                return self.new_dump_with_an_odd_last_layout(&shapes);
            }
        }
        shapes.insert(place, faulty);
        self.whole_new_dump(&shapes)
    }

    /// One of its ranges is odd, or the dump ends before it.
    fn new_dump_with_an_odd_last_layout(&mut self, shapes: &[Shape]) -> Vec<u8> {
        let mut numbers = listed_numbers_of(shapes);
        let ranges = shapes.last().map_or(0, |shape| shape.ranges.len());
        let from_last = 1 + self.chance.index(ranges);
        let odd = numbers.len() - from_last;
        if self.chance.one_in(3) {
            numbers.truncate(odd);
            return numbers.into_iter().flat_map(dump::number_bytes).collect();
        }
        let mut dump = self.numbers_with_an_odd_one(&numbers, odd);
        dump.extend(self.new_records(shapes, 2));
        dump
    }

    /// An old dump whose records use few layouts again and again.
    pub fn old_dump_of_few_layouts(&mut self) -> Vec<u8> {
        let shapes = self.similar_shapes();
        let count = self.chance.index(9);
        let mut dump = Vec::new();
        for _ in 0..count {
            let shape = self.chance.pick(&shapes);
            dump.extend(self.small_record(shape));
        }
        dump
    }

    /// Some differ in one number from the one before.
    fn similar_shapes(&mut self) -> Vec<OldShape> {
        let mut shapes = vec![self.shape_of_a_record()];
        for _ in 0..self.chance.index(4) {
            let mut shape = self.chance.pick(&shapes);
            let other = self.chance.pick(&BOUNDARY_NUMBERS).min(LARGEST_SERIAL);
            match self.chance.index(4) {
                0 => shape.m = other,
                1 => shape.t = other,
                2 => shape.v = other,
                _ => shape = self.shape_of_a_record(),
            }
            shapes.push(shape);
        }
        shapes
    }

    /// As many layouts as a list holds, one more or fewer, with some used again.
    pub fn old_dump_of_many_layouts(&mut self) -> Vec<u8> {
        let count = self.chance.pick(&[63, 64, 64, 64, 65, 65, 66]);
        let (m, t) = (self.chance.between(1, 5), self.chance.between(1, 17));
        let first = self.chance.of_any_length(60);
        let shape = |place: u64| OldShape {
            m,
            t,
            v: first + place,
        };
        let mut dump = Vec::new();
        for place in 0..count {
            dump.extend(self.small_record(shape(place)));
            if self.chance.one_in(8) {
                let again = self.chance.between(0, place);
                dump.extend(self.small_record(shape(again)));
            }
        }
        dump
    }

    /// A record for a move, which does not look at the cells.
    fn small_record(&mut self, shape: OldShape) -> Vec<u8> {
        let serial = match self.chance.one_in(4) {
            true => self.serial(),
            false => self.chance.between(0, 200),
        };
        let count = self.chance.index(4);
        dump::record_bytes(serial, shape, &self.chance.bytes(count))
    }

    /// A new dump of exactly this length, of up to 64 layouts.
    pub fn new_dump_of_length(&mut self, length: usize) -> Vec<u8> {
        let mut shapes = self.listed_shapes();
        shapes.push(PUBLISHED.in_form_0());
        shapes.truncate(MOST_LAYOUTS);
        let record = |maker: &mut Maker| maker.new_record(&shapes);
        self.filled_to(length, newdump::list_bytes(&shapes), &[7, 0], record)
    }

    /// An old dump of a few bytes less than this, which it has once it is moved to
    /// new: each layout is used once, so that the list costs more than it saves.
    pub fn old_dump_to_move(&mut self, length: usize) -> Vec<u8> {
        let mut front = Vec::new();
        for place in 0..self.chance.between(0, MOST_LAYOUTS as u64 - 1) {
            let (m, t, v) = (self.chance.between(1, 5), 17, 1_000 + place);
            front.extend(self.small_record(OldShape { m, t, v }));
        }
        let whole = |filling: usize| {
            let record = dump::record_bytes(5, OldShape { m: 2, t: 3, v: 4 }, &vec![0; filling]);
            [&front[..], &record].concat()
        };
        filled_up(length, whole, newdump::moved_to_new)
    }

    /// An old dump of full size whose records use few layouts.
    pub fn long_old_dump(&mut self, length: usize) -> Vec<u8> {
        let shapes = self.similar_shapes();
        let record = |maker: &mut Maker| {
            let shape = maker.chance.pick(&shapes);
            let count = maker.chance.index(64);
            let cells = maker.chance.bytes(count);
            dump::record_bytes(maker.serial(), shape, &cells)
        };
        self.filled_to(length, Vec::new(), &[7, 2, 3, 4], record)
    }

    /// A new dump, as long as said once it is moved to old.
    pub fn new_dump_to_move(&mut self, length: usize) -> Vec<u8> {
        let shapes = self.similar_shapes();
        let listed: Vec<Shape> = shapes.iter().map(|shape| shape.in_form_0()).collect();
        let mut front = newdump::list_bytes(&listed);
        for _ in 0..500 {
            let number = self.chance.index(shapes.len()) as u64;
            let count = self.chance.index(20);
            let cells = self.chance.bytes(count);
            front.extend(newdump::record_bytes(self.serial(), number, &cells));
        }
        let whole = |filling: usize| {
            let record = newdump::record_bytes(5, 0, &vec![0; filling]);
            [&front[..], &record].concat()
        };
        filled_up(length, whole, newdump::moved_to_old)
    }
}

/// The count and the numbers of each layout.
fn listed_numbers_of(shapes: &[Shape]) -> Vec<u64> {
    let mut numbers = vec![shapes.len() as u64];
    numbers.extend(shapes.iter().flat_map(newdump::listed_numbers));
    numbers
}

/// Whether its numbers are one whole layout of a list.
fn can_be_listed(shape: &Shape) -> bool {
    let breaks_the_list = layout::has_t_ranges(shape.form) && !GENERATION_BOUNDS.contains(&shape.t);
    shape.ranges.len() as u64 == shape.ranges_due() && !breaks_the_list
}

/// The dump that comes to this length, by the cells of its last record.
fn filled_up(
    length: usize,
    whole: impl Fn(usize) -> Vec<u8>,
    moved: impl Fn(&[u8]) -> Result<Vec<u8>, Refusal>,
) -> Vec<u8> {
    let short = moved(&whole(FILLING)).expect("it is no longer than a dump");
    whole(FILLING + length - short.len())
}
