//! Seeded streams of calls: good, boundary and damaged inputs.

mod chance;
mod dumps;
mod exact_sums;
mod fields;
mod hex;
mod hex_damage;
mod judging;
mod many;
mod new_dump_calls;
mod new_dumps;
mod pairs;
mod ranges;
mod resuming;
mod shapes;

use crate::cells;
use crate::dump::{self, LARGEST_SERIAL, LONGEST_DUMP};
use crate::field;
use crate::layout::{Layouts, OldShape, Shape, GROUPS_OFFERED};
use crate::protocol::{Call, Limits};
use chance::Chance;
use ranges::equal_ranges;
use shapes::shape_of_cells;
use std::collections::VecDeque;
use std::io::{self, Write};

/// In each so many calls, the last two walk a dump of full size and one that is
/// a byte too long, and those before them are HEX calls of full size, and before
/// these walks and moves of new dumps.
const CALLS_TO_FULL_SIZE: u64 = 20_000;

/// Makes the calls of one seed.
pub struct Maker {
    chance: Chance,
    limits: Limits,
    layouts: Layouts,
    exact_sums: Vec<OldShape>,
    /// Which of the exact sums is the next to be laid out.
    next_sum: usize,
    calls_made: u64,
    waiting: VecDeque<Call>,
}

pub fn write_stream(
    seed: u64,
    calls: u64,
    limits: Limits,
    stream: &mut impl Write,
) -> io::Result<()> {
    let mut maker = Maker::new(seed, limits);
    for _ in 0..calls {
        stream.write_all(&maker.call().to_bytes())?;
    }
    Ok(())
}

impl Maker {
    pub fn new(seed: u64, limits: Limits) -> Maker {
        let mut layouts = Layouts::default();
        let exact_sums = exact_sums::shapes(&mut layouts.counting);
        Maker {
            chance: Chance::new(seed),
            limits,
            layouts,
            exact_sums,
            next_sum: 0,
            calls_made: 0,
            waiting: VecDeque::new(),
        }
    }

    pub fn call(&mut self) -> Call {
        let calls_to_follow = CALLS_TO_FULL_SIZE - 1 - self.calls_made % CALLS_TO_FULL_SIZE;
        self.calls_made += 1;
        if let Some(call) = self.full_size_call(calls_to_follow) {
            return call;
        }
        loop {
            if let Some(call) = self.waiting.pop_front() {
                return call;
            }
            self.make_calls();
        }
    }

    fn full_size_call(&mut self, calls_to_follow: u64) -> Option<Call> {
        match calls_to_follow {
            0 => Some(self.walk_of_length(LONGEST_DUMP + 1)),
            1 => Some(self.walk_of_length(LONGEST_DUMP)),
            _ => match (calls_to_follow - 2).checked_sub(self.full_size_hex_calls()) {
                None => self.full_size_hex_call(calls_to_follow - 2),
                Some(place) => self.full_size_new_dump_call(place),
            },
        }
    }

    fn make_calls(&mut self) {
        let call = match self.chance.between(1, 422) {
            1..=16 => self.layout_call(),
            17..=42 => self.read_call(),
            43..=64 => self.write_call(),
            65..=69 => return self.make_chain(),
            70..=85 => return self.make_layouts_around_a_sum(),
            86..=89 => return self.make_calls_with_a_form_beyond(),
            90..=107 => self.export_call(),
            108..=149 => Call::Walk { dump: self.dump() },
            150..=154 => self.hex_export_call(),
            155..=178 => self.hex_import_call(),
            179..=222 => self.many_call(),
            223..=226 => return self.make_calls_with_miscounted_ranges(),
            227..=229 => return self.make_writes_around_ranges(),
            230..=277 => self.judge_call(),
            278..=315 => self.resume_call(),
            316..=361 => self.pair_call(),
            362 => return self.make_pair_chain(),
            _ => self.new_dump_call(),
        };
        self.waiting.push_back(call);
    }

    fn walk_of_length(&mut self, length: usize) -> Call {
        Call::Walk {
            dump: self.dump_of_length(length),
        }
    }

    fn layout_call(&mut self) -> Call {
        let shape = self.shape();
        let offered = self.offered(&shape);
        Call::Layout { shape, offered }
    }

    /// Forms 0 and 1 at a range that is a sum of condition b exactly, at one below and at one
    /// above, and form 2 with ranges equal to it. The sums are taken one after the other.
    fn make_layouts_around_a_sum(&mut self) {
        let exact = self.exact_sums[self.next_sum];
        self.next_sum = (self.next_sum + 1) % self.exact_sums.len();
        let offered = GROUPS_OFFERED;
        let ranges = [exact.v - 1, exact.v, exact.v + 1].into_iter();
        let in_both_forms = |v: u64| [0, 1].map(|form| OldShape { v, ..exact }.in_form(form));
        let shapes = ranges.flat_map(in_both_forms);
        for shape in shapes.chain([equal_ranges(exact)]) {
            self.waiting.push_back(Call::Layout { shape, offered });
        }
    }

    fn read_call(&mut self) -> Call {
        let shape = self.shape();
        let cells = self.cells(&shape);
        Call::Read { shape, cells }
    }

    fn write_call(&mut self) -> Call {
        let shape = self.shape();
        let cells = self.cells(&shape);
        let range = self.range_to_meet(&shape, &cells);
        let number = self.number_to_write(range);
        Call::Write {
            shape,
            number,
            cells,
        }
    }

    /// Writes from blank cells to the last generation and past it, each to the
    /// cells that the one before left. In form 0 opening zeros use no generation;
    /// a number out of range, also before them all, or a read in between changes
    /// nothing.
    fn make_chain(&mut self) {
        let shape = self.shape();
        let layout = match self.layouts.grant(&shape, GROUPS_OFFERED) {
            Ok(layout) => layout,
            Err(_) => return,
        };
        let mut cells = vec![0; cells::byte_count(&layout)];
        if self.chance.one_in(3) {
            let range = layout.range(1);
            let number = self.chance.pick(&[range, range + 1, u64::MAX]);
            self.push_write(&shape, number, &cells);
        }
        let opening_zeros = self.chance.index(3);
        for turn in 0..opening_zeros + layout.generations() + 2 {
            let number = match self.chance.between(1, 8) {
                _ if turn < opening_zeros => 0,
                1 => {
                    let range = self.range_to_meet(&shape, &cells);
                    self.number_to_write(range)
                }
                _ => {
                    let range = self.range_due(&shape, &layout, &cells);
                    self.number_in_range(range)
                }
            };
            if self.chance.one_in(4) {
                self.push_read(&shape, &cells);
            }
            self.push_write(&shape, number, &cells);
            if let Ok(written) = field::write(&shape, number, &cells, &mut self.layouts) {
                cells = written.cells;
            }
        }
    }

    /// By one range as in form 1, or by as many as in form 2.
    fn make_calls_with_a_form_beyond(&mut self) {
        let form = self.form_beyond();
        let shape = match self.chance.one_in(2) {
            true => self.shape_of_small_ranges(),
            false => self.small_shape().in_form(1),
        };
        self.make_calls_with_a_fault(&Shape { form, ..shape });
    }

    /// A layout, a read and a write that would be accepted but for the form or for the count
    /// of ranges.
    fn make_calls_with_a_fault(&mut self, shape: &Shape) {
        let of_cells = shape_of_cells(shape);
        let layout = match self.layouts.grant(&of_cells, GROUPS_OFFERED) {
            Ok(layout) => layout,
            Err(_) => return,
        };
        self.waiting.push_back(Call::Layout {
            shape: shape.clone(),
            offered: GROUPS_OFFERED,
        });
        let cells = self.written_cells(&of_cells, &layout);
        self.push_read(shape, &cells);
        let number = self.number_in_range(layout.range(1));
        self.push_write(shape, number, &vec![0; cells.len()]);
    }

    fn push_read(&mut self, shape: &Shape, cells: &[u8]) {
        self.waiting.push_back(Call::Read {
            shape: shape.clone(),
            cells: cells.to_vec(),
        });
    }

    fn push_write(&mut self, shape: &Shape, number: u64, cells: &[u8]) {
        self.waiting.push_back(Call::Write {
            shape: shape.clone(),
            number,
            cells: cells.to_vec(),
        });
    }

    fn export_call(&mut self) -> Call {
        let shape = self.old_shape();
        let cells = self.cells(&shape.in_form_0());
        let serial = match self.chance.between(1, 12) {
            1 => self.chance.pick(&[LARGEST_SERIAL + 1, u64::MAX]),
            _ => self.serial(),
        };
        let record = dump::record_bytes(serial, shape, &cells).len() as u64;
        let output_length = match self.chance.between(1, 16) {
            1..=4 => record - 1,
            5..=9 => record,
            10..=11 => record + 1,
            12..=13 => record + self.chance.between(0, 20),
            14 => 0,
            15 => self.chance.between(0, record),
            _ => self.chance.pick(&[1, 128, 256, Limits::USUAL.output]),
        };
        Call::Export {
            serial,
            shape,
            output_length,
            cells,
        }
    }
}
