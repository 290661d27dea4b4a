//! Made calls on new dumps.

use super::Maker;
use crate::dump::{LARGEST_SERIAL, LONGEST_DUMP};
use crate::newdump::{self, Exported, MOST_LAYOUTS};
use crate::protocol::{Call, Limits, NewDumpCall};

impl Maker {
    pub fn new_dump_call(&mut self) -> Call {
        Call::NewDump(match self.chance.between(1, 54) {
            1..=18 => NewDumpCall::Walk {
                dump: self.new_dump(),
            },
            19..=28 => {
                let dump = self.dump_for_new();
                let due = newdump::moved_to_new(&dump).map_or(dump.len(), |moved| moved.len());
                let output_length = self.output_length_around(due);
                NewDumpCall::MoveToNew {
                    output_length,
                    dump,
                }
            }
            29..=38 => {
                let dump = self.dump_for_old();
                let due = newdump::moved_to_old(&dump).map_or(dump.len(), |moved| moved.len());
                let output_length = self.output_length_around(due);
                NewDumpCall::MoveToOld {
                    output_length,
                    dump,
                }
            }
            39..=44 => self.export_of_a_layout(),
            _ => self.export_of_a_record(),
        })
    }

    fn dump_for_new(&mut self) -> Vec<u8> {
        match self.chance.between(1, 20) {
            1..=10 => self.old_dump_of_few_layouts(),
            11..=14 => self.old_dump_of_many_layouts(),
            // The last record is cut off, behind more layouts than a list holds too.
            15..=16 => {
                let mut dump = self.old_dump_of_many_layouts();
                dump.pop();
                dump
            }
            _ => self.dump(),
        }
    }

    fn dump_for_old(&mut self) -> Vec<u8> {
        match self.chance.between(1, 24) {
            1..=12 => self.new_dump_of_form_0(),
            13 => {
                let dump = self.new_dump_of_form_0();
                self.truncated(dump)
            }
            14..=15 => self.new_dump_of_form_0_but_for_one(),
            _ => self.new_dump(),
        }
    }

    fn export_of_a_layout(&mut self) -> NewDumpCall {
        let shape = self.shape();
        let due = newdump::listed_bytes(&shape).len();
        NewDumpCall::ExportLayout {
            shape,
            output_length: self.output_length_around(due),
        }
    }

    fn export_of_a_record(&mut self) -> NewDumpCall {
        let shape = self.shape();
        let cells = self.cells(&shape);
        let serial = match self.chance.between(1, 12) {
            1 => self.chance.pick(&[LARGEST_SERIAL + 1, u64::MAX]),
            _ => self.serial(),
        };
        let last = MOST_LAYOUTS as u64 - 1;
        let number = match self.chance.between(1, 12) {
            1..=2 => last + 1,
            3 => self.chance.pick(&[127, 256, 1 << 32, 1 << 63, u64::MAX]),
            4..=6 => last,
            _ => self.chance.between(0, last),
        };
        let due = newdump::record_bytes(serial, number, &cells).len();
        let exported = Exported {
            serial,
            number,
            shape,
        };
        NewDumpCall::ExportRecord {
            exported,
            output_length: self.output_length_around(due),
            cells,
        }
    }

    /// The calls of full size before the HEX calls, from the last one back.
    pub fn full_size_new_dump_call(&mut self, place: u64) -> Option<Call> {
        let call = match place {
            0 => NewDumpCall::Walk {
                dump: self.new_dump_of_too_many_bytes(),
            },
            1 => NewDumpCall::Walk {
                dump: self.new_dump_of_length(LONGEST_DUMP),
            },
            2 => self.move_to_new_length(LONGEST_DUMP, 0),
            3 => self.move_to_new_length(LONGEST_DUMP + 1, 1),
            4 => self.move_to_old_length(LONGEST_DUMP, 0),
            5 => self.move_to_old_length(LONGEST_DUMP + 1, 1),
            6 => NewDumpCall::MoveToNew {
                output_length: 0,
                dump: self.dump_of_length(LONGEST_DUMP + 1),
            },
            7 => NewDumpCall::MoveToOld {
                output_length: 0,
                dump: self.new_dump_of_too_many_bytes(),
            },
            8 => NewDumpCall::MoveToNew {
                output_length: 0,
                dump: self.dump_of_length(LONGEST_DUMP),
            },
            9 => NewDumpCall::MoveToNew {
                output_length: self.limits.output,
                dump: self.long_old_dump(LONGEST_DUMP),
            },
            10.. if self.limits == Limits::LARGE => return self.larger_new_dump_call(place - 10),
            _ => return None,
        };
        Some(Call::NewDump(call))
    }

    /// The further ones where a whole dump has room: one byte short of it.
    fn larger_new_dump_call(&mut self, place: u64) -> Option<Call> {
        let call = match place {
            0 => self.move_to_new_length(LONGEST_DUMP, 1),
            1 => self.move_to_old_length(LONGEST_DUMP, 1),
            _ => return None,
        };
        Some(Call::NewDump(call))
    }

    /// One byte too long. Its list is mostly broken too, so that their order decides.
    fn new_dump_of_too_many_bytes(&mut self) -> Vec<u8> {
        let mut dump = self.new_dump_of_length(LONGEST_DUMP + 1);
        if !self.chance.one_in(4) {
            dump[0] = MOST_LAYOUTS as u8 + 1;
        }
        dump
    }

    /// The moved dump's length, and how much of it the output has no room for.
    fn move_to_new_length(&mut self, length: usize, missing: usize) -> NewDumpCall {
        NewDumpCall::MoveToNew {
            output_length: self.limits.output.min((length - missing) as u64),
            dump: self.old_dump_to_move(length),
        }
    }

    fn move_to_old_length(&mut self, length: usize, missing: usize) -> NewDumpCall {
        NewDumpCall::MoveToOld {
            output_length: self.limits.output.min((length - missing) as u64),
            dump: self.new_dump_to_move(length),
        }
    }
}
