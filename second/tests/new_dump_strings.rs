//! Every string of up to nine bytes out of four: a whole new dump just where it is
//! put together from a list and records, and else stopped.

use second::dump::Ending;
use second::layout::Layouts;
use second::newdump;
use std::collections::HashSet;

const BYTES: [u8; 4] = [0x00, 0x01, 0x02, 0x80];
const LONGEST: usize = 9;

/// A dump under way, and what it has shown so far.
#[derive(Clone, Default)]
struct Made {
    bytes: Vec<u8>,
    layouts: usize,
    records: usize,
}

impl Made {
    /// Each way of going on with a number: one byte, or some 80 and then 01 or 02.
    /// It comes with its value.
    fn with_a_number(&self) -> Vec<(u64, Made)> {
        let mut ways = Vec::new();
        for longer in 0..LONGEST.saturating_sub(self.bytes.len()) {
            for last in 0..=2 {
                if longer == 0 || last > 0 {
                    let mut made = self.clone();
                    made.bytes.extend(vec![0x80; longer]);
                    made.bytes.push(last as u8);
                    ways.push((last << (7 * longer), made));
                }
            }
        }
        ways
    }

    fn with_a_layout(&self) -> Vec<Made> {
        let mut ways = Vec::new();
        for (form, with_form) in self.with_a_number() {
            for (_, with_m) in with_form.with_a_number() {
                for (t, with_t) in with_m.with_a_number() {
                    ways.extend(with_t.with_ranges(form, t));
                }
            }
        }
        for made in &mut ways {
            made.layouts += 1;
        }
        ways
    }

    /// One range, in form 2 as many as t says, and none that could be listed where it says
    /// another number than 2 to 16.
    fn with_ranges(&self, form: u64, t: u64) -> Vec<Made> {
        let count = match (form, t) {
            (2, 2..=16) => t,
            (2, _) => return Vec::new(),
            _ => 1,
        };
        let mut ways = vec![self.clone()];
        for _ in 0..count {
            let further = ways.iter().flat_map(Made::with_a_number);
            ways = further.map(|(_, made)| made).collect();
        }
        ways
    }

    fn with_a_record(&self) -> Vec<Made> {
        let mut ways = Vec::new();
        for (_, with_serial) in self.with_a_number() {
            let listed = |(number, _): &(u64, Made)| *number < self.layouts as u64;
            for (_, with_layout) in with_serial.with_a_number().into_iter().filter(listed) {
                for (n, made) in with_layout.with_a_number() {
                    ways.extend(made.with_cells(n));
                }
            }
        }
        for made in &mut ways {
            made.records += 1;
        }
        ways
    }

    fn with_cells(&self, n: u64) -> Vec<Made> {
        if n > (LONGEST - self.bytes.len()) as u64 {
            return Vec::new();
        }
        let mut ways = vec![self.clone()];
        for _ in 0..n {
            let with_byte = |made: &Made| {
                BYTES.map(|byte| Made {
                    bytes: [&made.bytes[..], &[byte]].concat(),
                    ..*made
                })
            };
            ways = ways.iter().flat_map(with_byte).collect();
        }
        ways
    }
}

/// All lists, each alone in its dump.
fn lists() -> Vec<Made> {
    let mut whole = Vec::new();
    for (count, made) in Made::default().with_a_number() {
        let mut ways = vec![made];
        for _ in 0..count.min(LONGEST as u64) {
            ways = ways.iter().flat_map(Made::with_a_layout).collect();
        }
        whole.extend(ways);
    }
    whole
}

fn whole_dumps() -> Vec<Made> {
    let mut whole = Vec::new();
    let mut latest = lists();
    while !latest.is_empty() {
        let next = latest.iter().flat_map(Made::with_a_record).collect();
        whole.append(&mut latest);
        latest = next;
    }
    whole
}

fn strings() -> impl Iterator<Item = Vec<u8>> {
    (0..=LONGEST as u32).flat_map(|length| {
        (0..4_u32.pow(length)).map(move |code| {
            let byte = |place: u32| BYTES[(code >> (2 * place) & 3) as usize];
            (0..length).map(byte).collect()
        })
    })
}

#[test]
fn just_the_dumps_that_can_be_put_together_are_whole() {
    let made = whole_dumps();
    let whole: HashSet<&[u8]> = made.iter().map(|made| &made.bytes[..]).collect();
    assert_eq!(whole.len(), made.len());
    assert!(made
        .iter()
        .any(|made| made.records == 1 && made.layouts == 1));
    assert!(made.iter().any(|made| made.layouts == 2));
    let mut layouts = Layouts::default();
    for made in &made {
        let walk = newdump::walk(&made.bytes, &mut layouts);
        assert_eq!(walk.ending, Ending::EndOfDump);
        let found = (walk.listed.len(), walk.records.len());
        assert_eq!(found, (made.layouts, made.records), "{:02x?}", made.bytes);
    }
    for string in strings().filter(|string| !whole.contains(&string[..])) {
        // Refusal 7 is told where the longest whole dump in front of it ends, and at 0
        // where not even a list is.
        let is_whole = |length: &usize| whole.contains(&string[..*length]);
        let offset = (0..string.len()).rev().find(is_whole).unwrap_or(0);
        let ending = newdump::walk(&string, &mut layouts).ending;
        assert_eq!(ending, Ending::Malformed { offset }, "{:02x?}", string);
    }
}
