//! The numbers of a dump, as a collector written in Rust takes them: it walks the dump on standard input and prints a line
//! for each field, `serial generation number left` or `serial refused N`. The exit status is 0 where the listing is whole: it
//! ends in `records N`, and no `stopped` line is before it.
//!
//!     make archive
//!     tools/rustc examples/collector.rs -o target/collector
//!     tools/run-c target/collector <samples/drives.dump
//!
//! The archive is for x86-64; tools/rustc is `rustc -O -L target/staticlib`.
//! include/gorvlime.h tells what each number of an answer means.

#![no_main]

use std::io::{self, Read};

mod gorvlime {
    /// The numbers of a row.
    pub const ROW: usize = 11;

    #[repr(C)]
    pub struct Walked {
        pub refusal: u64,
        pub offset: u64,
        pub rows: u64,
        pub next: u64,
        pub ended: u64,
    }

    #[link(name = "gorvlime", kind = "static")]
    extern "C" {
        fn gorvlime_walk(dump: *const u8, dump_count: usize, at: usize, rows: *mut u64, rows_count: usize) -> Walked;
    }

    pub fn walk(dump: &[u8], at: usize, rows: &mut [u64]) -> Walked {
        // A slice's pointer is never null, and the call keeps to the counts and holds on to neither.
        unsafe { gorvlime_walk(dump.as_ptr(), dump.len(), at, rows.as_mut_ptr(), rows.len()) }
    }
}

/// A row is serial, m, t, v, start, length, refused, generation, number, left, unerased.
fn print_field(row: &[u64]) {
    match (row[6], &row[7..10]) {
        (0, [generation, number, left]) => println!("{} {} {} {}", row[0], generation, number, left),
        (refused, _) => println!("{} refused {}", row[0], refused),
    }
}

/// Whether the listing is whole.
fn list(dump: &[u8]) -> bool {
    let mut rows = [0u64; 64 * gorvlime::ROW];
    let mut at = 0;
    let mut records = 0;
    loop {
        let walked = gorvlime::walk(dump, at, &mut rows);
        rows.chunks(gorvlime::ROW).take(walked.rows as usize).for_each(print_field);
        records += walked.rows;
        at = walked.next as usize;
        match walked.refusal {
            0 if walked.ended == 0 => continue,
            0 => {}
            7 => println!("stopped 7 at {}", walked.offset),
            refusal => {
                println!("refused {}", refusal);
                return false;
            }
        }
        println!("records {}", records);
        return walked.refusal == 0;
    }
}

/// C's `main`, since this program has none of Rust's.
#[no_mangle]
pub extern "C" fn main() -> i32 {
    let mut dump = Vec::new();
    io::stdin().read_to_end(&mut dump).expect("standard input can be read");
    i32::from(!list(&dump))
}
