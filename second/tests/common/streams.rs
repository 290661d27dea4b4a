//! Made streams, each made once for all tests of a file.

use second::protocol::{Call, Limits};
use second::stream::Maker;
use std::sync::{Arc, Mutex};

/// Two rounds, each of which ends with the calls of full size.
const CALLS: usize = 40_000;

/// What a stream is made by, and its calls.
type Made = (u64, Limits, Arc<Vec<Call>>);

static ALL_MADE: Mutex<Vec<Made>> = Mutex::new(Vec::new());

pub fn calls(seed: u64, limits: Limits) -> Arc<Vec<Call>> {
    let mut all_made = ALL_MADE.lock().expect("every stream can be made");
    let mut known = all_made.iter();
    if let Some((_, _, made)) = known.find(|made| (made.0, made.1) == (seed, limits)) {
        return Arc::clone(made);
    }
    let mut maker = Maker::new(seed, limits);
    let made: Vec<Call> = (0..CALLS).map(|_| maker.call()).collect();
    let made = Arc::new(made);
    all_made.push((seed, limits, Arc::clone(&made)));
    made
}
