#[path = "streams.rs"]
mod streams;

use second::protocol::{Call, Limits, ManyCall};

/// The calls of many numbers in a made stream.
pub fn many_calls(seed: u64) -> Vec<ManyCall> {
    let of_many = |call: &Call| match call {
        Call::Many(call) => Some(call.clone()),
        _ => None,
    };
    let calls = streams::calls(seed, Limits::USUAL);
    calls.iter().filter_map(of_many).collect()
}
