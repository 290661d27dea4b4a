#[path = "streams.rs"]
pub mod streams;

use second::protocol::{Call, Limits, NewDumpCall};

/// The calls on new dumps in a made stream.
pub fn new_dump_calls(seed: u64) -> Vec<NewDumpCall> {
    let of_new_dumps = |call: &Call| match call {
        Call::NewDump(call) => Some(call.clone()),
        _ => None,
    };
    let calls = streams::calls(seed, Limits::USUAL);
    calls.iter().filter_map(of_new_dumps).collect()
}
