#[path = "streams.rs"]
mod streams;

use second::protocol::{Call, JudgeCall, Limits};

/// The calls of a made stream that judge a field before and after.
pub fn judge_calls(seed: u64) -> Vec<JudgeCall> {
    let of_judging = |call: &Call| match call {
        Call::Judge(call) => Some(call.clone()),
        _ => None,
    };
    let calls = streams::calls(seed, Limits::USUAL);
    calls.iter().filter_map(of_judging).collect()
}
