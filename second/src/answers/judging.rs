//! The line that answers a call to judge a write.

use super::{line, refused};
use crate::judging::{self, Judged};
use crate::layout::Layouts;
use crate::protocol::JudgeCall;

pub fn answer(call: &JudgeCall, layouts: &mut Layouts) -> String {
    let told = match judging::judge(&call.shape, &call.before, &call.after, layouts) {
        Ok(Judged::Yes { number }) => format!("0 1 {}", number),
        Ok(Judged::No) => "0 0".to_string(),
        Err(refusal) => refused(refusal),
    };
    line(&["judge".to_string(), told])
}
