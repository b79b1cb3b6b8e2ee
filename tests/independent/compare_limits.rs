//! `cmm_quantify` on rows full of gaps with a lower limit, each limit worked out in exact fractions. Compared as any
//! other call is.

use crate::call::Call;
use crate::compare::Judged;
use crate::compare_calls::ask;
use crate::gaps::lower_limit_by_fractions;
use crate::library::Library;
use crate::quantify::quantify_by;
use crate::{limit_kinds, limit_rows};

/// So many calls have met every kind.
pub const ENOUGH: usize = 4 * limit_rows::EPISODES;

pub fn judge(seed: u64, number: usize, library: &Library) -> Judged {
    let record = limit_rows::generate(seed, number);
    let call = Call::of(&record);
    let answer = quantify_by(&call, lower_limit_by_fractions);
    let difference = ask(seed, number, &call, &answer, library);
    Judged { class: "rows of gaps", kinds: limit_kinds::of_record(&record), difference }
}
