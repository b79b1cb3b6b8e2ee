//! `cmm_quantify` called directly: number, device and place, figures, and every entry of all lent arrays against the
//! own answer; after an accepted call demand 3, over the values that the library has given.

use crate::call::{Call, SLICES};
use crate::compare::{keep, kinds_wanted, other_number, record_kinds, Judged};
use crate::exact::{unfair, Given};
use crate::image::{Array, Image};
use crate::library::{Function, Library};
use crate::quantify::{quantify, Quantified};
use crate::refusal::Refusal;
use crate::refusals::READINGS;
use crate::rng::Rng;
use crate::sheet::Figures;
use crate::{calls, reading_kinds};

/// Each device's account: 13 numbers for each of 16 devices.
pub const ACCOUNT: usize = 13;
pub const ACCOUNTS_LENGTH: usize = 16 * ACCOUNT;

/// Kinds of answer that any long run must meet.
pub fn wanted() -> Vec<String> {
    let wrong_slices = SLICES.iter().map(|slice| wrong_length(slice));
    let refusals = (1..=7).chain([9]).chain(READINGS);
    let readings = [reading_kinds::wanted(), reading_kinds::wanted_of_blocks()].concat();
    kinds_wanted(refusals).into_iter().chain(wrong_slices).chain(readings).collect()
}

fn wrong_length(slice: &str) -> String {
    format!("length of {slice}")
}

pub fn judge(seed: u64, number: usize, library: &Library) -> Judged {
    let generated = calls::generate(seed, number);
    let call = &generated.call;
    let answer = quantify(call);
    let difference = ask(seed, number, call, &answer, library);
    let mut kinds = record_kinds(&answer);
    kinds.extend(answer.as_ref().err().map_or(vec![], |refusal| reading_kinds::of_call(call, refusal)));
    kinds.extend(generated.wrong_slice.map(wrong_length));
    Judged { class: generated.class, kinds, difference }
}

/// What the library leaves differently than this answer has it; then the call is kept.
pub fn ask(seed: u64, number: usize, call: &Call, answer: &Answer, library: &Library) -> Option<String> {
    // Another stream than the call's own.
    let before = lent(call, &Rng::new(!seed, number as u64));
    let difference = match library.call(Function::Quantify, &words(call, &before), &before.bytes) {
        Err(trouble) => Some(trouble),
        Ok((given, bytes)) => difference(call, answer, &before, given, &before.with(bytes)),
    };
    difference.map(|difference| {
        let text = format!("{call:?}\n");
        format!("{difference}; {}", keep(number, &[("call", text.as_bytes())]))
    })
}

/// Every array of the call; those that it may write hold something drawn.
fn lent(call: &Call, rng: &Rng) -> Image {
    let [outcome, flow_used, content_used] = call.rows;
    let arrays = vec![
        Array::of("kinds", &call.kinds),
        Array::of("counts", &call.counts),
        Array::of("positions", &call.positions),
        Array::of("drifts", &call.drifts),
        Array::of("flow", &call.flow),
        Array::of("content", &call.content),
        Array::of("temp", &call.temp),
        Array::of("press", &call.press),
        Array::of("status", &call.status),
        Array::of("quantity", &call.quantity),
        Array::of("factor", &call.factor),
        Array::drawn::<u8>(rng, "outcome", outcome),
        Array::drawn::<u16>(rng, "flow_used", flow_used),
        Array::drawn::<u16>(rng, "content_used", content_used),
        Array::drawn::<u64>(rng, "amounts", 13),
        Array::drawn::<i64>(rng, "balances", 2),
        Array::drawn::<u64>(rng, "at", 2),
        Array::drawn::<u64>(rng, "accounts", ACCOUNTS_LENGTH),
    ];
    Image::new(rng, arrays)
}

/// The arguments, as tests/library/serve.c takes them.
fn words(call: &Call, image: &Image) -> Vec<u64> {
    let mut words = vec![call.intervals as u64, call.devices as u64, call.mine as u64];
    for (slice, length) in SLICES.iter().zip(call.lengths()) {
        words.extend([image.start(slice), length as u64]);
    }
    words.extend(["amounts", "balances", "at", "accounts"].map(|name| image.start(name)));
    words
}

pub type Answer = Result<Quantified, Refusal>;

fn difference(call: &Call, answer: &Answer, before: &Image, given: u64, after: &Image) -> Option<String> {
    let number = answer.as_ref().err().map_or(0, |refusal| refusal.number as u64);
    if given != number {
        return Some(other_number(given, number));
    }
    let different = expected(answer, before).difference(after);
    if different.is_some() || answer.is_err() {
        return different;
    }
    unfair_answer(call, after).map(str::to_string)
}

/// What the lent memory should hold after the call.
fn expected(answer: &Answer, before: &Image) -> Image {
    let mut image = before.clone();
    match answer {
        Err(refusal) => image.write("at", &[refusal.device, refusal.place]),
        Ok(quantified) => {
            image.write("at", &[0_u64, 0]);
            write_rows(&mut image, quantified);
            write_figures(&mut image, &quantified.figures);
            let numbers: Vec<u64> = quantified.accounts.iter().flat_map(|account| account.numbers()).collect();
            image.write("accounts", &numbers);
        }
    }
    image
}

fn write_rows(image: &mut Image, quantified: &Quantified) {
    let rows = &quantified.rows;
    image.write("outcome", &rows.iter().flat_map(|row| row.outcome.clone()).collect::<Vec<u8>>());
    image.write("flow_used", &rows.iter().flat_map(|row| row.flow.clone()).collect::<Vec<u16>>());
    image.write("content_used", &rows.iter().flat_map(|row| row.ch4.clone()).collect::<Vec<u16>>());
}

/// The sheet's figures: those never negative in one array, the balances in another.
pub fn write_figures(image: &mut Image, figures: &Figures) {
    let numbers = figures.numbers();
    let [.., reduction, tonnes, credits] = numbers;
    let amounts: Vec<u64> = numbers[..12].iter().chain([&credits]).map(|&number| number as u64).collect();
    image.write("amounts", &amounts);
    image.write("balances", &[reduction as i64, tonnes as i64]);
}

/// Demand 3, of nothing but what the library has written: the tonnes, and each litre destroyed or uncombusted, once.
fn unfair_answer(call: &Call, after: &Image) -> Option<&'static str> {
    let given = Given {
        outcome: &after.read::<u8>("outcome"),
        flow_used: &after.read::<u16>("flow_used"),
        content_used: &after.read::<u16>("content_used"),
        tonnes: after.read::<i64>("balances")[1] as i128,
    };
    let amounts = after.read::<u64>("amounts");
    let mut litres = vec![[amounts[5], amounts[6], amounts[7]]];
    let accounts = after.read::<u64>("accounts");
    let own = accounts.chunks_exact(ACCOUNT).take(call.devices as usize);
    litres.extend(own.map(|account| [account[10], account[11], account[12]]));
    if litres.iter().any(|[methane, destroyed, uncombusted]| destroyed + uncombusted != *methane) {
        return Some("a litre is not destroyed or uncombusted, once");
    }
    unfair(call, &given)
}
