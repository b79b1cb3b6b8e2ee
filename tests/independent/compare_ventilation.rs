//! `cmm_quantify_ventilation` called directly: number, device and place, figures, and every entry of all lent arrays
//! against the own answer; after an accepted call demand 3, over the row that the library has given.

use crate::compare::{keep, other_number, Judged};
use crate::compare_calls::{write_figures, ACCOUNT, ACCOUNTS_LENGTH};
use crate::image::{Array, Image};
use crate::library::{Function, Library};
use crate::refusal::Refusal;
use crate::rng::Rng;
use crate::vent_call::{VentCall, SLICES};
use crate::vent_calls::{self, Generated};
use crate::vent_exact::unfair;
use crate::vent_kinds::not_as_by;
use crate::vent_lost::Nearest;
use crate::vent_quantify::{quantify_ventilation, VentQuantified};
use crate::{vent_kinds, vent_reading_kinds, vent_wrong_refusals};

/// Wrong programs are told in calls of at most so many entries.
const LONGEST: usize = 256;

pub type Answer = Result<VentQuantified, Refusal>;

/// Kinds of answer that any long run must meet.
pub fn wanted() -> Vec<String> {
    let wrong_slices = SLICES.iter().map(|slice| wrong_length(slice));
    let refusals = [1, 2, 3, 9, 21, 22, 23].map(|number| format!("refusal {number:2}"));
    let readings = [vent_reading_kinds::wanted(), vent_reading_kinds::wanted_of_blocks()].concat();
    let wrong_refusals = vent_wrong_refusals::PROGRAMS.iter().map(|wrong| not_as_by(wrong.name));
    let sizes = WRONG_SIZES.iter().flat_map(|(name, sizes)| sizes.map(|size| wrong_size(name, size)));
    let kinds = refusals.into_iter().chain(sizes).chain(wrong_slices).chain(readings);
    kinds.chain(vent_kinds::wanted()).chain(wrong_refusals).collect()
}

/// N and D that are refused, by refusal 1 and by refusal 2.
const WRONG_SIZES: [(&str, [u32; 3]); 2] = [("N", [0, 35_137, u32::MAX]), ("D", [0, 17, u32::MAX])];

fn wrong_size(name: &str, size: u32) -> String {
    format!("{name} of {size}")
}

/// Of a call that is refused for it.
fn sizes(call: &VentCall, refusal: &Refusal) -> Option<String> {
    let (name, sizes) = WRONG_SIZES.get(refusal.number as usize - 1)?;
    let size = [call.intervals, call.devices][refusal.number as usize - 1];
    sizes.contains(&size).then(|| wrong_size(name, size))
}

fn wrong_length(slice: &str) -> String {
    format!("length of {slice}")
}

/// What the call and the own answer to it show.
pub fn kinds(generated: &Generated, answer: &Answer) -> Vec<String> {
    let mut kinds = match answer {
        Err(refusal) => {
            let mut kinds = vec![format!("refusal {:2}", refusal.number)];
            kinds.extend(sizes(&generated.call, refusal));
            kinds.extend(vent_reading_kinds::of_call(&generated.call, refusal));
            kinds
        }
        Ok(quantified) => vent_kinds::of_sheet(&generated.call, quantified),
    };
    kinds.extend(wrong_refusals(&generated.call, answer).into_iter().map(not_as_by));
    kinds.extend(generated.wrong_slice.map(wrong_length));
    kinds
}

/// Wrong programs for refusals that are told here, of calls of some length whose N, D and lengths are right.
fn wrong_refusals(call: &VentCall, answer: &Answer) -> Vec<&'static str> {
    let right = answer.as_ref().err().copied();
    if right.is_some_and(|refusal| refusal.number <= 3) || call.entries() > LONGEST {
        return vec![];
    }
    vent_wrong_refusals::told_from(call, right)
}

pub fn judge(seed: u64, number: usize, library: &Library, nearest: &Nearest) -> Judged {
    let generated = vent_calls::generate(seed, number);
    let call = &generated.call;
    let answer = quantify_ventilation(call);
    if let Ok(quantified) = &answer {
        nearest.add(number, call, quantified);
    }
    let difference = ask(seed, number, call, &answer, library);
    Judged { class: generated.class, kinds: kinds(&generated, &answer), difference }
}

/// What the library leaves differently than this answer has it; then the call is kept.
fn ask(seed: u64, number: usize, call: &VentCall, answer: &Answer, library: &Library) -> Option<String> {
    // Another stream than the call's own.
    let before = lent(call, &Rng::new(!seed, number as u64));
    let difference = match library.call(Function::Ventilation, &words(call, &before), &before.bytes) {
        Err(trouble) => Some(trouble),
        Ok((given, bytes)) => difference(call, answer, &before, given, &before.with(bytes)),
    };
    difference.map(|difference| {
        let text = format!("{call:?}\n");
        format!("{difference}; {}", keep(number, &[("call", text.as_bytes())]))
    })
}

/// Every array of the call; those that it may write hold something drawn.
fn lent(call: &VentCall, rng: &Rng) -> Image {
    let arrays = vec![
        Array::of("inlet_flow", &call.inlet.flow),
        Array::of("inlet_ppm", &call.inlet.ppm),
        Array::of("inlet_temp", &call.inlet.temp),
        Array::of("inlet_press", &call.inlet.press),
        Array::of("exhaust_flow", &call.exhaust.flow),
        Array::of("exhaust_ppm", &call.exhaust.ppm),
        Array::of("exhaust_temp", &call.exhaust.temp),
        Array::of("exhaust_press", &call.exhaust.press),
        Array::of("status", &call.status),
        Array::of("quantity", &call.quantity),
        Array::of("factor", &call.factor),
        Array::drawn::<u8>(rng, "outcome", call.row),
        Array::drawn::<u64>(rng, "amounts", 13),
        Array::drawn::<i64>(rng, "balances", 2),
        Array::drawn::<u64>(rng, "at", 2),
        Array::drawn::<u64>(rng, "accounts", ACCOUNTS_LENGTH),
    ];
    Image::new(rng, arrays)
}

/// The arguments, as tests/library/serve.c takes them.
fn words(call: &VentCall, image: &Image) -> Vec<u64> {
    let mut words = vec![call.intervals as u64, call.devices as u64];
    for (slice, length) in SLICES.iter().zip(call.lengths()) {
        words.extend([image.start(slice), length as u64]);
    }
    words.extend(["amounts", "balances", "at", "accounts"].map(|name| image.start(name)));
    words
}

fn difference(call: &VentCall, answer: &Answer, before: &Image, given: u64, after: &Image) -> Option<String> {
    let number = answer.as_ref().err().map_or(0, |refusal| refusal.number as u64);
    if given != number {
        return Some(other_number(given, number));
    }
    let different = expected(answer, before).difference(after);
    if different.is_some() || answer.is_err() {
        return different;
    }
    unfair_answer(call, after).map(str::to_string)
}

/// What the lent memory should hold after the call. A refused one writes where the refusal is, and nothing else.
fn expected(answer: &Answer, before: &Image) -> Image {
    let mut image = before.clone();
    match answer {
        Err(refusal) => image.write("at", &[refusal.device, refusal.place]),
        Ok(quantified) => {
            image.write("at", &[0_u64, 0]);
            image.write("outcome", &quantified.outcome);
            write_figures(&mut image, &quantified.figures);
            let numbers: Vec<u64> = quantified.accounts.iter().flat_map(|account| account.numbers()).collect();
            image.write("accounts", &numbers);
        }
    }
    image
}

/// Of nothing but what the library has written: each interval counted or excluded, once; each litre destroyed or in
/// the exhaust, once; and demand 3.
fn unfair_answer(call: &VentCall, after: &Image) -> Option<&'static str> {
    let amounts = after.read::<u64>("amounts");
    let accounts = after.read::<u64>("accounts");
    let own: Vec<&[u64]> = accounts.chunks_exact(ACCOUNT).take(call.devices as usize).collect();
    let is_whole = |account: &&[u64]| account[..10].iter().sum::<u64>() == call.intervals as u64;
    if amounts[2] + amounts[4] != call.entries() as u64 || !own.iter().all(is_whole) {
        return Some("an interval is not counted or excluded, once");
    }
    let mut litres = vec![[amounts[5], amounts[6], amounts[7]]];
    litres.extend(own.iter().map(|account| [account[10], account[11], account[12]]));
    if litres.iter().any(|[inlet, destroyed, exhaust]| destroyed.checked_add(*exhaust) != Some(*inlet)) {
        return Some("a litre is not destroyed or in the exhaust, once");
    }
    unfair(call, &after.read::<u8>("outcome"), after.read::<i64>("balances")[1] as i128)
}
