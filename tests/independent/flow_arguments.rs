//! The words of `cmm sheet --flow`: in any order that options may have, and options that are none.

use crate::flow_command::Asked;
use crate::rng::Rng;

/// The same device with another file.
pub fn twin(option: &str) -> String {
    format!("{}=another.bin", option.split('=').next().unwrap())
}

/// No device and file, or a device that there cannot be.
pub fn wrong_option(rng: &Rng, options: &[String]) -> String {
    let heads = [
        "16=", "00=", "01=", "015=", "+1=", "-1=", " 1=", "1 =", "x=", "0x1=", "1.0=", "=", "==", "256=", "65536=",
        "4294967296=", "18446744073709551616=", "1e0=", "%s%n=", "0,1=", "100=", "1:",
    ];
    let whole = ["", "0", "15", "=", "flow.bin", "0:flow.bin", "-", "0=", "15=", "1-", "%d"];
    if rng.chance(3) {
        return rng.pick(&whole).to_string();
    }
    let file = options[0].split_once('=').map_or("", |(_, file)| file);
    format!("{}{file}", rng.pick(&heads))
}

/// The words in any order that options may have, those of `--flow` in their own.
pub fn arguments(rng: &Rng, asked: &Asked) -> Vec<String> {
    let word = |text: &str| text.to_string();
    let mut parts: Vec<Vec<String>> = asked.flows.iter().map(|flow| flow_words(rng, flow)).collect();
    if let Some(start) = asked.start {
        let start =
            if rng.chance(2) { vec![word("--start"), start.text()] } else { vec![format!("--start={}", start.text())] };
        parts.insert(rng.size(0, parts.len()), start);
    }
    let record: Vec<String> = asked.record.iter().cloned().collect();
    match rng.below(4) {
        0 => parts.push([vec![word("--")], record].concat()),
        1 => parts.push(record),
        2 => parts.insert(0, record),
        _ => parts.insert(rng.size(0, parts.len()), record),
    }
    parts.concat()
}

/// An option's name may be shortened, as getopt_long has it.
fn flow_words(rng: &Rng, flow: &str) -> Vec<String> {
    match rng.below(8) {
        0..=2 => vec![format!("--flow={flow}")],
        3 => vec![rng.pick(&["--f", "--fl", "--flo"]).to_string(), flow.to_string()],
        _ => vec!["--flow".to_string(), flow.to_string()],
    }
}
