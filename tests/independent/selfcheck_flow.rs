//! The part of the self-check about `cmm sheet --flow`: docs/COMMAND.md's own examples, sentences that were worked out
//! from that page by hand, and the order in which things are looked at.

use crate::calendar::Time;
use crate::flow_command::{Asked, Stands};
use crate::historian::flow;
use crate::nine_digits::written;
use crate::rng::Rng;
use crate::samples::{good, sample, wrong_reading, INFINITY, MINUS, MOST};
use crate::selfcheck::Checks;
use crate::selfcheck_texts::lines;
use crate::sheet::sheet_text;
use std::collections::BTreeMap;
use std::sync::Arc;

pub fn run(checks: &mut Checks) {
    readings(checks);
    two_ways(checks);
    page_example(checks);
    usage(checks);
    troubles(checks);
    refusals(checks);
    orders(checks);
    sheets(checks);
}

fn readings(checks: &mut Checks) {
    for (pattern, wanted) in [
        (0x453b_8001, "3000.00024"),
        (0x8000_0001, "-1.40129846e-45"),
        (0x7f80_0000, "inf"),
        (0xff80_0000, "-inf"),
        (0x7f80_0001, "nan"),
        (0xffc0_0000, "nan"),
        (0xffff_ffff, "nan"),
        (0xff7f_ffff, "-3.40282347e+38"),
        (0x7f7f_ffff, "3.40282347e+38"),
        (0x453b_9000, "3001"),
        (0x461c_4000, "10000"),
        // ten digits that end in 5: to the even one of two as near
        (0x461c_4020, "10000.0312"),
        (0x461c_4060, "10000.0938"),
        (0x4cbe_bc20, "100000000"),
        (0x4e6e_6b28, "1e+09"),
        (0x5015_02f9, "1e+10"),
        (0x4b80_0000, "16777216"),
        (0x4e7f_ffff, "1.07374176e+09"),
        (0xbdcc_cccd, "-0.100000001"),
        (0xb8d1_b717, "-9.99999975e-05"),
        (0xb8d1_b718, "-0.000100000005"),
        (0xb727_c5ac, "-9.99999975e-06"),
        (0x8080_0000, "-1.17549435e-38"),
        (0xbf80_0000, "-1"),
        (0xc2f6_e979, "-123.456001"),
        (0x8000_0000, "-0"),
        (0x0000_0000, "0"),
    ] {
        checks.same("nine digits", written(pattern).as_str(), wanted);
    }
}

/// The same from the standard library's digits: `%e` with eight after the point, then the rule of `%g`.
fn by_standard_library(pattern: u32) -> String {
    let reading = f32::from_bits(pattern);
    if reading.is_nan() {
        return "nan".to_string();
    }
    if reading.is_infinite() {
        return reading.to_string();
    }
    let scientific = format!("{reading:.8e}");
    let (digits, exponent) = scientific.split_once('e').unwrap();
    let exponent: i32 = exponent.parse().unwrap();
    let cut = |text: &str| {
        let cut = text.trim_end_matches('0').trim_end_matches('.').to_string();
        if text.contains('.') {
            cut
        } else {
            text.to_string()
        }
    };
    if (-4..9).contains(&exponent) {
        return cut(&format!("{reading:.*}", (8 - exponent) as usize));
    }
    let sign = if exponent < 0 { '-' } else { '+' };
    format!("{}e{sign}{:02}", cut(digits), exponent.abs())
}

fn two_ways(checks: &mut Checks) {
    let rng = Rng::new(6, 0);
    for case in 0..60_000 {
        let pattern = if case % 2 == 0 { rng.next() as u32 } else { wrong_reading(&rng, case / 2) };
        checks.same("nine digits, two ways", written(pattern), by_standard_library(pattern));
        if flow(pattern).is_none() && pattern & !MINUS <= INFINITY {
            let read: f32 = written(pattern).parse().unwrap();
            checks.same("no two binary32 look alike", read.to_bits(), pattern);
        }
    }
}

/// Two devices of two intervals; the flow lines are 8, 13, 21 and 26.
fn record(flows: [&str; 4]) -> Vec<u8> {
    let [a, b, c, d] = flows;
    let rest = "ch4=5000 temp=2000 press=101325 status=1";
    let device = |a: &str, b: &str| format!("kind=1 flow_checks=0 ch4_checks=0 flow={a} {rest} flow={b} {rest}");
    lines(&format!("intervals=2 devices=2 mine=0 fuels=0 {} {}", device(a, b), device(c, d)))
}

struct Told {
    output: String,
    said: String,
    status: i32,
}

/// The answer to these options, with these files; the record is on standard input if none of them is `r`.
fn answer(flows: &[&str], files: &[(&str, &[u8])], start: Option<Time>) -> Told {
    let stands = |bytes: &[u8]| Stands::File(Arc::new(bytes.to_vec()));
    let mut all: BTreeMap<String, Stands> =
        files.iter().map(|(name, bytes)| (name.to_string(), stands(bytes))).collect();
    all.entry("none".to_string()).or_insert(Stands::Nothing);
    all.entry("/".to_string()).or_insert(Stands::Directory);
    let record = files.iter().find(|(name, _)| *name == "r").map(|(name, _)| name.to_string());
    let flows = flows.iter().map(|flow| flow.to_string()).collect();
    match (Asked { flows, record, start, files: all }).answer() {
        Ok(sheet) => Told { output: sheet_text(&sheet.figures.numbers()), said: String::new(), status: 0 },
        Err(no) => {
            let status = if no.refusal.is_some() { 1 } else { 2 };
            Told { output: no.refusal.map_or(String::new(), |refusal| refusal.text()), said: no.said, status }
        }
    }
}

fn said(flows: &[&str], files: &[(&str, &[u8])]) -> String {
    answer(flows, files, None).said
}

const START: Time = Time { year: 2026, month: 1, day: 1, hour: 0, minute: 0 };

fn page_example(checks: &mut Checks) {
    let interval = " flow= ch4=1 temp=1 press=50000 status=1".repeat(2_976);
    let text = lines(&format!("intervals=2976 devices=1 mine=0 fuels=0 kind=1 flow_checks=0 ch4_checks=0{interval}"));
    let mut samples = vec![good(0x3f80_0000); 2_976];
    samples[823] = good(MOST + 1);
    let told = answer(&["0=flow.bin"], &[("r", &text), ("flow.bin", &samples.concat())], Some(START));
    let wanted = "cmm: flow.bin: a good sample's reading is out of range: 3000.00024 (device 0, interval 823, \
        2026-01-09T13:45, byte 4115); 0 to 3000 is right, in m3\n";
    checks.same("the page's example", told.said.as_str(), wanted);
    checks.same("its three lines", told.output.as_str(), "refusal=16\ndevice=0\nplace=823\n");
    checks.same("its status", told.status, 1);
}

fn usage(checks: &mut Checks) {
    let text = record([""; 4]);
    let files: &[(&str, &[u8])] = &[("r", &text), ("a", b"")];
    for option in ["", "0", "a", "16=a", "01=a", "00=a", "+1=a", "-1=a", "=a", "x=a", " 0=a", "4294967296=a", "0="] {
        let wanted = format!(
            "cmm sheet: there is no flow '{option}': a device, 0 to 15, and a file are wanted, as 0=flow.bin\nTry \
             'cmm sheet --help'.\n"
        );
        checks.same(option, said(&[option], files), wanted);
    }
    let twice = "cmm sheet: the flow of device 1 is given twice\nTry 'cmm sheet --help'.\n";
    checks.same("a device twice", said(&["1=a", "0=a", "1=b", "x"], files).as_str(), twice);
    let input = "cmm sheet: standard input is wanted twice\nTry 'cmm sheet --help'.\n";
    checks.same("two exports on standard input", said(&["1=-", "0=-"], files).as_str(), input);
    checks.same("record and export on it", said(&["1=-"], &[("-", &text)]).as_str(), input);
    checks.same("each option first", said(&["1=-", "0=-", "0=a"], files).contains("device 0 is given"), true);
    checks.same("its status", answer(&["x"], files, None).status, 2);
}

fn troubles(checks: &mut Checks) {
    let (text, given) = (record([""; 4]), record(["", "", "", "30001"]));
    let lacking = "cmm: r: there is no device 2, whose flow a=b has\n";
    checks.same("a device lacking", said(&["15=c", "2=a=b", "0=none"], &[("r", &text)]).as_str(), lacking);
    let lacking = "cmm: standard input: there is no device 15, whose flow a has\n";
    checks.same("a device lacking", said(&["15=a"], &[("-", &text)]).as_str(), lacking);
    let lacking = "cmm: r: there is no device 3, whose flow standard input has\n";
    checks.same("a device lacking", said(&["3=-"], &[("r", &text), ("-", b"")]).as_str(), lacking);
    let wanted = "cmm: r:26: the flow is given twice: flow=30001 (device 1, interval 1); flow= is right where a has \
        the device's flow\n";
    checks.same("a flow given twice", said(&["1=a"], &[("r", &given)]).as_str(), wanted);
    let told = answer(&["0=-"], &[("r", &record(["7", "8", "", ""])), ("-", b"")], Some(START));
    let wanted = "cmm: r:8: the flow is given twice: flow=7 (device 0, interval 0, 2026-01-01T00:00); flow= is right \
        where standard input has the device's flow\n";
    checks.same("a flow given twice", told.said.as_str(), wanted);
    checks.same("trouble prints nothing", (told.output.as_str(), told.status), ("", 2));
    let wanted = "cmm: none: No such file or directory\n";
    checks.same("no export", said(&["0=none"], &[("r", &text)]).as_str(), wanted);
    checks.same("a directory", said(&["0=/"], &[("r", &text)]).as_str(), "cmm: /: Is a directory\n");
}

fn refusals(checks: &mut Checks) {
    let text = record([""; 4]);
    let right = good(0x3f80_0000);
    for (bytes, lines, wanted) in [
        (vec![], (14, 0), "the export has the wrong length: 0 bytes (device 1)"),
        (vec![0; 9], (14, 0), "the export has the wrong length: 9 bytes (device 1)"),
        (vec![9; 5], (14, 0), "the export has the wrong length: 5 bytes (device 1)"),
        (vec![9; 11], (14, 0), "the export has the wrong length: more than 10 bytes (device 1)"),
        (
            [right, sample(255, INFINITY + 1)].concat(),
            (15, 1),
            "a sample's quality is unknown: 255 (device 1, interval 1, 2026-01-01T00:15, byte 5)",
        ),
        (
            [sample(3, 0), good(INFINITY)].concat(),
            (15, 0),
            "a sample's quality is unknown: 3 (device 1, interval 0, 2026-01-01T00:00, byte 0)",
        ),
        (
            [right, good(MINUS + INFINITY + 1)].concat(),
            (16, 1),
            "a good sample's reading is out of range: nan (device 1, interval 1, 2026-01-01T00:15, byte 5)",
        ),
    ] {
        let right = match lines.0 {
            14 => "10 bytes are right, 5 for each of 2 intervals",
            15 => "0 to 2 is right, for good, uncertain, bad",
            _ => "0 to 3000 is right, in m3",
        };
        let told = answer(&["1=-"], &[("r", &text), ("-", &bytes)], Some(START));
        checks.same(wanted, told.said.as_str(), &format!("cmm: standard input: {wanted}; {right}\n"));
        checks.same(wanted, told.output, format!("refusal={}\ndevice=0\nplace={}\n", lines.0, lines.1));
        checks.same(wanted, told.status, 1);
    }
}

/// Each thing is the matter in turn, together with all that are looked at later.
fn orders(checks: &mut Checks) {
    let with =
        |from: &str, to: &str, flows| String::from_utf8(record(flows)).unwrap().replacen(from, to, 1).into_bytes();
    let (empty, given) = (["", "", "", ""], ["", "", "1", ""]);
    let (bad, good) = ([sample(9, 0), sample(9, 0)].concat(), [good(0), good(0)].concat());
    let kind = with("kind=1", "kind=9", empty);
    for (options, text, piece) in [
        (vec!["2=x", "1=a", "16=x"], with("mine=0", "mine=x", given), "there is no flow '16=x'"),
        (vec!["2=x", "1=a"], with("mine=0", "mine=x", given), "r:3: the line is wrong"),
        (vec!["2=x", "1=a"], with("intervals=2", "intervals=0", given), "the number of intervals"),
        (vec!["2=x", "1=a", "0=none"], with("kind=1", "kind=9", given), "r: there is no device 2"),
        (vec!["1=a", "0=none"], with("kind=1", "kind=9", given), "r:21: the flow is given twice: flow=1"),
        (vec!["1=a", "0=none"], kind.clone(), "cmm: none: No such file"),
        (vec!["1=none", "0=a"], kind.clone(), "cmm: a: a sample's quality"),
        (vec!["1=a", "0=b"], kind.clone(), "cmm: a: a sample's quality"),
        (vec!["1=b", "0=b"], kind.clone(), "r:5: there is no such kind of device"),
        (vec!["1=b"], with("mine=0", "mine=7", empty), "r:3: there is no such mine"),
        (vec!["1=b"], with("press=101325", "press=1", empty), "r:11: the pressure is out of range: press=1"),
    ] {
        let told = said(&options, &[("r", &text), ("a", &bad), ("b", &good)]);
        checks.same(piece, told.contains(piece), true);
    }
}

/// The sheet is that of the record with the flow in its lines.
fn sheets(checks: &mut Checks) {
    let written = record(["10", "", "30000", "0"]);
    let export_0 = [good(0x3f80_0000), sample(2, u32::MAX)].concat();
    let export_1 = [good(MOST), good(MINUS)].concat();
    let wanted = answer(&[], &[("r", &written)], None);
    checks.same("a sheet", (wanted.status, wanted.said.as_str()), (0, ""));
    let both = [("r", &record([""; 4])[..]), ("a", &export_0), ("b", &export_1)];
    checks.same("both flows", answer(&["1=b", "0=a"], &both, None).output, wanted.output.clone());
    let one = [("r", &record(["10", "", "", ""])[..]), ("b", &export_1)];
    checks.same("one flow", answer(&["1=b"], &one, None).output, wanted.output);
}
