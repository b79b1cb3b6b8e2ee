//! The part of the self-check about the words of the command: docs/COMMAND.md's own example, and sentences that were
//! worked out from that page by hand.

use crate::calendar::Time;
use crate::report;
use crate::selfcheck::Checks;
use crate::selfcheck_texts::{lines, EXAMPLE};
use crate::words::tell;

pub fn run(checks: &mut Checks) {
    page_example(checks);
    numbers(checks);
    readings(checks);
    wrong_lines(checks);
    line_lengths(checks);
    ends(checks);
    times(checks);
    dates(checks);
}

/// What the command says of this file, or nothing.
fn said(text: &[u8], file: &str, start: Option<Time>) -> String {
    let refusal = report::answer(text, 562_176).err();
    refusal.map_or(String::new(), |refusal| tell(text, refusal).unwrap().sentence(file, start))
}

fn time(year: u32, month: u32, day: u32, hour: u32, minute: u32) -> Time {
    Time { year, month, day, hour, minute }
}

/// The worked example with one piece replaced. Its lines 5 to 14 are quantity, factor, kind, the counts of checks, and
/// the interval's five.
fn edited(from: &str, to: &str) -> Vec<u8> {
    assert!(EXAMPLE.contains(from));
    lines(&EXAMPLE.replacen(from, to, 1))
}

fn page_example(checks: &mut Checks) {
    let interval = " flow=1 ch4=1 temp=1 press=50000 status=1".repeat(2_976);
    // A fuel line and six checks make the flow of interval 823 line 4 + 2 + 3 + 12 + 5 x 823 + 1.
    let check = " at=0 drift=0 at=1 drift=0 at=2 drift=0";
    let fuel = "intervals=2976 devices=1 mine=0 fuels=1 quantity=1 factor=1";
    let head = format!("{fuel} kind=1 flow_checks=3{check} ch4_checks=3{check}");
    let mut text = String::from_utf8(lines(&format!("{head}{interval}"))).unwrap();
    checks.same("nothing is said of a sheet", said(text.as_bytes(), "wrong.record", None), String::new());
    let line = text.match_indices("flow=1\n").nth(823).unwrap().0;
    text.replace_range(line..line + 6, "flow=30001");
    let wanted = "cmm: wrong.record:4137: the flow is out of range: flow=30001 (device 0, interval 823, \
        2026-01-09T13:45); 0 to 30000 is right, in 0.1 m3, or nothing where it is missing\n";
    let start = Some(time(2026, 1, 1, 0, 0));
    checks.same("the page's example", said(text.as_bytes(), "wrong.record", start).as_str(), wanted);
}

fn numbers(checks: &mut Checks) {
    for (from, to, wanted) in [
        ("intervals=1", "intervals=0", "1: the number of intervals is out of range: intervals=0; 1 to 35136 is right"),
        ("devices=1", "devices=17", "2: the number of devices is out of range: devices=17; 1 to 16 is right"),
        ("mine=0", "mine=7", "3: there is no such mine: mine=7; 0 to 1 is right, for underground, surface"),
        (
            "kind=2",
            "kind=0",
            "7: there is no such kind of device: kind=0 (device 0); 1 to 6 is right, for open flare, enclosed flare, \
             engine, boiler, turbine, pipeline injection",
        ),
        (
            "kind=2",
            "kind=6",
            "7: pipeline injection is not for an underground mine: kind=6 (device 0); 1 to 5 is right where mine=0",
        ),
        (
            "flow_checks=0",
            "flow_checks=1 at=2 drift=20001",
            "9: a check is wrong: at=2 (device 0, flow check 0); 0 to 1 is right",
        ),
        (
            "flow_checks=0",
            "flow_checks=2 at=0 drift=0 at=0 drift=0",
            "11: a check is wrong: at=0 (device 0, flow check 1); 1 to 1 is right",
        ),
        (
            "ch4_checks=0",
            "ch4_checks=2 at=1 drift=0 at=2 drift=0",
            "12: a check is wrong: at=2 (device 0, CH4 check 1); no position is left after the check before it",
        ),
        (
            "flow_checks=0 ch4_checks=0",
            "flow_checks=1 at=0 drift=0 ch4_checks=1 at=0 drift=-9001",
            "13: a check is wrong: drift=-9001 (device 0, CH4 check 0); -9000 to 20000 is right, in 0.01 %",
        ),
        (
            "ch4=10000 temp=2000",
            "ch4=10001 temp=10001",
            "11: the CH4 content is out of range: ch4=10001 (device 0, interval 0); 0 to 10000 is right, in 0.01 %, or \
             nothing where it is missing",
        ),
        (
            "temp=2000",
            "temp=-4001",
            "12: the temperature is out of range: temp=-4001 (device 0, interval 0); -4000 to 10000 is right, in 0.01 \
             degrees Celsius, or nothing where it is missing",
        ),
        (
            "press=101325",
            "press=49999",
            "13: the pressure is out of range: press=49999 (device 0, interval 0); 50000 to 300000 is right, in Pa, or \
             nothing where it is missing",
        ),
        (
            "status=1",
            "status=4",
            "14: the status is out of range: status=4 (device 0, interval 0); 0 to 3 is right, for stopped, running, \
             running and attested, no thermocouple record",
        ),
        (
            "quantity=1000",
            "quantity=1000000001",
            "5: a fuel line is out of range: quantity=1000000001 (fuel line 0); 0 to 1000000000 is right, in \
             thousandths of a unit",
        ),
        (
            "fuels=1",
            "fuels=2 quantity=0 factor=4000001",
            "6: a fuel line is out of range: factor=4000001 (fuel line 0); 0 to 4000000 is right, in g of CO2 a unit",
        ),
    ] {
        checks.same(to, said(&edited(from, to), "a b", None), format!("cmm: a b:{wanted}\n"));
    }
}

/// Two devices of two intervals, whose five lines begin at 8, 13, 21 and 26, with some lines replaced.
fn with_lines(replaced: &[(usize, &str)]) -> Vec<u8> {
    let interval = "flow=1 ch4=1 temp=1 press=50000 status=1";
    let device = format!("kind=1 flow_checks=0 ch4_checks=0 {interval} {interval}");
    let text = format!("intervals=2 devices=2 mine=0 fuels=0 {device} {device}");
    let mut words: Vec<&str> = text.split(' ').collect();
    for (line, word) in replaced {
        words[line - 1] = word;
    }
    lines(&words.join(" "))
}

/// Each reading's number names its line, of several wrong ones in an interval the first; no time without a start.
fn readings(checks: &mut Checks) {
    let start = Some(time(2026, 2, 28, 23, 45));
    for (replaced, wrong, device, interval, right) in [
        (
            &[(21, "flow=30001"), (22, "ch4=10001"), (25, "status=4")][..],
            "21: the flow is out of range: flow=30001",
            1,
            0,
            "0 to 30000 is right, in 0.1 m3, or nothing where it is missing",
        ),
        (
            &[(26, "flow="), (27, "ch4=65534"), (29, "press=1")],
            "27: the CH4 content is out of range: ch4=65534",
            1,
            1,
            "0 to 10000 is right, in 0.01 %, or nothing where it is missing",
        ),
        (
            &[(15, "temp=10001"), (16, "press=49999"), (21, "flow=40000")],
            "15: the temperature is out of range: temp=10001",
            0,
            1,
            "-4000 to 10000 is right, in 0.01 degrees Celsius, or nothing where it is missing",
        ),
        (
            &[(16, "press=300001"), (17, "status=255"), (23, "temp=-4001")],
            "16: the pressure is out of range: press=300001",
            0,
            1,
            "50000 to 300000 is right, in Pa, or nothing where it is missing",
        ),
        (
            &[(12, "status=4"), (13, "flow=30001"), (14, "ch4=10001")],
            "12: the status is out of range: status=4",
            0,
            0,
            "0 to 3 is right, for stopped, running, running and attested, no thermocouple record",
        ),
    ] {
        let text = with_lines(replaced);
        let begins = ["2026-02-28T23:45", "2026-03-01T00:00"][interval];
        let of_interval = format!("device {device}, interval {interval}");
        checks.same(wrong, said(&text, "f", None), format!("cmm: f:{wrong} ({of_interval}); {right}\n"));
        checks.same(wrong, said(&text, "f", start), format!("cmm: f:{wrong} ({of_interval}, {begins}); {right}\n"));
    }
}

fn wrong_lines(checks: &mut Checks) {
    for (from, to, wanted) in [
        (
            "intervals=1",
            "intervals=1\r",
            "1: the line is wrong: \"intervals=1\\x0d\"; intervals= and 1 to 35136 is right",
        ),
        (
            "mine=0",
            "mine=\\\"\x7f~",
            "3: the line is wrong: \"mine=\\x5c\"\\x7f~\"; mine= and 0 to 1 is right, for underground, surface",
        ),
        ("fuels=1", "fuels=65", "4: the line is wrong: \"fuels=65\"; fuels= and 0 to 64 is right"),
        (
            "factor=700000",
            "faktor=\u{e9}",
            "6: the line is wrong: \"faktor=\\xc3\\xa9\" (fuel line 0); factor= and 0 to 4000000 is right, in g of \
             CO2 a unit",
        ),
        ("flow_checks=0", "", "8: the line is wrong: \"\" (device 0); flow_checks= and 0 to 32 is right"),
        (
            "ch4_checks=0",
            "ch4_checks=2 at=1 drift=0 at=x",
            "12: the line is wrong: \"at=x\" (device 0, CH4 check 1); at= and 0 to 1 is right",
        ),
        (
            "flow=30000",
            "flow=65535",
            "10: the line is wrong: \"flow=65535\" (device 0, interval 0); flow= and 0 to 30000 is right, in 0.1 m3, \
             or nothing where it is missing",
        ),
    ] {
        checks.same(to, said(&edited(from, to), "standard input", None), format!("cmm: standard input:{wanted}\n"));
    }
}

/// A third line of so many x, with byte 10 and without.
fn line_lengths(checks: &mut Checks) {
    for (length, end, shown, after) in [
        (32, "", 32, "\" without its line end"),
        (33, "", 33, "\""),
        (32, "\n", 32, "\""),
        (40, "\n", 40, "\""),
        (41, "\n", 40, "..\""),
        (41, "", 40, "..\""),
    ] {
        let text = format!("intervals=1\ndevices=1\n{}{end}", "x".repeat(length));
        let value = format!("\"{}{after}", "x".repeat(shown));
        let wanted =
            format!("cmm: f:3: the line is wrong: {value}; mine= and 0 to 1 is right, for underground, surface\n");
        checks.same("a line's length", said(text.as_bytes(), "f", None), wanted);
    }
}

/// The text ends too early, or goes on.
fn ends(checks: &mut Checks) {
    let whole = lines(EXAMPLE);
    let more = |bytes: &[u8]| [&whole[..], bytes].concat();
    let status = "(device 0, interval 0); status= and 0 to 3 is right, for stopped, running, running and attested, no \
        thermocouple record";
    for (text, wanted) in [
        (vec![], "1: the line is wrong: the text ends; intervals= and 1 to 35136 is right".to_string()),
        (whole[..whole.len() - 9].to_vec(), format!("14: the line is wrong: the text ends {status}")),
        (
            whole[..whole.len() - 1].to_vec(),
            format!("14: the line is wrong: \"status=1\" without its line end {status}"),
        ),
        (more(b"\n"), "15: the line is wrong: \"\"; the record ends with the line before it".to_string()),
        (more(b"x"), "15: the line is wrong: \"x\"; the record ends with the line before it".to_string()),
        (more(b"a=1\nb"), "15: the line is wrong: \"a=1\"; the record ends with the line before it".to_string()),
    ] {
        checks.same("an end", said(&text, "f", None), format!("cmm: f:{wanted}\n"));
    }
}

/// What is followed by a time, and what is not.
fn times(checks: &mut Checks) {
    let of = |owner: &str| format!(" (device 0, {owner});");
    for (from, to, wanted) in [
        ("flow_checks=0", "flow_checks=1 at=1 drift=20001", of("flow check 0, 2024-01-01T00:00")),
        ("flow_checks=0", "flow_checks=1 at=0 drift=x", of("flow check 0, 2023-12-31T23:45")),
        ("flow_checks=0", "flow_checks=1 at=2 drift=x", of("flow check 0")),
        ("flow_checks=0", "flow_checks=1 at=2 drift=1", of("flow check 0")),
        ("status=1", "status=4", of("interval 0, 2023-12-31T23:45")),
        ("status=1", "status=x", of("interval 0, 2023-12-31T23:45")),
        ("kind=2", "kind=9", " (device 0);".to_string()),
        ("factor=700000", "factor=5000000", " (fuel line 0);".to_string()),
    ] {
        let sentence = said(&edited(from, to), "f", Some(time(2023, 12, 31, 23, 45)));
        checks.same(to, sentence.contains(&wanted), true);
    }
}

fn dates(checks: &mut Checks) {
    for (start, intervals, wanted) in [
        (time(2024, 2, 28, 23, 59), 1, "2024-02-29T00:14"),
        (time(2024, 2, 29, 23, 45), 1, "2024-03-01T00:00"),
        (time(2023, 2, 28, 23, 45), 1, "2023-03-01T00:00"),
        (time(2000, 2, 28, 0, 0), 96, "2000-02-29T00:00"),
        (time(1900, 2, 28, 0, 0), 96, "1900-03-01T00:00"),
        (time(2023, 12, 31, 23, 59), 1, "2024-01-01T00:14"),
        (time(2024, 1, 1, 0, 0), 35_136, "2025-01-01T00:00"),
        (time(2023, 1, 1, 0, 0), 35_040, "2024-01-01T00:00"),
        (time(2023, 7, 1, 6, 0), 35_136, "2024-07-01T06:00"),
        (time(1, 1, 1, 0, 0), 95, "0001-01-01T23:45"),
    ] {
        checks.same("a date", start.later(15 * intervals).text().as_str(), wanted);
    }
}
