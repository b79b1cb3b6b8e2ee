//! The part of the self-check about texts: what is decided for record files, refusals and sheets, case by case.

use crate::report;
use crate::selfcheck::Checks;
use crate::sheet::read_sheet;

pub const EXAMPLE: &str = "intervals=1 devices=1 mine=0 fuels=1 quantity=1000 factor=700000 kind=2 flow_checks=0 \
    ch4_checks=0 flow=30000 ch4=10000 temp=2000 press=101325 status=1";

const EXAMPLE_SHEET: &str = "intervals=1
devices=1
counted=1
replaced=0
excluded=0
methane_l=3000000
destroyed_l=2985000
uncombusted_l=15000
baseline_mg=42021000000
co2_mg=5475236250
uncombusted_mg=210105000
fuel_mg=700000000
reduction_mg=35635658750
tonnes=35
credits=35
";

pub fn run(checks: &mut Checks) {
    let answered = report::text(&report::answer(&lines(EXAMPLE), 2_976));
    checks.same("worked example", answered.as_str(), EXAMPLE_SHEET);
    refused_numbers(checks);
    wrong_lines(checks);
    whole_texts(checks);
    accepted(checks);
    sheets(checks);
}

/// One word to a line.
pub fn lines(words: &str) -> Vec<u8> {
    (words.replace(' ', "\n") + "\n").into_bytes()
}

/// Number, device and place, or 0 and the counts of counted and excluded intervals.
fn answer(text: &[u8]) -> (u32, u64, u64) {
    match report::answer(text, 2_976) {
        Err(refusal) => (refusal.number, refusal.device, refusal.place),
        Ok(done) => (0, done.figures.counted as u64, done.figures.excluded as u64),
    }
}

/// The example with one piece replaced.
fn edited(checks: &mut Checks, from: &str, to: &str, wanted: (u32, u64, u64)) {
    assert!(EXAMPLE.contains(from));
    checks.same(to, answer(&lines(&EXAMPLE.replacen(from, to, 1))), wanted);
}

fn refused_numbers(checks: &mut Checks) {
    for (from, to, wanted) in [
        ("mine=0", "mine=2", (4, 0, 0)),
        ("mine=0", "mine=4294967295", (4, 0, 0)),
        ("kind=2", "kind=0", (5, 0, 0)),
        ("kind=2", "kind=7", (5, 0, 0)),
        ("kind=2", "kind=258", (5, 0, 0)),
        ("kind=2", "kind=6", (6, 0, 0)),
        ("flow_checks=0", "flow_checks=1 at=1 drift=20001", (7, 0, 0)),
        ("flow_checks=0", "flow_checks=1 at=0 drift=-9001", (7, 0, 0)),
        ("flow_checks=0", "flow_checks=1 at=2 drift=0", (7, 0, 0)),
        ("flow_checks=0", "flow_checks=2 at=0 drift=0 at=0 drift=0", (7, 0, 1)),
        ("flow_checks=0", "flow_checks=2 at=1 drift=0 at=0 drift=0", (7, 0, 1)),
        ("flow_checks=0 ch4_checks=0", "flow_checks=2 at=0 drift=0 at=2 drift=0 ch4_checks=1 at=2 drift=0", (7, 0, 1)),
        ("ch4_checks=0", "ch4_checks=2 at=0 drift=-9000 at=1 drift=20001", (7, 0, 1)),
        ("flow=30000", "flow=30001", (17, 0, 0)),
        ("flow=30000", "flow=65534", (17, 0, 0)),
        ("ch4=10000", "ch4=10001", (18, 0, 0)),
        ("ch4=10000", "ch4=65534", (18, 0, 0)),
        ("temp=2000", "temp=-4001", (19, 0, 0)),
        ("temp=2000", "temp=10001", (19, 0, 0)),
        ("temp=2000", "temp=-32767", (19, 0, 0)),
        ("press=101325", "press=49999", (20, 0, 0)),
        ("press=101325", "press=300001", (20, 0, 0)),
        ("press=101325", "press=1", (20, 0, 0)),
        ("status=1", "status=4", (21, 0, 0)),
        ("status=1", "status=255", (21, 0, 0)),
        ("temp=2000 press=101325", "temp=10001 press=49999", (19, 0, 0)),
        ("flow=30000 ch4=10000", "flow= ch4=10001", (18, 0, 0)),
        ("temp=2000 press=101325 status=1", "temp= press= status=4", (21, 0, 0)),
        ("quantity=1000", "quantity=1000000001", (9, 0, 0)),
        ("factor=700000", "factor=4000001", (9, 0, 0)),
        ("fuels=1", "fuels=2 quantity=0 factor=0", (0, 1, 0)),
        ("fuels=1 quantity=1000 factor=700000", "fuels=2 quantity=1 factor=1 quantity=1 factor=4000001", (9, 0, 1)),
    ] {
        edited(checks, from, to, wanted);
    }
}

fn wrong_lines(checks: &mut Checks) {
    for (from, to, line) in [
        ("intervals=1", "intervals=01", 1),
        ("intervals=1", "intervals=+1", 1),
        ("intervals=1", "intervals=4294967296", 1),
        ("devices=1", "devices=-0", 2),
        ("devices=1", "devices=", 2),
        ("mine=0", "mine=-1", 3),
        ("mine=0", "mine=00", 3),
        ("fuels=1", "fuels=65", 4),
        ("fuels=1", "fuels=0", 5),
        ("quantity=1000", "quantity=4294967296", 5),
        ("factor=700000", "faktor=700000", 6),
        ("kind=2", "kind=2 kind=2", 8),
        ("flow_checks=0", "flow_checks=33", 8),
        ("flow_checks=0", "flow_checks=1 at=0 drift=2147483648", 10),
        ("ch4_checks=0", "ch4_checks=33", 9),
        ("ch4_checks=0", "ch4_checks=1", 10),
        ("flow=30000", "flow=65535", 10),
        ("flow=30000", "flow=65536", 10),
        ("ch4=10000", "ch4=65535", 11),
        ("temp=2000", "temp=-32768", 12),
        ("temp=2000", "temp=32768", 12),
        ("temp=2000", "temp=-0", 12),
        ("press=101325", "press=0", 13),
        ("press=101325", "press=4294967296", 13),
        ("status=1", "status=256", 14),
        ("status=1", "status=", 14),
        ("status=1", "status=1 status=1", 15),
        ("mine=0", "mine=7 fuels=x", 4),
    ] {
        edited(checks, from, to, (12, 0, line));
    }
}

fn whole_texts(checks: &mut Checks) {
    let whole = lines(EXAMPLE);
    let all_but = |count: usize| &whole[..whole.len() - count];
    checks.same("unterminated", answer(all_but(1)), (12, 0, 14));
    checks.same("last line lacking", answer(all_but(9)), (12, 0, 14));
    checks.same("half a line, more lacking", answer(all_but(12)), (12, 0, 13));
    checks.same("one byte more", answer(&[&whole[..], b"\n"].concat()), (12, 0, 15));
    for (text, wanted) in [
        ("", (12, 0, 1)),
        ("\n", (12, 0, 1)),
        ("intervals=0\n", (12, 0, 2)),
        ("intervals=0\ndevices=1", (12, 0, 2)),
        ("intervals=0\ndevices=x\n", (12, 0, 2)),
        ("intervals=0\ndevices=1\n", (1, 0, 0)),
        ("intervals=0\ndevices=0\njunk", (1, 0, 0)),
        ("intervals=35137\ndevices=17\n", (1, 0, 0)),
        ("intervals=35136\ndevices=17\n", (2, 0, 0)),
        ("intervals=1\ndevices=0\n", (2, 0, 0)),
        ("intervals=2977\ndevices=1\n", (13, 0, 0)),
        ("intervals=35136\ndevices=16\njunk", (13, 0, 0)),
        ("intervals=2976\ndevices=1\n", (12, 0, 3)),
        ("intervals=186\ndevices=16\njunk\n", (12, 0, 3)),
    ] {
        checks.same(text, answer(text.as_bytes()), wanted);
    }
    let long_row = report::answer(b"intervals=35136\ndevices=16\n", 562_176).err().map(|refusal| refusal.number);
    checks.same("a longer row", long_row, Some(12));
}

fn accepted(checks: &mut Checks) {
    for (from, to, counted) in [
        ("flow=30000", "flow=", 0),
        ("ch4=10000", "ch4=", 0),
        ("temp=2000", "temp=", 0),
        ("press=101325", "press=", 0),
        ("status=1", "status=0", 0),
        ("status=1", "status=3", 0),
        ("status=1", "status=2", 1),
        ("temp=2000", "temp=-4000", 1),
        ("temp=2000", "temp=10000", 1),
        ("press=101325", "press=50000", 1),
        ("press=101325", "press=300000", 1),
        ("mine=0 fuels=1 quantity=1000 factor=700000 kind=2", "mine=1 fuels=0 kind=6", 1),
        ("flow_checks=0", "flow_checks=2 at=0 drift=-9000 at=1 drift=20000", 1),
        ("quantity=1000 factor=700000", "quantity=1000000000 factor=4000000", 1),
    ] {
        edited(checks, from, to, (0, counted, 1 - counted));
    }
}

fn sheets(checks: &mut Checks) {
    // The last number is how far into the replaced piece the first impossible byte lies.
    for (from, to, within) in [
        ("tonnes=35", "tonnes=-0", 8),
        ("tonnes=35", "tonnes=01", 8),
        ("tonnes=35", "tonnes=-\n", 8),
        ("tonnes=35", "tonnes=9223372036854775808", 25),
        ("tonnes=35", "tonnes=-9223372036854775809", 26),
        ("credits=35", "credits=18446744073709551616", 27),
        ("credits=35", "credits=-1", 8),
        ("credits=35", "credits=+1", 8),
        ("credits=35", "credits=\n", 8),
        ("credits=35", "credits=35\r", 10),
        ("devices=1", "device=1", 6),
        ("credits=35\n", "credits=35\nx", 11),
        ("credits=35\n", "credits=35\n\n", 11),
        ("credits=35\n", "credits=35", 10),
        ("credits=35\n", "", 0),
    ] {
        let at = EXAMPLE_SHEET.find(from).unwrap();
        let text = EXAMPLE_SHEET.replacen(from, to, 1);
        checks.same(to, read_sheet(text.as_bytes()).err(), Some(at + within));
    }
    checks.same("the empty text", read_sheet(b""), Err(0));
    for (from, to) in
        [("devices=1", "devices=99"), ("credits=35", "credits=0"), ("tonnes=35", "tonnes=-9223372036854775808")]
    {
        let text = EXAMPLE_SHEET.replacen(from, to, 1);
        checks.same(to, report::sheet_report(text.as_bytes()), text);
    }
}
