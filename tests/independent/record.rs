//! A mine's records as a record file can carry them, and the file's text. `None` is a missing reading.

#[derive(Clone, Copy, Debug, PartialEq, Eq)]
pub struct Check {
    pub at: u32,
    pub drift: i32,
}

#[derive(Clone, Copy, Debug, PartialEq, Eq)]
pub struct Fuel {
    pub quantity: u32,
    pub factor: u32,
}

#[derive(Clone, Debug, Default, PartialEq, Eq)]
pub struct Device {
    pub kind: u32,
    pub flow_checks: Vec<Check>,
    pub ch4_checks: Vec<Check>,
    pub flow: Vec<Option<u16>>,
    pub ch4: Vec<Option<u16>>,
    pub temp: Vec<Option<i16>>,
    pub press: Vec<Option<u32>>,
    pub status: Vec<u8>,
}

#[derive(Clone, Debug, PartialEq, Eq)]
pub struct Record {
    pub intervals: u32,
    pub mine: u32,
    pub fuels: Vec<Fuel>,
    pub devices: Vec<Device>,
}

impl Record {
    /// The lines without their byte 10.
    pub fn lines(&self) -> Vec<String> {
        let mut lines = vec![
            format!("intervals={}", self.intervals),
            format!("devices={}", self.devices.len()),
            format!("mine={}", self.mine),
            format!("fuels={}", self.fuels.len()),
        ];
        for fuel in &self.fuels {
            lines.push(format!("quantity={}", fuel.quantity));
            lines.push(format!("factor={}", fuel.factor));
        }
        for device in &self.devices {
            lines.push(format!("kind={}", device.kind));
            check_lines(&mut lines, "flow_checks", &device.flow_checks);
            check_lines(&mut lines, "ch4_checks", &device.ch4_checks);
            interval_lines(&mut lines, device);
        }
        lines
    }

    pub fn text(&self) -> Vec<u8> {
        joined(&self.lines())
    }
}

fn check_lines(lines: &mut Vec<String>, key: &str, checks: &[Check]) {
    lines.push(format!("{key}={}", checks.len()));
    for check in checks {
        lines.push(format!("at={}", check.at));
        lines.push(format!("drift={}", check.drift));
    }
}

fn interval_lines(lines: &mut Vec<String>, device: &Device) {
    for i in 0..device.flow.len() {
        lines.push(format!("flow={}", written(device.flow[i])));
        lines.push(format!("ch4={}", written(device.ch4[i])));
        lines.push(format!("temp={}", written(device.temp[i])));
        lines.push(format!("press={}", written(device.press[i])));
        lines.push(format!("status={}", device.status[i]));
    }
}

fn written<T: ToString>(reading: Option<T>) -> String {
    reading.map_or(String::new(), |value| value.to_string())
}

/// Each line ended by byte 10.
pub fn joined(lines: &[String]) -> Vec<u8> {
    lines.iter().flat_map(|line| [line.as_bytes(), b"\n"].concat()).collect()
}
