//! What `cmm sheet --flow` answers, from docs/COMMAND.md: things are looked at in that page's order, each one only if
//! nothing was the matter with those before it.

use crate::calendar::Time;
use crate::call::Call;
use crate::compare_command::COMMAND_ROW;
use crate::flow_words::{given_flow, input_wanted_twice, named_twice, no_device, no_such_flow, shown, RefusedExport};
use crate::historian::read_export;
use crate::protocol::{FLOW_MISSING, MOST_DEVICES};
use crate::quantify::{quantify, Quantified};
use crate::record::Record;
use crate::record_reader::read_record;
use crate::refusal::Refusal;
use crate::words::tell;
use std::collections::BTreeMap;
use std::sync::Arc;

/// What is to be found under a name.
#[derive(Clone)]
pub enum Stands {
    File(Arc<Vec<u8>>),
    Nothing,
    Directory,
}

/// The words after `sheet`, taken apart, and what the files are.
pub struct Asked {
    /// Values of `--flow`, in the order given.
    pub flows: Vec<String>,
    /// Nothing where no word says it.
    pub record: Option<String>,
    pub start: Option<Time>,
    /// By name; `-` is standard input.
    pub files: BTreeMap<String, Stands>,
}

/// Where the looking ended, in the page's order; a device that is lacking comes before a flow that is not empty.
#[derive(Clone, Copy, Debug, PartialEq, Eq, PartialOrd, Ord)]
pub enum Step {
    Usage,
    Record,
    Devices,
    Empty,
    Exports,
    Rest,
}

/// No sheet: a refusal with its sentence, or trouble with what is said.
#[derive(Debug)]
pub struct No {
    pub step: Step,
    pub refusal: Option<Refusal>,
    pub said: String,
}

fn trouble(step: Step, said: String) -> No {
    No { step, refusal: None, said }
}

/// Device and file of an option's value.
fn device_and_file(option: &str) -> Option<(usize, &str)> {
    let (device, file) = option.split_once('=')?;
    let device = (0..MOST_DEVICES as usize).find(|number| number.to_string() == device)?;
    (!file.is_empty()).then_some((device, file))
}

impl Asked {
    fn record_name(&self) -> &str {
        self.record.as_deref().unwrap_or("-")
    }

    /// The files by device.
    fn flows(&self) -> Result<BTreeMap<usize, &str>, No> {
        let mut flows = BTreeMap::new();
        for option in &self.flows {
            let read = device_and_file(option).ok_or_else(|| trouble(Step::Usage, no_such_flow(option)));
            let (device, file) = read?;
            if flows.insert(device, file).is_some() {
                return Err(trouble(Step::Usage, named_twice(device)));
            }
        }
        let names = flows.values().copied().chain([self.record_name()]);
        if names.filter(|name| *name == "-").count() > 1 {
            return Err(trouble(Step::Usage, input_wanted_twice()));
        }
        Ok(flows)
    }

    fn read(&self, name: &str, step: Step) -> Result<Arc<Vec<u8>>, No> {
        let reason = match &self.files[name] {
            Stands::File(bytes) => return Ok(bytes.clone()),
            Stands::Nothing => "No such file or directory",
            Stands::Directory => "Is a directory",
        };
        Err(trouble(step, format!("cmm: {}: {reason}\n", shown(name))))
    }

    /// The record is refused, by its reader or by quantification.
    fn refused(&self, text: &[u8], refusal: Refusal, step: Step) -> No {
        let told = tell(text, refusal).expect("a refusal is about some line");
        let said = told.sentence(shown(self.record_name()), self.start);
        No { step, refusal: Some(refusal), said }
    }

    pub fn answer(&self) -> Result<Quantified, No> {
        let flows = self.flows()?;
        let text = self.read(self.record_name(), Step::Record)?;
        let read = read_record(&text, COMMAND_ROW);
        let mut record = read.map_err(|refusal| self.refused(&text, refusal, Step::Record))?;
        self.has_devices(&record, &flows)?;
        self.are_empty(&text, &record, &flows)?;
        for (&device, file) in &flows {
            self.take_flow(&mut record, device, file)?;
        }
        quantify(&Call::of(&record)).map_err(|refusal| self.refused(&text, refusal, Step::Rest))
    }

    fn has_devices(&self, record: &Record, flows: &BTreeMap<usize, &str>) -> Result<(), No> {
        match flows.iter().find(|(device, _)| **device >= record.devices.len()) {
            Some((&device, file)) => Err(trouble(Step::Devices, no_device(self.record_name(), device, file))),
            None => Ok(()),
        }
    }

    fn are_empty(&self, text: &[u8], record: &Record, flows: &BTreeMap<usize, &str>) -> Result<(), No> {
        for (&device, file) in flows {
            if let Some(given) = given_flow(text, record.intervals as usize, device) {
                return Err(trouble(Step::Empty, given.sentence(self.record_name(), device, file, self.start)));
            }
        }
        Ok(())
    }

    fn take_flow(&self, record: &mut Record, device: usize, file: &str) -> Result<(), No> {
        let intervals = record.intervals as usize;
        let bytes = self.read(file, Step::Exports)?;
        let row = read_export(&bytes, intervals).map_err(|refusal| {
            let refused = RefusedExport { device, file, intervals, bytes: &bytes, refusal };
            No { step: Step::Exports, refusal: Some(refusal), said: refused.sentence(self.start) }
        })?;
        record.devices[device].flow = row.iter().map(|&flow| (flow != FLOW_MISSING).then_some(flow)).collect();
        Ok(())
    }
}
