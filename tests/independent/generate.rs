//! The generator of record files: classes in fixed shares, and a file for each seed and number.

use crate::record::Record;
use crate::rng::Rng;
use crate::{damaged_files, gap_files, litre_borders, lost_litres, plain_files, refusal_files};

/// A class of things to generate, and how many of it come in turn.
pub struct Class<M> {
    pub name: &'static str,
    share: usize,
    pub make: M,
}

pub const fn class<M: Copy>(name: &'static str, share: usize, make: M) -> Class<M> {
    Class { name, share, make }
}

/// The class whose turn it is at this number, from 0, and the case's own number in that class.
pub fn turn<M>(classes: &[Class<M>], number: usize) -> (&Class<M>, usize) {
    let round: usize = classes.iter().map(|class| class.share).sum();
    let mut slot = number % round;
    for class in classes {
        if slot < class.share {
            return (class, number / round * class.share + slot);
        }
        slot -= class.share;
    }
    unreachable!()
}

/// Takes the random source, the file's number in its class, and the reader's row: an accepted record, or any bytes.
#[derive(Clone, Copy)]
enum Maker {
    Sound(fn(&Rng, usize, u64) -> Record),
    Bytes(fn(&Rng, usize, u64) -> Vec<u8>),
}

use Maker::{Bytes, Sound};

/// Most files are short, and so is the whole.
const CLASSES: [Class<Maker>; 22] = [
    class("small", 14, Sound(plain_files::small)),
    class("outcomes", 8, Sound(plain_files::outcomes)),
    class("month", 1, Sound(plain_files::month)),
    class("several devices", 3, Sound(plain_files::several_devices)),
    class("longest", 1, Bytes(plain_files::longest)),
    class("extremes", 7, Sound(plain_files::extremes)),
    class("tonne borders", 5, Sound(plain_files::tonne_borders)),
    class("litre borders", 6, Sound(litre_borders::litre_borders)),
    class("lost by rounding", 2, Sound(lost_litres::lost_by_rounding)),
    class("gap borders", 18, Sound(gap_files::borders)),
    class("gap neighbours", 8, Sound(gap_files::neighbours)),
    class("window values", 10, Sound(gap_files::window_values)),
    class("checks", 16, Sound(gap_files::checks)),
    class("drift and gaps", 8, Sound(gap_files::drift_and_gaps)),
    class("heads", 15, Bytes(refusal_files::heads)),
    class("one offence", 14, Bytes(refusal_files::one)),
    class("pairs of offences", 9, Bytes(refusal_files::pairs)),
    class("rival offenders", 12, Bytes(refusal_files::rivals)),
    class("wrong readings", 12, Bytes(refusal_files::wrong_readings)),
    class("one wrong value", 42, Bytes(damaged_files::values)),
    class("damaged text", 16, Bytes(damaged_files::texts)),
    class("junk", 3, Bytes(damaged_files::junk)),
];

pub struct Generated {
    pub class: &'static str,
    pub bytes: Vec<u8>,
}

/// The file with this number, from 0. `row` is the row that the reader is lent.
pub fn generate(seed: u64, number: usize, row: u64) -> Generated {
    let (class, case) = turn(&CLASSES, number);
    let rng = Rng::new(seed, number as u64);
    let bytes = match class.make {
        Sound(make) => make(&rng, case, row).text(),
        Bytes(make) => make(&rng, case, row),
    };
    Generated { class: class.name, bytes }
}
