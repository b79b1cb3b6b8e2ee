//! What a call of the library lends, as one piece of memory: arrays in any order, between bytes that nobody may touch.
//! What stands there after the call is compared as a whole.

use crate::rng::Rng;

/// A number of fixed width, as the library's processor keeps it: least byte first.
pub trait Entry: Copy {
    const WIDTH: usize;
    fn put(self, bytes: &mut Vec<u8>);
    fn get(bytes: &[u8]) -> Self;
}

macro_rules! entry {
    ($($number:ty),*) => {$(
        impl Entry for $number {
            const WIDTH: usize = size_of::<$number>();
            fn put(self, bytes: &mut Vec<u8>) {
                bytes.extend(self.to_le_bytes());
            }
            fn get(bytes: &[u8]) -> Self {
                Self::from_le_bytes(bytes.try_into().unwrap())
            }
        }
    )*};
}
entry!(u8, u16, i16, u32, i32, u64, i64);

/// An array that is to be lent.
pub struct Array {
    name: &'static str,
    width: usize,
    bytes: Vec<u8>,
}

impl Array {
    pub fn of<T: Entry>(name: &'static str, entries: &[T]) -> Array {
        let mut bytes = Vec::with_capacity(entries.len() * T::WIDTH);
        entries.iter().for_each(|entry| entry.put(&mut bytes));
        Array { name, width: T::WIDTH, bytes }
    }

    /// So many entries with something drawn in each: what must be kept, or written over.
    pub fn drawn<T: Entry>(rng: &Rng, name: &'static str, length: usize) -> Array {
        Array { name, width: T::WIDTH, bytes: drawn_bytes(rng, length * T::WIDTH) }
    }
}

fn drawn_bytes(rng: &Rng, count: usize) -> Vec<u8> {
    let mut bytes: Vec<u8> = (0..count / 8 + 1).flat_map(|_| rng.next().to_le_bytes()).collect();
    bytes.truncate(count);
    bytes
}

#[derive(Clone)]
struct Place {
    name: &'static str,
    width: usize,
    start: usize,
    end: usize,
}

#[derive(Clone)]
pub struct Image {
    pub bytes: Vec<u8>,
    places: Vec<Place>,
}

impl Image {
    /// The arrays in a drawn order, each aligned for its entries and no better. One of them ends where the image does,
    /// and what comes after an image cannot be read (tests/library/serve.c).
    pub fn new(rng: &Rng, mut arrays: Vec<Array>) -> Image {
        for k in (1..arrays.len()).rev() {
            arrays.swap(k, rng.below(k + 1));
        }
        // From the end on, counted backwards, since the end is what has to fit.
        let mut parts: Vec<Vec<u8>> = Vec::new();
        let mut taken: usize = 0;
        let mut ends = Vec::new();
        for array in &arrays {
            let gap = if taken == 0 { 0 } else { (taken + rng.below(24)).next_multiple_of(array.width) - taken };
            parts.push(drawn_bytes(rng, gap));
            ends.push(taken + gap);
            parts.push(array.bytes.clone());
            taken += gap + array.bytes.len();
        }
        let whole = (taken + rng.below(24)).next_multiple_of(8);
        parts.push(drawn_bytes(rng, whole - taken));
        parts.reverse();
        let places = arrays.iter().zip(ends).map(|(array, end)| Place {
            name: array.name,
            width: array.width,
            start: whole - end - array.bytes.len(),
            end: whole - end,
        });
        Image { places: places.collect(), bytes: parts.concat() }
    }

    fn place(&self, name: &str) -> &Place {
        self.places.iter().find(|place| place.name == name).expect("no such array")
    }

    /// Where the array begins.
    pub fn start(&self, name: &str) -> u64 {
        self.place(name).start as u64
    }

    pub fn read<T: Entry>(&self, name: &str) -> Vec<T> {
        let place = self.place(name);
        self.bytes[place.start..place.end].chunks_exact(T::WIDTH).map(T::get).collect()
    }

    /// Writes over the array's first entries.
    pub fn write<T: Entry>(&mut self, name: &str, entries: &[T]) {
        let start = self.place(name).start;
        let bytes = Array::of("", entries).bytes;
        self.bytes[start..start + bytes.len()].copy_from_slice(&bytes);
    }

    /// Takes over as many of the array's first entries as there are, from the same image at another time.
    pub fn copy(&mut self, name: &str, other: &Image, entries: usize) {
        let place = self.place(name);
        let end = place.end.min(place.start.saturating_add(entries.saturating_mul(place.width)));
        let taken = place.start..end;
        self.bytes[taken.clone()].copy_from_slice(&other.bytes[taken]);
    }

    /// The first byte that differs, said in terms of the arrays.
    pub fn difference(&self, after: &Image) -> Option<String> {
        let at = (0..self.bytes.len()).find(|&k| self.bytes[k] != after.bytes[k])?;
        let Some(place) = self.places.iter().find(|place| place.start <= at && at < place.end) else {
            return Some(format!("byte {at} is changed, where no array is lent"));
        };
        let entry = (at - place.start) / place.width;
        let from = place.start + entry * place.width;
        let (wanted, given) = (&self.bytes[from..from + place.width], &after.bytes[from..from + place.width]);
        Some(format!("{}[{entry}] is {}, expected {}", place.name, shown(given), shown(wanted)))
    }

    /// The same arrays with other bytes.
    pub fn with(&self, bytes: Vec<u8>) -> Image {
        Image { bytes, places: self.places.clone() }
    }
}

/// A number of any width, as if unsigned.
fn shown(bytes: &[u8]) -> u64 {
    bytes.iter().rev().fold(0, |number, &byte| number << 8 | byte as u64)
}
