//! Every place of a lent list after a call: those that must be written, and those that must stay.

use crate::library::{float_mark, mark};

/// A list, whatever its numbers are.
#[derive(Clone, Copy)]
pub enum List<'a> {
    Indices(&'a [usize]),
    Bytes(&'a [u8]),
    Floats(&'a [f64]),
}

impl List<'_> {
    fn len(self) -> usize {
        match self {
            List::Indices(list) => list.len(),
            List::Bytes(list) => list.len(),
            List::Floats(list) => list.len(),
        }
    }

    fn bits(self, place: usize) -> u64 {
        match self {
            List::Indices(list) => list[place] as u64,
            List::Bytes(list) => list[place].into(),
            List::Floats(list) => list[place].to_bits(),
        }
    }

    /// What a place of the list with this number held before the call.
    fn bits_before(self, number: usize, place: usize) -> u64 {
        match self {
            List::Indices(_) => mark(number, place),
            List::Bytes(_) => u64::from(mark(number, place) as u8),
            List::Floats(_) => float_mark(number, place),
        }
    }

    /// Whether a place holds what is expected there. Of NaNs all are alike.
    fn agrees(self, place: usize, bits: u64) -> bool {
        let is_nan = |bits: u64| f64::from_bits(bits).is_nan();
        let nans = matches!(self, List::Floats(_)) && is_nan(bits) && is_nan(self.bits(place));
        nans || self.bits(place) == bits
    }
}

/// The first place that holds another number than it must: `written` in the first places, and behind them what
/// was there. A refused call writes nothing.
pub fn first_difference(
    name: &str,
    number: usize,
    lent: List<'_>,
    written: Option<List<'_>>,
) -> Result<(), String> {
    let count = written.map_or(0, List::len);
    for place in 0..lent.len() {
        let (agrees, expected) = match written {
            Some(list) if place < count => (lent.agrees(place, list.bits(place)), list.bits(place)),
            _ => {
                let before = lent.bits_before(number, place);
                (lent.bits(place) == before, before)
            }
        };
        if !agrees {
            let which = if place < count { "which must be written" } else { "which must stay" };
            let found = lent.bits(place);
            return Err(format!("{name}[{place}], {which}: {found:016x}, expected {expected:016x}"));
        }
    }
    Ok(())
}
