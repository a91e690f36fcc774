//! The jobs on memory that the caller lends: a list of at least 4,096 records, for
//! [`compare`] and [`slip`] one for each circuit, and an answer area. A record is a gate as a number;
//! [`gate`] reads it. One call of [`map`] gives the gates and the text, or, with an
//! area of length 0, the gates alone:
//!
//! ```
//! use yilgorza::lent::{self, Counts};
//!
//! let text = b"(lines 2)\n(mct (0) 1)\n";
//! let (mut list, mut answer) = ([0; 4096], [0; 100]);
//!
//! let mapped = lent::map(text, &mut list, &mut answer).unwrap();
//! assert_eq!(mapped, Counts { gates: 1, bytes: 19 });
//! assert_eq!(&answer[..mapped.bytes], b"(lines 2)\n(cn 0 1)\n");
//!
//! let quoted = lent::map(text, &mut list, &mut []).unwrap();
//! assert_eq!(quoted, Counts { gates: 1, bytes: 0 });
//! ```

use std::cmp::Ordering;

use crate::declared::{yilgorza_invert, yilgorza_map, yilgorza_reduce};
use crate::ffi;
use crate::{Gate, Number, Refusal, SeveralRefusal};

/// How much map, reduce or invert gives: the gates, which are the first records of the list,
/// and the bytes of the circuit text, which are the first of the answer area.
#[derive(Clone, Copy, Debug, PartialEq, Eq, Hash)]
pub struct Counts {
    pub gates: usize,
    pub bytes: usize,
}

/// Maps a cascade text. With an answer area of length 0 it only quotes: it gives the
/// same gates and no bytes, and the area is never too short.
pub fn map(text: &[u8], list: &mut [u16], answer: &mut [u8]) -> Result<Counts, Refusal> {
    result(ffi::writing(yilgorza_map, text, list, answer))
}

/// Reduces a circuit text. An answer area of length 0 is too short.
pub fn reduce(text: &[u8], list: &mut [u16], answer: &mut [u8]) -> Result<Counts, Refusal> {
    result(ffi::writing(yilgorza_reduce, text, list, answer))
}

/// Inverts a circuit text: its gates reversed, v and vp exchanged, and the circuit so
/// made reduced. An answer area of length 0 is too short.
pub fn invert(text: &[u8], list: &mut [u16], answer: &mut [u8]) -> Result<Counts, Refusal> {
    result(ffi::writing(yilgorza_invert, text, list, answer))
}

/// Joins two circuit texts, the first before the second, and reduces. There is one
/// list, which is judged with the first text. It gives the bytes of the circuit text,
/// which are the first of the answer area; the text has a line for each gate of the
/// list, and line 1. An answer area of length 0 is too short.
///
/// ```
/// use yilgorza::lent;
///
/// let (mut list, mut answer) = ([0; 4096], [0; 100]);
/// let (first, second) = (b"(lines 2)\n(cn 0 1)\n", b"(lines 2)\n(v 0 1)\n");
///
/// let bytes = lent::join(first, &mut list, second, &mut answer).unwrap();
/// assert_eq!(&answer[..bytes], b"(lines 2)\n(vp 0 1)\n");
/// ```
pub fn join(
    first: &[u8],
    list: &mut [u16],
    second: &[u8],
    answer: &mut [u8],
) -> Result<usize, SeveralRefusal> {
    several_result(ffi::join(first, list, second, answer))
}

/// Compares two circuit texts, each with a list of its own. A list then holds the
/// reduced list of its text; [`reduce`] tells how many gates that has.
pub fn compare(
    first: &[u8],
    first_list: &mut [u16],
    second: &[u8],
    second_list: &mut [u16],
) -> Result<Ordering, SeveralRefusal> {
    const FOUND: [Ordering; 3] = [Ordering::Less, Ordering::Equal, Ordering::Greater];
    let outcome = ffi::compare(first, first_list, second, second_list);
    several_result(outcome).map(|count| FOUND[count])
}

/// Checks whether the steps of a slip lead from the first circuit to the second, each
/// with a list of its own. The first list then holds the circuit that the steps ended
/// at, the other the second circuit, which has the same gates: one less than its text
/// has lines.
///
/// ```
/// use yilgorza::lent;
///
/// let (mut list, mut second_list) = ([0; 4096], [0; 4096]);
/// let (first, second) = (b"(lines 2)\n(v 0 1)\n(v 0 1)\n", b"(lines 2)\n(cn 0 1)\n");
///
/// lent::slip(first, &mut list, b"(merge 1)\n", second, &mut second_list).unwrap();
/// assert_eq!(list, second_list);
/// assert_eq!(lent::gate(list[0]), Some(yilgorza::Gate::Cn { control: 0, target: 1 }));
/// ```
pub fn slip(
    first: &[u8],
    first_list: &mut [u16],
    slip: &[u8],
    second: &[u8],
    second_list: &mut [u16],
) -> Result<(), SeveralRefusal> {
    several_result(ffi::slip(first, first_list, slip, second, second_list)).map(|_| ())
}

/// The gate of a record; none for a number that no gate on 32 lines has.
pub fn gate(record: u16) -> Option<Gate> {
    let [kind, control, target] = ffi::gate(record);
    match kind {
        1 => Some(Gate::V { control, target }),
        2 => Some(Gate::Cn { control, target }),
        3 => Some(Gate::Vp { control, target }),
        4 => Some(Gate::Not { target }),
        _ => None,
    }
}

/// The counts of a job over one text.
fn result([number, line, gates, bytes]: [u64; 4]) -> Result<Counts, Refusal> {
    match refusal(number) {
        Some(number) => Err(Refusal { number, line }),
        None => Ok(Counts {
            gates: gates as usize,
            bytes: bytes as usize,
        }),
    }
}

/// The count of a job over several texts.
fn several_result([number, line, text, count]: [u64; 4]) -> Result<usize, SeveralRefusal> {
    match refusal(number) {
        Some(number) => Err(SeveralRefusal { number, line, text }),
        None => Ok(count as usize),
    }
}

/// The refusal of this number; none for 0.
fn refusal(number: u64) -> Option<Number> {
    (number != 0).then(|| Number::ALL[number as usize - 1])
}
