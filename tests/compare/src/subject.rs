//! Calls of the C functions under test on guarded areas.

#[path = "../../../examples/rust/src/declared.rs"]
mod declared;

use declared::{
    yilgorza_compare, yilgorza_gate, yilgorza_invert, yilgorza_join, yilgorza_map, yilgorza_reduce,
    yilgorza_slip,
};
use peer::{several, Job, Outcome};

/// How many records or bytes before and after each area are watched.
const GUARD: usize = 32;
const NOT_0: u16 = 2;

/// An area with watched room before and after it.
pub struct Area<T> {
    all: Vec<T>,
}

impl<T: Copy + PartialEq> Area<T> {
    pub fn filled(length: usize, junk: T) -> Area<T> {
        Area {
            all: vec![junk; length + 2 * GUARD],
        }
    }

    pub fn holding(content: &[T], junk: T) -> Area<T> {
        let mut area = Area::filled(content.len(), junk);
        area.inside_mut().copy_from_slice(content);
        area
    }

    pub fn inside(&self) -> &[T] {
        &self.all[GUARD..self.all.len() - GUARD]
    }

    pub fn inside_mut(&mut self) -> &mut [T] {
        let end = self.all.len() - GUARD;
        &mut self.all[GUARD..end]
    }

    pub fn guards_hold(&self, junk: T) -> bool {
        let end = self.all.len() - GUARD;
        self.all[..GUARD]
            .iter()
            .chain(&self.all[end..])
            .all(|value| *value == junk)
    }
}

/// Whether a list holds first these records, then `not 0`.
pub fn holds(list: &Area<u16>, expected: &[u16]) -> bool {
    let (front, rest) = list.inside().split_at(expected.len());
    front == expected && rest.iter().all(|&record| record == NOT_0)
}

/// Calls one of the C functions over one text.
pub fn call(job: Job, text: &Area<u8>, list: &mut Area<u16>, answer: &mut Area<u8>) -> Outcome {
    let function = match job {
        Job::Map => yilgorza_map,
        Job::Reduce => yilgorza_reduce,
        Job::Invert => yilgorza_invert,
    };
    // One more word before and after, to see writes beside the four.
    let mut outcome = [u64::MAX; 6];
    let text = text.inside();
    let list = list.inside_mut();
    let answer = answer.inside_mut();
    // The areas are live, of the lengths given, and don't overlap.
    unsafe {
        function(
            text.as_ptr(),
            text.len(),
            list.as_mut_ptr(),
            list.len(),
            answer.as_mut_ptr(),
            answer.len(),
            outcome.as_mut_ptr().add(1),
        );
    }
    let [before, number, line, gates, bytes, after] = outcome;
    assert!(
        before == u64::MAX && after == u64::MAX,
        "a word beside the outcome was written"
    );
    Outcome {
        number,
        line,
        gates,
        bytes,
    }
}

/// What a call of a job over several texts left in its outcome, of which one more
/// word before and after shows writes beside the four.
fn several_outcome(outcome: [u64; 6]) -> several::Outcome {
    let [before, number, line, text, count, after] = outcome;
    assert!(
        before == u64::MAX && after == u64::MAX,
        "a word beside the outcome was written"
    );
    several::Outcome {
        number,
        line,
        text,
        count,
    }
}

/// Calls the C function that joins two texts, with one list and one answer area. The
/// two texts may be one area.
pub fn join(
    texts: [&Area<u8>; 2],
    list: &mut Area<u16>,
    answer: &mut Area<u8>,
) -> several::Outcome {
    let mut outcome = [u64::MAX; 6];
    let [first, second] = texts.map(Area::inside);
    let list = list.inside_mut();
    let answer = answer.inside_mut();
    // The areas are live, of the lengths given, and those written don't overlap
    // any other.
    unsafe {
        yilgorza_join(
            first.as_ptr(),
            first.len(),
            list.as_mut_ptr(),
            list.len(),
            second.as_ptr(),
            second.len(),
            answer.as_mut_ptr(),
            answer.len(),
            outcome.as_mut_ptr().add(1),
        );
    }
    several_outcome(outcome)
}

/// Calls the C function that compares two texts, each with its list.
pub fn compare(texts: [&Area<u8>; 2], lists: [&mut Area<u16>; 2]) -> several::Outcome {
    let mut outcome = [u64::MAX; 6];
    let [first, second] = texts.map(Area::inside);
    let [first_list, second_list] = lists.map(Area::inside_mut);
    // The areas are live, of the lengths given, and those written don't overlap
    // any other.
    unsafe {
        yilgorza_compare(
            first.as_ptr(),
            first.len(),
            first_list.as_mut_ptr(),
            first_list.len(),
            second.as_ptr(),
            second.len(),
            second_list.as_mut_ptr(),
            second_list.len(),
            outcome.as_mut_ptr().add(1),
        );
    }
    several_outcome(outcome)
}

/// Calls the C function that follows a slip: texts are the first circuit, the slip and
/// the second circuit, lists those of the two circuits. The texts may be one area.
pub fn slip(texts: [&Area<u8>; 3], lists: [&mut Area<u16>; 2]) -> several::Outcome {
    let mut outcome = [u64::MAX; 6];
    let [first, slip, second] = texts.map(Area::inside);
    let [first_list, second_list] = lists.map(Area::inside_mut);
    // The areas are live, of the lengths given, and those written don't overlap
    // any other.
    unsafe {
        yilgorza_slip(
            first.as_ptr(),
            first.len(),
            first_list.as_mut_ptr(),
            first_list.len(),
            slip.as_ptr(),
            slip.len(),
            second.as_ptr(),
            second.len(),
            second_list.as_mut_ptr(),
            second_list.len(),
            outcome.as_mut_ptr().add(1),
        );
    }
    several_outcome(outcome)
}

/// Kind, control and target of a record.
pub fn read_record(record: u16) -> [u8; 3] {
    // One more byte before and after, to see writes beside the three.
    let mut gate = [0xa5; 5];
    // Three bytes are live from the second on.
    unsafe { yilgorza_gate(record, gate.as_mut_ptr().add(1)) };
    let [before, parts @ .., after] = gate;
    assert!(
        before == 0xa5 && after == 0xa5,
        "a byte beside the gate was written"
    );
    parts
}
