//! The expansion of one mct gate into NCV gates.
//!
//! Each gate has an ordered list of spares, of which one with three or more
//! controls takes the first; the smaller gates that it is made from get what is
//! left of the list and the lines that they do not name (001, section III.B).

use crate::gate::Gate;

/// The most lines of a circuit, and so of any list of lines.
const MOST_LINES: usize = 32;

/// Appends the expansion of an mct gate on `target` with these controls, of which some
/// are negated, and these spares: a NOT on each negated line before the expansion of
/// the gate without signs, and again after it. Controls and negated ones rise
/// strictly, and there is a spare if there are three controls or more.
pub fn expand_mct(
    controls: &[u8],
    negated: &[u8],
    target: u8,
    spares: &[u8],
    gates: &mut Vec<Gate>,
) {
    let nots = || negated.iter().map(|&line| Gate::not(line));
    gates.extend(nots());
    expand(controls, target, spares, gates);
    gates.extend(nots());
}

/// The spares of an mct gate: all unnamed lines that are not kept, rising. The kept
/// ones are given as a bit for each.
pub fn spares(lines: u8, kept: u32, controls: &[u8], target: u8) -> Vec<u8> {
    let mut spares = unnamed(lines, controls, target);
    spares.retain(|&line| kept >> line & 1 == 0);
    spares
}

/// All lines that an mct gate names neither as control nor as target, rising.
pub fn unnamed(lines: u8, controls: &[u8], target: u8) -> Vec<u8> {
    let named = controls
        .iter()
        .fold(1u32 << target, |named, &control| named | 1 << control);
    let mut unnamed = Vec::with_capacity(MOST_LINES);
    unnamed.extend((0..lines).filter(|&line| named >> line & 1 == 0));
    unnamed
}

/// Appends the expansion of the gate on `target` with these controls and these
/// spares, of which there is one at least if there are three controls or more.
pub fn expand(controls: &[u8], target: u8, spares: &[u8], gates: &mut Vec<Gate>) {
    match *controls {
        [] => gates.push(Gate::not(target)),
        [a] => gates.push(Gate::powered(2, a, target)),
        [a, b] => gates.extend([
            Gate::powered(1, b, target),
            Gate::powered(2, a, b),
            Gate::powered(3, b, target),
            Gate::powered(2, a, b),
            Gate::powered(1, a, target),
        ]),
        _ => {
            let (&s, remaining) = spares.split_first().expect("a spare line");
            let (c0, c1) = controls.split_at(controls.len() / 2);
            let mut room = [0; MOST_LINES];
            gates.push(Gate::powered(1, s, target));
            let m0 = gates.len();
            let m0_spares = joined([&[target], remaining, c1], &mut room);
            expand(c0, s, m0_spares, gates);
            let m0 = m0..gates.len();
            gates.push(Gate::powered(3, s, target));
            let m1 = gates.len();
            let m1_spares = joined([remaining, c0], &mut room);
            expand(c1, s, m1_spares, gates);
            let m1 = m1..gates.len();
            gates.push(Gate::powered(1, s, target));
            append_undone(m0, gates);
            gates.push(Gate::powered(3, s, target));
            append_undone(m1, gates);
        }
    }
}

/// Lists of different lines, one after the other, in the room lent for them.
fn joined<'a, const LISTS: usize>(
    lists: [&[u8]; LISTS],
    room: &'a mut [u8; MOST_LINES],
) -> &'a [u8] {
    let mut count = 0;
    for list in lists {
        room[count..count + list.len()].copy_from_slice(list);
        count += list.len();
    }
    &room[..count]
}

/// Appends a stretch of the gates reversed, with v and vp exchanged.
fn append_undone(stretch: std::ops::Range<usize>, gates: &mut Vec<Gate>) {
    for place in stretch.rev() {
        let undone = gates[place].undone();
        gates.push(undone);
    }
}
