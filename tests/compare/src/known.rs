//! Texts whose answer the papers give, and what the areas lent make of it; none
//! of it comes from the peer.

use peer::{Job, Outcome};

/// A text, and what a job returns for it on a whole list and an ample area.
pub struct Known {
    pub job: Job,
    pub text: Vec<u8>,
    pub ample: Outcome,
}

impl Known {
    /// What the job returns on a list and an answer area of these lengths.
    pub fn outcome(&self, list_len: usize, answer_len: usize) -> Outcome {
        let ample = self.ample;
        if ample.number != 1 && list_len < 4_096 {
            refused(2, 0)
        } else if answer_len as u64 >= ample.bytes {
            ample
        } else if self.job == Job::Map && answer_len == 0 {
            Outcome { bytes: 0, ..ample }
        } else {
            refused(10, 0)
        }
    }
}

fn accepted(gates: u64, bytes: u64) -> Outcome {
    Outcome {
        number: 0,
        line: 0,
        gates,
        bytes,
    }
}

fn refused(number: u64, line: u64) -> Outcome {
    Outcome {
        number,
        line,
        gates: 0,
        bytes: 0,
    }
}

/// An mct line with the first k lines as controls.
fn mct(k: usize, target: usize) -> String {
    let controls: Vec<String> = (0..k).map(|c| c.to_string()).collect();
    format!("(mct ({}) {target})\n", controls.join(" "))
}

/// The examples, texts without gates, full lists and each refusal but 2 and 10.
pub fn all() -> Vec<Known> {
    let overlong = "x".repeat(60_001);
    // Sixteen controls that name every line, which is 8, and all but one, which is 7.
    let wide_no_spare = format!("(lines 17)\n{}", mct(16, 16));
    let too_wide = format!("(lines 18)\n{}", mct(16, 16));
    let widest = format!("(lines 32)\n{}", mct(31, 31));
    let past_expansion = format!("(lines 17)\n{}", mct(15, 15).repeat(12));
    let past_mcts = format!("(lines 2)\n{}", mct(1, 1).repeat(257));
    let [wide_no_spare_negated, too_wide_negated] =
        [&wide_no_spare, &too_wide].map(|text| text.replace("15)", "-15)"));
    // Eleven gates of 15 controls are 4,092; three negated controls are six more.
    let past_nots = format!("(lines 17)\n{}", mct(15, 15).repeat(11));
    let past_nots = past_nots.replacen("(0 1 2 3", "(-0 -1 2 -3", 1);
    let past_mcts_negated = past_mcts.replace("(0)", "(-0)");
    let all_kept = format!("(lines 2)\n(keep 0 1)\n{}", mct(1, 1).repeat(256));
    let past_mcts_kept = format!("{all_kept}{}", mct(1, 1));
    // Sixteen controls, and the only other line kept, which is 8; with one more it is 7.
    let wide_kept = format!("(lines 18)\n(keep 17)\n{}", mct(16, 16));
    let too_wide_kept = format!("(lines 19)\n(keep 17)\n{}", mct(16, 16));
    let full = format!("(lines 32)\n{}", "(vp 30 31)\n(vp 31 30)\n".repeat(2_048));
    let past_full = format!("{full}(not 0)\n");
    let map = [
        ("(lines 3)\n(mct (0 1) 2)\n", accepted(5, 53)),
        ("(lines 3)\n(mct (0 1) 2)\n(mct (0 1) 2)\n", accepted(9, 89)),
        ("(lines 5)\n(mct (0 1 2) 3)\n", accepted(14, 131)),
        ("(lines 2)\n(mct (0) 1)\n(mct (0) 1)\n", accepted(0, 10)),
        ("(lines 7)\n", accepted(0, 10)),
        ("(lines 32)\n", accepted(0, 11)),
        (&overlong, refused(1, 0)),
        (&overlong[1..], refused(3, 1)),
        ("", refused(3, 1)),
        ("(lines 3)\n(mct (0 1) 2)", refused(3, 2)),
        ("(lines 33)\n", refused(4, 1)),
        ("(lines 3)\n(mct (0 3) 2)\n", refused(4, 2)),
        ("(lines 3)\n(mct (0 2) 2)\n", refused(5, 2)),
        ("(lines 3)\n(mct (1 0) 2)\n", refused(6, 2)),
        (&wide_no_spare, refused(8, 2)),
        (&too_wide, refused(7, 2)),
        (&widest, refused(8, 2)),
        ("(lines 4)\n(mct (0 1 2) 3)\n", refused(8, 2)),
        (&past_expansion, refused(9, 13)),
        (&past_mcts, refused(9, 258)),
        ("(lines 2)\n(mct (-0) 1)\n", accepted(3, 35)),
        ("(lines 3)\n(mct (-0 -1) 2)\n", accepted(9, 85)),
        ("(lines 2)\n(mct (-0) 1)\n(mct (-0) 1)\n", accepted(0, 10)),
        ("(lines 2)\n(mct (--0) 1)\n", refused(3, 2)),
        ("(lines 2)\n(mct (0) -1)\n", refused(3, 2)),
        ("(lines -2)\n(mct (0) 1)\n", refused(3, 1)),
        ("(lines 3)\n(mct (-0 -3) 2)\n", refused(4, 2)),
        ("(lines 3)\n(mct (0 -2) 2)\n", refused(5, 2)),
        ("(lines 3)\n(mct (1 -1) 2)\n", refused(6, 2)),
        (&wide_no_spare_negated, refused(8, 2)),
        (&too_wide_negated, refused(7, 2)),
        ("(lines 4)\n(mct (-0 1 -2) 3)\n", refused(8, 2)),
        (&past_nots, refused(9, 12)),
        (&past_mcts_negated, refused(9, 258)),
        // tests/peer has how the list of the second is found by hand.
        ("(lines 5)\n(keep 4)\n(mct (0 1 2) 3)\n", refused(8, 3)),
        ("(lines 6)\n(keep 4)\n(mct (0 1 2) 3)\n", accepted(14, 131)),
        ("(lines 3)\n(keep 0 1 2)\n(mct (0 1) 2)\n", accepted(5, 53)),
        ("(lines 3)\n(keep 0 1 2)\n", accepted(0, 10)),
        (&all_kept, accepted(0, 10)),
        (&past_mcts_kept, refused(9, 259)),
        (&wide_kept, refused(8, 3)),
        (&too_wide_kept, refused(7, 3)),
        ("(lines 3)\n(keep)\n(mct (0 1) 2)\n", refused(3, 2)),
        ("(lines 3)\n(keep -0)\n", refused(3, 2)),
        ("(lines 3)\n(keep 0)", refused(3, 2)),
        ("(lines 3)\n(keep 1 0 3)\n", refused(4, 2)),
        ("(lines 3)\n(keep 1 1)\n", refused(6, 2)),
        ("(lines 3)\n(keep 0)\n(keep 1)\n", refused(3, 3)),
        ("(lines 3)\n(mct (0 1) 2)\n(keep 0)\n", refused(3, 3)),
        ("(keep 0)\n(lines 3)\n", refused(3, 1)),
    ];
    let reduce = [
        ("(lines 2)\n(v 0 1)\n(v 0 1)\n", accepted(1, 19)),
        ("(lines 2)\n(cn 0 1)\n(v 0 1)\n", accepted(1, 19)),
        ("(lines 2)\n(v 0 1)\n(vp 0 1)\n", accepted(0, 10)),
        ("(lines 3)\n(cn 0 2)\n(cn 1 2)\n(cn 0 2)\n", accepted(1, 19)),
        ("(lines 3)\n(cn 0 1)\n(cn 1 2)\n(cn 0 1)\n", accepted(3, 37)),
        ("(lines 2)\n(cn 0 1)\n(not 1)\n", accepted(2, 27)),
        ("(lines 2)\n(not 0)\n(cn 0 1)\n(not 0)\n", accepted(3, 35)),
        ("(lines 7)\n", accepted(0, 10)),
        (&full, accepted(4_096, 45_067)),
        (&overlong, refused(1, 0)),
        ("", refused(3, 1)),
        ("(lines 2)\n(v 0 1)", refused(3, 2)),
        ("(lines 33)\n", refused(4, 1)),
        ("(lines 2)\n(v 2 1)\n", refused(4, 2)),
        ("(lines 2)\n(v 1 1)\n", refused(5, 2)),
        (&past_full, refused(9, 4_098)),
        ("(lines 2)\n(v 0 1)\n(v -0 1)\n", refused(3, 3)),
        ("(lines 2)\n(mct (-0) 1)\n", refused(3, 2)),
        (&wide_no_spare, refused(3, 2)),
        (&too_wide, refused(3, 2)),
        ("(lines 2)\n(keep 0)\n(v 0 1)\n", refused(3, 2)),
        ("(lines 2)\n(keep 0)\n", refused(3, 2)),
        ("(lines 2)\n(v 0 1)\n(keep 0)\n", refused(3, 3)),
    ];
    // The gates reversed, v and vp exchanged, then reduced.
    let invert = [
        ("(lines 2)\n(v 0 1)\n", accepted(1, 19)),
        ("(lines 2)\n(vp 0 1)\n", accepted(1, 18)),
        ("(lines 2)\n(cn 0 1)\n", accepted(1, 19)),
        ("(lines 2)\n(not 1)\n", accepted(1, 18)),
        ("(lines 2)\n(v 0 1)\n(v 0 1)\n", accepted(1, 19)),
        ("(lines 2)\n(cn 0 1)\n(v 0 1)\n", accepted(1, 18)),
        ("(lines 2)\n(v 0 1)\n(vp 0 1)\n", accepted(0, 10)),
        ("(lines 3)\n(cn 0 2)\n(cn 1 2)\n(cn 0 2)\n", accepted(1, 19)),
        ("(lines 3)\n(cn 0 1)\n(v 1 2)\n(cn 0 1)\n", accepted(3, 37)),
        ("(lines 3)\n(v 0 1)\n(vp 1 2)\n(v 0 1)\n", accepted(3, 36)),
        ("(lines 2)\n(not 0)\n(vp 0 1)\n(not 0)\n", accepted(3, 34)),
        ("(lines 32)\n", accepted(0, 11)),
        (&full, accepted(4_096, 40_971)),
        (&overlong, refused(1, 0)),
        (&overlong[1..], refused(3, 1)),
        ("", refused(3, 1)),
        ("(lines 2)\n(v 0 1)", refused(3, 2)),
        ("(lines 33)\n", refused(4, 1)),
        ("(lines 2)\n(v 2 1)\n", refused(4, 2)),
        ("(lines 2)\n(not 0)\n(v 1 1)\n", refused(5, 3)),
        (&past_full, refused(9, 4_098)),
        ("(lines 2)\n(v 0 1)\n(v -0 1)\n", refused(3, 3)),
        ("(lines 2)\n(mct (0) 1)\n", refused(3, 2)),
        (&too_wide, refused(3, 2)),
        ("(lines 2)\n(keep 0)\n(v 0 1)\n", refused(3, 2)),
        ("(lines 2)\n(keep 2)\n", refused(3, 2)),
    ];
    let known = |job| {
        move |&(text, ample): &(&str, Outcome)| Known {
            job,
            text: text.as_bytes().to_vec(),
            ample,
        }
    };
    let map = map.iter().map(known(Job::Map));
    let reduce = reduce.iter().map(known(Job::Reduce));
    let invert = invert.iter().map(known(Job::Invert));
    map.chain(reduce).chain(invert).collect()
}
