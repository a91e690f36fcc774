//! Maps a cascade of multiple-control Toffoli gates to a list of NCV gates, reduces
//! such a list, inverts it, joins two of them, says whether two are one circuit, and
//! checks the steps that are said to lead from one to another.
//!
//! ```
//! let mapped = yilgorza::map(b"(lines 2)\n(mct (0) 1)\n").unwrap();
//! assert_eq!(mapped.text, b"(lines 2)\n(cn 0 1)\n");
//! assert_eq!(mapped.gates, [yilgorza::Gate::Cn { control: 0, target: 1 }]);
//!
//! let redrawn = b"(lines 2)\n(v 0 1)\n(v 0 1)\n";
//! assert!(yilgorza::compare(&mapped.text, redrawn).unwrap().is_eq());
//!
//! let undo = yilgorza::invert(redrawn).unwrap();
//! assert!(yilgorza::join(redrawn, &undo.text).unwrap().gates.is_empty());
//!
//! assert!(yilgorza::slip(redrawn, b"(merge 1)\n", &mapped.text).is_ok());
//! ```
//!
//! [`map`], [`reduce`], [`invert`], [`join`], [`compare`] and [`slip`] bring the memory
//! that the C functions of `include/yilgorza.h` are lent; [`lent`] has them on memory of
//! the caller's. The quote of a cascade is the number of gates that [`map`] gives;
//! [`lent::map`] gives it without the text too.

mod declared;
mod ffi;
pub mod lent;

use std::cmp::Ordering;
use std::fmt;

/// The records of a gate list, and the bytes of an answer area that has room for
/// every answer.
pub const LIST_RECORDS: usize = 4096;
pub const ANSWER_BYTES: usize = 45067;

/// A gate of a circuit.
#[derive(Clone, Copy, Debug, PartialEq, Eq, Hash)]
pub enum Gate {
    Not { target: u8 },
    V { control: u8, target: u8 },
    Cn { control: u8, target: u8 },
    Vp { control: u8, target: u8 },
}

/// The numbers of a refusal. A line of the text is tried against 3, 4, 5, 6, 8, 7
/// and 9, in this order: so a gate with 16 or more controls that may borrow no line,
/// since it names each of them or the line is kept, gets [`Number::NoSpare`], and once a
/// line is added [`Number::TooWide`].
#[derive(Clone, Copy, Debug, PartialEq, Eq, Hash)]
pub enum Number {
    Overlong = 1,
    ShortList = 2,
    Malformed = 3,
    NoSuchLine = 4,
    Crossed = 5,
    Unsorted = 6,
    TooWide = 7,
    NoSpare = 8,
    TooMany = 9,
    ShortAnswer = 10,
    /// From [`join`] and [`slip`] alone, once all texts are read; before join counts the
    /// gates of both together, and before slip takes a step.
    DifferentLines = 11,
    /// From [`slip`] alone, of the first step that is not allowed on the circuit so far.
    NotAllowed = 12,
    /// From [`slip`] alone, once every step is taken: they end at another circuit.
    OtherEnd = 13,
}

/// Why a text is turned away, and its line, counted from 1; 0 where the refusal
/// is not about a line.
#[derive(Clone, Copy, Debug, PartialEq, Eq, Hash)]
pub struct Refusal {
    pub number: Number,
    pub line: u64,
}

/// Why a job over several texts turns them away: the refusal, and the text whose
/// rule or line refuses, counted from 1 in the order in which the job takes them; 0
/// where the refusal is not about one of them.
#[derive(Clone, Copy, Debug, PartialEq, Eq, Hash)]
pub struct SeveralRefusal {
    pub number: Number,
    pub line: u64,
    pub text: u64,
}

impl Number {
    /// The numbers in order, from 1.
    pub const ALL: [Number; 13] = [
        Number::Overlong,
        Number::ShortList,
        Number::Malformed,
        Number::NoSuchLine,
        Number::Crossed,
        Number::Unsorted,
        Number::TooWide,
        Number::NoSpare,
        Number::TooMany,
        Number::ShortAnswer,
        Number::DifferentLines,
        Number::NotAllowed,
        Number::OtherEnd,
    ];

    /// The refusal in a customer's words.
    pub fn words(self) -> &'static str {
        match self {
            Number::Overlong => "the text is longer than 60,000 bytes",
            Number::ShortList => "the service lent a gate list of fewer than 4,096 records",
            Number::Malformed => "this line of the text is not written in the form asked for",
            Number::NoSuchLine => {
                "this line of the text names a line that the circuit does not have \
                 (or line 1 of the text asks for none, or for more than 32)"
            }
            Number::Crossed => "a gate is controlled by its own target",
            Number::Unsorted => {
                "the controls of a gate, or the lines to be kept, are not in rising order"
            }
            Number::TooWide => "a gate has more than 15 controls",
            Number::NoSpare => {
                "a gate with three or more controls has no line left that it may borrow: \
                 add a line to the circuit"
            }
            Number::TooMany => {
                "too many gates: the 257th of a cascade, an expansion past 4,096, \
                 or the 4,097th of a circuit or of two that are joined; \
                 or too many steps: the 4,097th of a slip"
            }
            Number::ShortAnswer => "the service lent an answer area that is too short",
            Number::DifferentLines => "the two circuits do not have the same number of lines",
            Number::NotAllowed => {
                "this step of the slip is not allowed: the two gates at its place \
                 do not pass or merge, or there are no two gates there"
            }
            Number::OtherEnd => "the steps of the slip end at another circuit than the second",
        }
    }
}

impl fmt::Display for Refusal {
    fn fmt(&self, f: &mut fmt::Formatter<'_>) -> fmt::Result {
        let Refusal { number, line } = *self;
        write!(
            f,
            "(turned-away {} {line}): {}",
            number as u64,
            number.words()
        )
    }
}

impl std::error::Error for Refusal {}

impl fmt::Display for SeveralRefusal {
    fn fmt(&self, f: &mut fmt::Formatter<'_>) -> fmt::Result {
        let SeveralRefusal { number, line, text } = *self;
        let place = match text {
            0 => "",
            1 => "the first text: ",
            2 => "the second text: ",
            _ => "the third text: ",
        };
        write!(
            f,
            "(turned-away {} {line} {text}): {place}{}",
            number as u64,
            number.words()
        )
    }
}

impl std::error::Error for SeveralRefusal {}

/// The reduced list of a text, and its circuit text.
#[derive(Clone, Debug, PartialEq, Eq)]
pub struct Circuit {
    pub text: Vec<u8>,
    pub gates: Vec<Gate>,
}

/// Maps a cascade text to a circuit. A minus sign directly before a control negates
/// it: it is met when its line is 0, any other when its line is 1.
///
/// ```
/// let mapped = yilgorza::map(b"(lines 2)\n(mct (-0) 1)\n").unwrap();
/// assert_eq!(mapped.text, b"(lines 2)\n(not 0)\n(cn 0 1)\n(not 0)\n");
/// ```
///
/// A gate with three or more controls borrows lines of the circuit. Line 2 of the text may
/// name lines that nobody may borrow, in `(keep a b ..)`: such a line is used only by the
/// gates that name it. It counts as a line of the text.
///
/// ```
/// let kept = yilgorza::map(b"(lines 6)\n(keep 4)\n(mct (0 1 2) 3)\n").unwrap();
/// assert_eq!(kept.gates.len(), 14);
/// assert!(kept.gates.contains(&yilgorza::Gate::Cn { control: 0, target: 5 }));
///
/// let refusal = yilgorza::map(b"(lines 5)\n(keep 4)\n(mct (0 1 2) 3)\n").unwrap_err();
/// assert_eq!((refusal.number, refusal.line), (yilgorza::Number::NoSpare, 3));
/// ```
pub fn map(text: &[u8]) -> Result<Circuit, Refusal> {
    circuit(lent::map, text)
}

/// Reduces a circuit text.
pub fn reduce(text: &[u8]) -> Result<Circuit, Refusal> {
    circuit(lent::reduce, text)
}

/// Inverts a circuit text: its gates reversed, v and vp exchanged, and the circuit so
/// made reduced. It undoes the circuit, so that customers can uncompute what they
/// computed: joined with it, either way round, it gives no gates. The inverse of the
/// inverse is what [`reduce`] gives.
///
/// ```
/// let undo = yilgorza::invert(b"(lines 2)\n(not 0)\n(v 0 1)\n").unwrap();
/// assert_eq!(undo.text, b"(lines 2)\n(vp 0 1)\n(not 0)\n");
/// ```
pub fn invert(text: &[u8]) -> Result<Circuit, Refusal> {
    circuit(lent::invert, text)
}

/// Joins two circuit texts on the same number of lines, the first before the second,
/// and reduces. As they are read they have together at most 4,096 gates.
///
/// ```
/// let joined = yilgorza::join(b"(lines 2)\n(cn 0 1)\n", b"(lines 2)\n(v 0 1)\n").unwrap();
/// assert_eq!(joined.text, b"(lines 2)\n(vp 0 1)\n");
///
/// let refusal = yilgorza::join(b"(lines 2)\n", b"(lines 3)\n").unwrap_err();
/// assert_eq!(refusal.number, yilgorza::Number::DifferentLines);
/// ```
pub fn join(first: &[u8], second: &[u8]) -> Result<Circuit, SeveralRefusal> {
    let mut list = vec![0; LIST_RECORDS];
    let mut answer = vec![0; ANSWER_BYTES];
    let bytes = lent::join(first, &mut list, second, &mut answer)?;
    answer.truncate(bytes);
    // Line 1 is no gate, and each later line is one.
    let gates = answer.iter().filter(|byte| **byte == b'\n').count() - 1;
    Ok(Circuit {
        gates: read_gates(&list[..gates]),
        text: answer,
    })
}

/// Compares two circuit texts: by the number of lines of the circuit, then by the
/// dictionary order of the reduced lists, a list that ends sooner first. They are
/// equal exactly if they are on the same number of lines and passes and merges lead
/// from one circuit to the other. It is a total order, and can sort:
///
/// ```
/// let mut circuits = ["(lines 3)\n", "(lines 2)\n(cn 0 1)\n", "(lines 2)\n(not 0)\n"];
/// circuits.sort_by(|a, b| yilgorza::compare(a.as_bytes(), b.as_bytes()).unwrap());
/// assert_eq!(circuits, ["(lines 2)\n(not 0)\n", "(lines 2)\n(cn 0 1)\n", "(lines 3)\n"]);
/// ```
pub fn compare(first: &[u8], second: &[u8]) -> Result<Ordering, SeveralRefusal> {
    let mut first_list = vec![0; LIST_RECORDS];
    let mut second_list = vec![0; LIST_RECORDS];
    lent::compare(first, &mut first_list, second, &mut second_list)
}

/// Checks a reduction that was made elsewhere: whether the steps of a slip lead from the
/// first circuit to the second. It is accepted exactly if each step is allowed on the
/// circuit so far and the last circuit is the second, gate for gate. Then [`compare`]
/// finds the two equal, so they have one reduced list.
///
/// A slip has a step on each line, at most 4,096, and no `(lines n)`; it may be empty.
/// `(pass i)` exchanges the gates at the places i and i + 1, counted from 1, if neither's
/// target is the other's control. `(merge i)` puts one gate in place of two with the same
/// control and target, its power the sum of theirs modulo 4, or none if that is 0; two
/// NOTs on one line vanish. In a refusal the slip is text 2, the second circuit text 3.
///
/// ```
/// let circuit = b"(lines 3)\n(cn 0 2)\n(cn 1 2)\n(cn 0 2)\n";
/// let second = b"(lines 3)\n(cn 1 2)\n";
/// assert!(yilgorza::slip(circuit, b"(pass 2)\n(merge 1)\n", second).is_ok());
///
/// let refusal = yilgorza::slip(circuit, b"(merge 1)\n", second).unwrap_err();
/// assert_eq!(refusal.number, yilgorza::Number::NotAllowed);
/// assert_eq!((refusal.line, refusal.text), (1, 2));
/// ```
pub fn slip(circuit: &[u8], slip: &[u8], second: &[u8]) -> Result<(), SeveralRefusal> {
    let mut first_list = vec![0; LIST_RECORDS];
    let mut second_list = vec![0; LIST_RECORDS];
    lent::slip(circuit, &mut first_list, slip, second, &mut second_list)
}

type Writing = fn(&[u8], &mut [u16], &mut [u8]) -> Result<lent::Counts, Refusal>;

fn circuit(job: Writing, text: &[u8]) -> Result<Circuit, Refusal> {
    let mut list = vec![0; LIST_RECORDS];
    let mut answer = vec![0; ANSWER_BYTES];
    let counts = job(text, &mut list, &mut answer)?;
    answer.truncate(counts.bytes);
    Ok(Circuit {
        gates: read_gates(&list[..counts.gates]),
        text: answer,
    })
}

fn read_gates(records: &[u16]) -> Vec<Gate> {
    let gate = |record: &u16| lent::gate(*record).expect("a list given holds gates");
    records.iter().map(gate).collect()
}
