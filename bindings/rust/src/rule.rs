//! The ten rules of document 01.

use crate::numbered::numbered;

numbered! {
    /// The rule that a step carried out.
    Rule, "rule":
    Interchange 1 "Interchange",
    Memo 2 "Memo",
    Dereference 3 "Dereference",
    Identify 4 "Identify",
    Conflict 5 "Conflict",
    Decompose 6 "Decompose",
    Initiate 7 "Initiate",
    Win 8 "Win",
    Lose 9 "Lose",
    Arrive 10 "Arrive",
}
