//! Wrong answers, made of right ones, to see that the comparison notices them. With `--fault NAME` every
//! answer that can have the fault has it, and the program has to end with status 1. Some are put into what is
//! due and not into what is said: there the comparison has a wrong oracle.

/// Whether a fault is asked for.
#[derive(Clone, Copy, Default)]
pub struct Fault(Option<&'static str>);

pub const FAULTS: [&str; 76] = [
    "search number",
    "search count",
    "search place",
    "cut by one",
    "cuts exchanged",
    "cuts behind",
    "cuts beyond",
    "cuts before",
    "floats",
    "floats beyond",
    "indices",
    "indices beyond",
    "pool",
    "pool beyond",
    "cleared by a refusal",
    "reading changed",
    "chart number",
    "chart count",
    "record's first value",
    "record bit",
    "record side",
    "sides exchanged",
    "both told as one",
    "record index",
    "record behind",
    "record beyond",
    "record before",
    "side beyond",
    "index beyond",
    "another side by no power",
    "another power and statistic",
    "another power and index",
    "another power and a record less",
    "sigma before the target",
    "the weight before sigma",
    "the bound before the weight",
    "the edition after the settings",
    "the edition after all else",
    "any number taken as edition 2",
    "gaps left out in edition 1",
    "gaps counted in edition 2",
    "editions exchanged",
    "edition 2 from place 1",
    "no place 0 in edition 2",
    "a gap's limits a place on",
    "editions apart without a gap",
    "points",
    "points behind",
    "points beyond",
    "run length",
    "run length number",
    "heard early",
    "unheard",
    "heard on the other side",
    "unheard point",
    "piece number",
    "piece length",
    "piece mean",
    "piece has a spread",
    "piece spread",
    "a spread by the length",
    "a spread of one reading",
    "a cost below 0 kept",
    "a NaN cost is 0",
    "a NaN spread is none",
    "a root of the spread",
    "noise",
    "noise area",
    "noise beyond",
    "package",
    "elementary",
    "ln 2 in one part",
    "a low part that the rounded ln 2 leaves",
    "the high part's product first",
    "ln as far off as before",
    "ln changed where e is 0",
];

impl Fault {
    /// The fault of this name.
    pub fn named(name: &str) -> Option<Self> {
        let known = FAULTS.into_iter().find(|&fault| fault == name)?;
        Some(Fault(Some(known)))
    }

    pub fn is(self, name: &str) -> bool {
        debug_assert!(FAULTS.contains(&name));
        self.0 == Some(name)
    }
}
