//! Known faults, planted on request so that a comparison can be seen to fail.
//! They are document 01's plausible wrong turns, the replay that copies, the
//! wrong counts of live cells, and the former rule for unset pointers.

#[derive(Clone, Copy, PartialEq, Eq, Debug)]
pub enum Fault {
    /// Only whether the cell is live at the moment is tested.
    LiveNow,
    /// A reused cell's selectors are cleared.
    ClearedSelectors,
    /// The freed cell's own selectors are forgotten where unset.
    UnsetSelectors,
    /// Every copy of an invalid word is called a race.
    CopyRaces,
    /// The replay copies the log.
    ReplayCopies,
    /// A free does not count its cell out of the live ones.
    UncountedFree,
    /// A malloc of a freed cell does not count it among the live ones.
    UncountedReuse,
    /// An assertion on an unset pointer always passes.
    UnsetPasses,
}

pub const FAULTS: [(&str, Fault); 8] = [
    ("live_now", Fault::LiveNow),
    ("cleared_selectors", Fault::ClearedSelectors),
    ("unset_selectors", Fault::UnsetSelectors),
    ("copy_races", Fault::CopyRaces),
    ("replay_copies", Fault::ReplayCopies),
    ("uncounted_free", Fault::UncountedFree),
    ("uncounted_reuse", Fault::UncountedReuse),
    ("unset_passes", Fault::UnsetPasses),
];

pub fn fault_named(name: &str) -> Option<Fault> {
    let found = FAULTS.iter().find(|(known, _)| *known == name);
    found.map(|&(_, fault)| fault)
}
