//! Wrong variants of the model, one changed place each. They show that the
//! comparison and the stored lists can fail: each must differ somewhere.
use std::sync::atomic::{AtomicU8, Ordering};

macro_rules! variants {
    ($($group:ident { $($name:ident: $says:literal,)* })*) => {
        #[derive(Clone, Copy, PartialEq, Debug)]
        pub enum Wrong { None, $($($name,)*)* }
        $(pub const $group: &[(Wrong, &str)] = &[$((Wrong::$name, $says),)*];)*
    };
}

// RUN is told from the oracle and by the stored objectives, UNITS by the stored
// budgets, RULES by the stored records (each drops one rule), BACK by the stored
// plans.
#[rustfmt::skip]
variants! {
RUN {
    OneAtZero: "choosing 1 at delta 0",
    CubicDropped: "cubic entry dropped",
    LoWithoutA: "a left out of lo",
    HiWithoutA: "a left out of hi",
    NeverRejoins: "neighbours never rejoin the queue",
    RejoinsWaiting: "neighbours rejoin though they wait",
    RejoinsUnasked: "neighbours rejoin though not eligible",
    TakesFromBack: "take from the back",
    SeveralDominant: "dominant edges tested on the graph as the pass began",
    LastDominant: "last dominant neighbour instead of the first",
    StrictBounds: "bound of exactly 0 does not pass",
    WeakByHiOnly: "weak by the upper bound only",
    WeakByLoOnly: "weak by the lower bound only",
    ThreeBeforeDominant: "degree three before dominant edge",
    ComplementKeepsLinear: "contraction to 1 - x leaves the other neighbours' weights",
    MaskByDecision: "block mask bits by decision",
    HighestMask: "highest mask at ties",
    RemovedReversed: "removed in descending order",
    CutsReversed: "cuts in descending order",
    ApartNotCounted: "components that touch neither cut nor removed not counted",
    BlockOfNine: "blocks up to 9",
    BlockOfSeven: "blocks up to 7",
    DepthFirst: "component grown depth first",
    BoundaryUnsorted: "boundary in the order met",
    OnePassOnly: "stops after the first block",
    DiagonalLost: "diagonal term lost",
    FixedEdgesLost: "fixing 1 leaves the neighbours' weights",
}
UNITS {
    BlockFree: "a block uses no unit",
    EmptyTakeFree: "a take that finds nothing uses no unit",
    SearchCosts: "a search that finds no block uses a unit",
    ShortAtLast: "cut short when the last unit is used though nothing is due",
    BlockUnasked: "a found block is taken with no unit left",
    ShortKeepsPass: "passes 1 when cut short",
}
RULES {
    ByteThree: "byte 3 is zero",
    TailZero: "bytes 460 to 507 are zero",
    ConstantRange: "the constant is within 2^40",
    StatesToThree: "states are 0 to 3",
    ZeroPastN: "states past n are zero",
    ZeroPastSteps: "steps past the count are zero",
    StepIsState3: "a step's decision has state 3",
    State3HasStep: "a state-3 decision has a step",
    StepsOnce: "no decision has two steps",
    UnusedNeighbours: "unused neighbours are zero",
    UnusedChoices: "unused choice bits are zero",
    Ascending: "neighbours ascend strictly",
    BelowN: "neighbours are below n",
    NotFixed: "neighbours are not fixed",
    NotThisStep: "a neighbour is not this step's decision",
    NotEarlierStep: "a neighbour is not an earlier step's decision",
}
BACK {
    FirstToLast: "steps played first to last",
    MaskReversed: "neighbour 0 as the highest bit of the mask",
    FixedLost: "fixed values left at 0",
    OlderLayout: "choices read where an older edition kept them",
    ProjectWhole: "projecting keeps the plan's own tail",
}
}

static CHOSEN: AtomicU8 = AtomicU8::new(0);

pub fn choose(variant: Wrong) {
    CHOSEN.store(variant as u8, Ordering::Relaxed);
}

pub fn wrong(variant: Wrong) -> bool {
    CHOSEN.load(Ordering::Relaxed) == variant as u8
}
