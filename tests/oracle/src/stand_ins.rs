//! Stand-ins for what `low_degree.rs` names. Only `Qubo` is ever run: with
//! presolve false and cut dominance off nothing else is reached.
use crate::FixedVarMap;

pub mod qubo {
    use ndarray::Array1;
    use sprs::CsMat;

    #[derive(Clone)]
    pub struct Qubo {
        pub q: CsMat<f64>,
        pub c: Array1<f64>,
    }

    impl Qubo {
        pub fn new(q: CsMat<f64>) -> Self {
            let c = Array1::zeros(q.cols());
            Self { q, c }
        }

        pub fn new_with_c(q: CsMat<f64>, c: Array1<f64>) -> Self {
            Self { q, c }
        }

        pub fn num_x(&self) -> usize {
            self.q.cols()
        }
    }
}

pub fn preprocess_qubo(_: &qubo::Qubo, _: &FixedVarMap, _: bool) -> FixedVarMap {
    unreachable!("presolve is false")
}

pub struct RoofDualityResult {
    pub fixed_variables: FixedVarMap,
    pub weak_fixed_variables: FixedVarMap,
}

pub struct PreparedRoofDual;

impl PreparedRoofDual {
    pub fn new(_: &qubo::Qubo) -> Self {
        unreachable!("presolve is false")
    }

    pub fn solve_iterative(&self, _: &FixedVarMap, _: usize) -> RoofDualityResult {
        unreachable!("presolve is false")
    }

    pub fn solve_iterative_with_weak_persistencies(
        &self,
        _: &FixedVarMap,
        _: usize,
    ) -> RoofDualityResult {
        unreachable!("presolve is false")
    }
}

// The three choices that `SolverOptions` holds and `reduce` never reads.
pub mod choices {
    #[derive(Clone)]
    pub enum BranchStrategy {
        FirstNotFixed,
        MostViolated,
        Random,
        WorstApproximation,
        WorstApproximation2,
        MostEdges,
        LargestEdges,
        MostFixed,
        FullStrongBranching,
        PartialStrongBranching,
        RoundRobin,
        LargestDiag,
        MoveingEdges,
        ConnectedComponents,
    }

    #[derive(Clone)]
    pub enum SubProblemSelection {
        ClarabelLP,
        HerculesABQP,
        HerculesCDQP,
        MixingCutSDP,
        MixingCutSDPMomentum,
        RoofDualQPBO,
    }

    #[derive(Clone)]
    pub enum HeuristicSelection {
        SimpleRounding,
        LocalSearch,
    }
}

/// Instead of the clock, where its calls are taken out: no time ever passes.
pub mod still {
    use std::ops::Add;
    use std::time::Duration;

    #[derive(Clone, Copy, PartialEq, PartialOrd)]
    pub struct Instant(Duration);

    impl Instant {
        pub fn now() -> Self {
            Self(Duration::ZERO)
        }

        pub fn elapsed(&self) -> Duration {
            Duration::ZERO
        }
    }

    impl Add<Duration> for Instant {
        type Output = Self;
        fn add(self, after: Duration) -> Self {
            Self(self.0 + after)
        }
    }
}
