// The door: appended to the copy of low_degree.rs by build.rs.
pub struct Opened {
    pub reduction: RootReduction,
    pub steps: Vec<(usize, Vec<usize>, [usize; 8])>,
}

pub fn open_reduce(qubo: &Qubo, fixed: &FixedVarMap, options: &SolverOptions) -> Option<Opened> {
    let ample = Duration::from_secs(1_000_000);
    let reduction = reduce(qubo, fixed, options, ample, false)?;
    let steps = reduction
        .steps
        .iter()
        .map(|step| (step.variable, step.neighbors.clone(), step.choices))
        .collect();
    Some(Opened { reduction, steps })
}

/// For timing: `reduce` and nothing else.
pub fn only_reduce(qubo: &Qubo, fixed: &FixedVarMap, options: &SolverOptions) -> bool {
    let ample = Duration::from_secs(1_000_000);
    std::hint::black_box(reduce(qubo, fixed, options, ample, false)).is_some()
}
