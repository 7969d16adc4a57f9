//! soundness SEED COUNT: tries every plan of small objectives, at several budgets.
//! Every answer grown back costs, in the original, what it costs in the reduced
//! objective; and no plan that keeps the fixings costs less than its projection.
use model::back::{grow_back_block, project_block};
use model::generator::objective;
use model::graph::Graph;
use model::objective::Objective;
use model::random::Random;
use model::record::{read, write, Record};
use model::run::{reduce, Reduction};
use std::process::ExitCode;

fn main() -> ExitCode {
    let args: Vec<u64> = std::env::args().skip(1).map(|a| a.parse().unwrap()).collect();
    let mut random = Random(args[0] ^ 0x5eed);
    let (mut runs, mut plans, mut short, mut wrong) = (0u64, 0u64, 0u64, 0u64);
    for _ in 0..args[1] {
        let n = random.below(13);
        let mut o = objective(&mut random, n);
        let full = reduce(&o).unwrap();
        let units = full.units;
        let mut budgets = vec![0, 1, units / 3, units / 2, units.saturating_sub(1), units];
        budgets.sort();
        budgets.dedup();
        for budget in budgets {
            o.budget = budget;
            let reduction = reduce(&o).unwrap();
            runs += 1;
            short += u64::from(!reduction.complete);
            wrong += u64::from(reduction.complete != (budget >= units));
            wrong += u64::from(reduction.units != budget.min(units));
            wrong += u64::from(!full.steps.starts_with(&reduction.steps));
            let (tried, failed) = both_halves(&o, &reduction);
            plans += tried;
            wrong += failed;
        }
    }
    println!("every plan tried: objectives {}, runs {runs}, cut short {short}, plans {plans}, wrong {wrong}", args[1]);
    if wrong == 0 && short > 0 {
        ExitCode::SUCCESS
    } else {
        ExitCode::FAILURE
    }
}

fn both_halves(o: &Objective, reduction: &Reduction) -> (u64, u64) {
    let original = Graph::built(o);
    let n = o.n as usize;
    let r = reduction.remaining.len();
    let block = write(&Record::of(reduction), 512).expect("a run's record is not broken");
    let mut failed = u64::from(read(&block) != Ok(Record::of(reduction)));
    for number in 0..1u64 << r {
        let answer = bits(number, r);
        let plan = grow_back_block(&block, &answer, n).unwrap();
        failed += u64::from(original.cost(&plan) != reduced_cost(reduction, &answer));
        failed += u64::from(!keeps_fixings(o, &plan));
    }
    let mut tried = 1 << r;
    for plan in (0..1u64 << n).map(|number| bits(number, n)).filter(|p| keeps_fixings(o, p)) {
        let projected = project_block(&block, &plan, n).unwrap();
        failed += u64::from(reduced_cost(reduction, &projected[..r]) > original.cost(&plan));
        tried += 1;
    }
    (tried, failed)
}

fn bits(number: u64, count: usize) -> Vec<u8> {
    (0..count).map(|k| (number >> k & 1) as u8).collect()
}

fn keeps_fixings(o: &Objective, plan: &[u8]) -> bool {
    o.fixings.iter().zip(plan).all(|(&f, &x)| f == 2 || f == x)
}

/// From the outputs alone: the constant, the linear list and the edge list.
fn reduced_cost(reduction: &Reduction, answer: &[u8]) -> i64 {
    let mut total = reduction.constant;
    for (i, _) in answer.iter().enumerate().filter(|a| *a.1 == 1) {
        total += reduction.linear[i];
        total +=
            (0..i).filter(|&j| answer[j] == 1).map(|j| reduction.edges[64 * i + j]).sum::<i64>();
    }
    total
}
