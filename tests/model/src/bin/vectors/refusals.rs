//! Raw calls of reduce and the number each must answer.
use crate::lists::{runs, tally, Lists};
use model::objective::{refusal, Objective, LARGEST};
use model::random::Random;

#[derive(Clone)]
struct Call {
    o: Objective,
    linear: usize,
    edges: usize,
}

/// Two decisions, one pair, nothing refused.
fn fair() -> Call {
    let mut o = Objective { n: 2, switches: 15, budget: 9, ..Objective::default() };
    o.weights = vec![-3, -4];
    o.fixings = vec![2, 2];
    o.push_term(0, 1, 5);
    Call { o, linear: 64, edges: 4096 }
}

fn with(change: impl Fn(&mut Call)) -> Call {
    let mut call = fair();
    change(&mut call);
    call
}

/// n decisions of the given weight and as many terms (0,0) of another.
fn sized(n: usize, weight: i64, terms: usize, term: i64) -> Call {
    let o = Objective {
        n: n as u32,
        switches: 1,
        budget: u32::MAX,
        weights: vec![weight; n],
        fixings: vec![2; n],
        firsts: vec![0; terms],
        seconds: vec![0; terms],
        term_weights: vec![term; terms],
    };
    Call { o, linear: 64, edges: 4096 }
}

const BREAKERS: [fn(&mut Call); 6] = [
    |c| {
        c.o.n = 65;
        c.o.weights.resize(65, 0);
        c.o.fixings.resize(65, 2);
    },
    |c| c.linear = 63,
    |c| c.o.firsts[0] = u32::MAX,
    |c| c.o.fixings[0] = 3,
    |c| c.o.switches = 16,
    |c| c.o.weights[0] = LARGEST + 1,
];

/// Every set of rows that hold together: the lowest is answered.
fn together() -> Vec<(Call, u32)> {
    (0..64u32)
        .map(|set| {
            let call = with(|c| {
                (0..6).filter(|k| set >> k & 1 == 1).for_each(|k| BREAKERS[k](c));
            });
            (call, if set == 0 { 0 } else { set.trailing_zeros() + 1 })
        })
        .collect()
}

fn lengths() -> Vec<(Call, u32)> {
    vec![
        (sized(65, 0, 0, 0), 1),
        (sized(64, 0, 0, 0), 0),
        (sized(0, 0, 0, 0), 0),
        (with(|c| c.o.n = 65), 1),
        (with(|c| c.o.n = u32::MAX), 1),
        (with(|c| c.o.n = 256), 1),
        (with(|c| c.o.n = 1), 2),
        (with(|c| c.o.n = 3), 2),
        (with(|c| c.o.n = 0), 2),
        (with(|c| c.o.weights.push(0)), 2),
        (with(|c| c.o.weights.truncate(1)), 2),
        (with(|c| c.o.weights.clear()), 2),
        (with(|c| c.o.fixings.push(2)), 2),
        (with(|c| c.o.fixings.truncate(1)), 2),
        (with(|c| c.o.fixings.clear()), 2),
        (with(|c| c.o.firsts.push(0)), 2),
        (with(|c| c.o.firsts.clear()), 2),
        (with(|c| c.o.seconds.push(0)), 2),
        (with(|c| c.o.seconds.clear()), 2),
        (with(|c| c.o.term_weights.push(0)), 2),
        (with(|c| c.o.term_weights.clear()), 2),
        (sized(1, 0, 4096, 0), 0),
        (sized(1, 0, 4097, 0), 2),
        (sized(64, 0, 4096, 0), 0),
        (sized(64, 0, 4097, 0), 2),
        (with(|c| c.linear = 0), 2),
        (with(|c| c.linear = 2), 2),
        (with(|c| c.linear = 65), 2),
        (with(|c| c.edges = 0), 2),
        (with(|c| c.edges = 4), 2),
        (with(|c| c.edges = 4095), 2),
        (with(|c| c.edges = 4097), 2),
        (with(|c| c.edges = 64), 2),
        (with(|c| (c.linear, c.edges) = (4096, 64)), 2),
    ]
}

fn values() -> Vec<(Call, u32)> {
    vec![
        (with(|c| c.o.firsts[0] = 2), 3),
        (with(|c| c.o.seconds[0] = 2), 3),
        (with(|c| c.o.seconds[0] = 64), 3),
        (with(|c| c.o.seconds[0] = 65_537), 3),
        (with(|c| c.o.seconds[0] = u32::MAX), 3),
        (with(|c| (c.o.firsts[0], c.o.term_weights[0]) = (2, 0)), 3),
        (with(|c| c.o.push_term(1, 2, 1)), 3),
        (with(|c| c.o.push_term(2, 2, 0)), 3),
        (sized(0, 0, 1, 0), 3),
        (with(|c| c.o.push_term(1, 1, 1)), 0),
        (with(|c| c.o.fixings[0] = 3), 4),
        (with(|c| c.o.fixings[1] = 3), 4),
        (with(|c| c.o.fixings[1] = 4), 4),
        (with(|c| c.o.fixings[0] = 128), 4),
        (with(|c| c.o.fixings[1] = 255), 4),
        (with(|c| c.o.fixings = vec![0, 1]), 0),
        (with(|c| c.o.switches = 16), 5),
        (with(|c| c.o.switches = 17), 5),
        (with(|c| c.o.switches = 31), 5),
        (with(|c| c.o.switches = 256), 5),
        (with(|c| c.o.switches = 1 << 31), 5),
        (with(|c| c.o.switches = u32::MAX), 5),
        (with(|c| c.o.switches = 0), 0),
        (with(|c| c.o.budget = 0), 0),
        (with(|c| c.o.budget = u32::MAX), 0),
    ]
}

fn totals() -> Vec<(Call, u32)> {
    let pair = |a, b, w| {
        with(|c| {
            c.o.weights = vec![a, b];
            c.o.term_weights[0] = w;
        })
    };
    vec![
        (pair(LARGEST, 0, 0), 0),
        (pair(LARGEST + 1, 0, 0), 6),
        (pair(-LARGEST, 0, 0), 0),
        (pair(-LARGEST - 1, 0, 0), 6),
        (pair(0, 0, LARGEST), 0),
        (pair(0, 0, LARGEST + 1), 6),
        (pair(0, 0, -LARGEST), 0),
        (pair(0, 0, -LARGEST - 1), 6),
        (pair(LARGEST, 0, 1), 6),
        (pair(LARGEST - 1, 0, -1), 0),
        (pair(LARGEST / 2, -LARGEST / 2, 0), 0),
        (pair(LARGEST / 2, -LARGEST / 2, 1), 6),
        (pair(i64::MIN, 0, 0), 6),
        (pair(i64::MAX, 0, 0), 6),
        (pair(0, 0, i64::MIN), 6),
        (pair(0, 0, i64::MAX), 6),
        // Sums that come back to a small number where they wrap at 2^64.
        (pair(i64::MIN, i64::MIN, 0), 6),
        (pair(i64::MIN, i64::MIN, 5), 6),
        (pair(i64::MIN, i64::MAX, 1), 6),
        (sized(4, 1 << 62, 0, 0), 6),
        (sized(1, 0, 4096, 1 << 52), 6),
        (sized(64, i64::MIN, 4096, i64::MIN), 6),
        (sized(64, i64::MAX, 4096, i64::MAX), 6),
        (sized(64, i64::MIN, 4096, i64::MAX), 6),
        // Cancelling terms count before they are added up.
        (
            with(|c| {
                c.o.weights = vec![0, 0];
                c.o.term_weights[0] = LARGEST / 2;
                c.o.push_term(1, 0, -LARGEST / 2);
            }),
            0,
        ),
        (
            with(|c| {
                c.o.weights = vec![0, 0];
                c.o.term_weights[0] = LARGEST / 2 + 1;
                c.o.push_term(1, 0, -LARGEST / 2);
            }),
            6,
        ),
        // The weight of a fixed decision counts too.
        (
            with(|c| {
                c.o.weights = vec![LARGEST + 1, 0];
                c.o.fixings = vec![0, 2];
            }),
            6,
        ),
        (sized(64, 1 << 34, 0, 0), 0),
        (sized(64, 1 << 34, 1, 1), 6),
        (sized(1, 0, 4096, 1 << 28), 0),
        (sized(1, 1, 4096, 1 << 28), 6),
        (sized(1, 0, 4096, -(1 << 28)), 0),
    ]
}

/// Small calls with one or two numbers changed at random.
fn drawn(random: &mut Random) -> Call {
    let mut call = fair();
    for _ in 0..1 + random.below(2) {
        let any = random.pick(&[0, 1, 2, 3, 15, 16, 63, 64, 65, 4096, u32::MAX]);
        let weight = random.pick(&[0, 1, -1, LARGEST, -LARGEST, LARGEST - 12, i64::MIN, i64::MAX]);
        match random.below(10) {
            0 => call.o.n = any,
            1 => call.o.switches = any,
            2 => call.o.weights[0] = weight,
            3 => call.o.term_weights[0] = weight,
            4 => call.o.firsts[0] = any,
            5 => call.o.seconds[0] = any,
            6 => call.o.fixings[1] = any as u8,
            7 => call.linear = (any % 5000) as usize,
            8 => call.edges = (any % 5000) as usize,
            _ => call.o.push_term((any % 3) as usize, 1, weight),
        }
    }
    call
}

fn line(call: &Call, number: u32) -> String {
    raw(&call.o, call.linear, call.edges, number)
}

/// A call's lists as they are handed over, and the number it answers.
pub fn raw(o: &Objective, linear: usize, edges: usize, number: u32) -> String {
    let lists = [
        runs(&o.weights),
        runs(&o.firsts),
        runs(&o.seconds),
        runs(&o.term_weights),
        runs(&o.fixings),
    ];
    let head = format!("{} {} {} {linear} {edges}", o.n, o.switches, o.budget);
    format!("{head};{};{number}", lists.join(";"))
}

pub fn refusals(out: &mut Lists) {
    let mut lines = Vec::new();
    let mut numbers = Vec::new();
    for (call, meant) in [together(), lengths(), values(), totals()].concat() {
        let number = refusal(&call.o, call.linear, call.edges);
        // The hand-made ones say what they are meant to show.
        assert_eq!(number, meant, "{}", line(&call, number));
        lines.push(line(&call, number));
        numbers.push(number);
    }
    let mut random = Random(22);
    for _ in 0..250 {
        let call = drawn(&mut random);
        let number = refusal(&call.o, call.linear, call.edges);
        lines.push(line(&call, number));
        numbers.push(number);
    }
    out.file("refusals.txt", lines.len(), &lines);
    tally("answers", numbers.into_iter());
}
