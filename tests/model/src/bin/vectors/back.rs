//! Growing back and projecting, from a block and from a record passed in.
use crate::bases::Base;
use crate::damage::Damage;
use crate::lists::{runs, tally, told_apart, Lists};
use model::back::{grow_back, grow_back_block, project, project_block};
use model::random::Random;
use model::record::fields;
use model::wrong::BACK;

/// 0 grow back from a block, 1 project from a block, 2 and 3 the same from a record.
const KINDS: [usize; 4] = [0, 1, 2, 3];

struct Call {
    kind: usize,
    damage: Damage,
    lent: Vec<u8>,
    out: usize,
}

impl Call {
    fn answer(&self, bases: &[Base]) -> Result<Vec<u8>, u32> {
        let block = self.damage.block(bases);
        match self.kind {
            0 => grow_back_block(&block, &self.lent, self.out),
            1 => project_block(&block, &self.lent, self.out),
            2 => grow_back(&fields(&block), &self.lent, self.out),
            _ => project(&fields(&block), &self.lent, self.out),
        }
    }
}

/// How long the lent answer or plan must be.
fn right_length(kind: usize, base: &Base) -> usize {
    if kind % 2 == 0 {
        base.record.remaining().len()
    } else {
        base.record.n as usize
    }
}

fn fair_calls(bases: &[Base], random: &mut Random) -> Vec<Call> {
    let mut calls = Vec::new();
    for kind in KINDS {
        for (k, base) in bases.iter().enumerate() {
            let length = right_length(kind, base);
            let out = base.record.n as usize;
            let mut put = |lent| calls.push(Call { kind, damage: Damage::none(k), lent, out });
            put(vec![0; length]);
            put(vec![1; length]);
            for _ in 0..6 {
                put((0..length).map(|_| random.below(2) as u8).collect());
            }
        }
    }
    calls
}

fn refused_calls(bases: &[Base]) -> Vec<(Call, u32)> {
    let mut calls = Vec::new();
    for kind in KINDS {
        for (k, base) in bases.iter().enumerate() {
            let (length, out) = (right_length(kind, base), base.record.n as usize);
            let mut put = |damage: Damage, lent: Vec<u8>, out: usize, number: u32| {
                calls.push((Call { kind, damage, lent, out }, number))
            };
            put(Damage::none(k), vec![0; length + 1], out, 7);
            put(Damage::none(k), vec![0; length], out + 1, 7);
            put(Damage::none(k), vec![9; length + 1], out, 7);
            if length > 0 {
                put(Damage::none(k), vec![0; length - 1], out, 7);
                let mut lent = vec![0; length];
                lent[length - 1] = 2;
                put(Damage::none(k), lent, out, 8);
                put(Damage::none(k), vec![255; length], out, 8);
                put(Damage::none(k), vec![2; length], out + 1, 7);
            }
            if out > 0 {
                put(Damage::none(k), vec![1; length], out - 1, 7);
                put(Damage::none(k), vec![1; length], 0, 7);
            }
            // 12 is asked before 7 and 8.
            put(Damage::sealed(k, &[(1, 65)]), vec![2; length + 1], out, 12);
            put(Damage::sealed(k, &[(11, 64)]), vec![0; length], out, 12);
            if kind < 2 {
                put(Damage::sealed(k, &[(0, 2), (1, 65)]), vec![2; length + 1], out, 11);
                put(Damage::loose(k, &[(0, 2)]), vec![2; length + 1], out, 10);
                put(
                    Damage { length: 511, ..Damage::loose(k, &[(0, 2)]) },
                    vec![2; length + 1],
                    out,
                    9,
                );
                put(Damage { length: 0, ..Damage::none(k) }, vec![0; length], out, 9);
                put(Damage::sealed(k, &[(507, 1)]), vec![0; length], out, 12);
            }
        }
    }
    calls
}

pub fn back(out: &mut Lists, bases: &[Base]) {
    let mut random = Random(25);
    let mut calls = fair_calls(bases, &mut random);
    assert!(calls.iter().all(|call| call.answer(bases).is_ok()));
    for (call, meant) in refused_calls(bases) {
        assert_eq!(call.answer(bases), Err(meant));
        calls.push(call);
    }
    let mut lines = Vec::new();
    let mut numbers = Vec::new();
    for call in &calls {
        let (number, plan) = match call.answer(bases) {
            Ok(plan) => (0, plan),
            Err(number) => (number, Vec::new()),
        };
        let damage = call.damage.line();
        lines.push(format!(
            "{} {damage};{};{};{number};{}",
            call.kind,
            runs(&call.lent),
            call.out,
            runs(&plan)
        ));
        numbers.push(number);
    }
    out.file("back.txt", lines.len(), &lines);
    tally("answers", numbers.into_iter());
    told_apart(&[BACK], 2, || calls.iter().map(|call| call.answer(bases)));
}
