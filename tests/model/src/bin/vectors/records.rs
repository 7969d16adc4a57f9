//! The lists of record blocks, whole and damaged, and of records passed in.
use crate::bases::Base;
use crate::damage::Damage;
use crate::lists::{hex, runs, tally, told_apart, Lists};
use model::random::Random;
use model::record::{read, write, Record};
use model::wrong::RULES;

pub fn bases(out: &mut Lists, bases: &[Base]) {
    let lines: Vec<String> = bases.iter().map(|base| hex(&base.block)).collect();
    out.file("bases.txt", bases.len(), &lines);
    for (k, base) in bases.iter().enumerate() {
        println!(
            "  base {k}: {} (n {}, steps {})",
            base.name, base.record.n, base.record.step_count
        );
    }
}

/// Each rule of the body, broken by hand in a block whose check is right.
#[rustfmt::skip]
fn by_hand() -> Vec<(Damage, u32)> {
    let step = |k: usize| 76 + 6 * k;
    let s = |base, edits: &[(usize, u8)], number| (Damage::sealed(base, edits), number);
    // D has n 2 and steps 0 : 1 and 1 :. J has n 4, steps 2 : 1 and 3 : 1, 0 and 1 remaining.
    // F has n 4, step 0 : 1 2 3, the others remaining.
    let (empty, d, j, f, all, fixed, left, most, least) = (0, 1, 2, 3, 4, 5, 6, 7, 8);
    vec![
        s(d, &[], 0),
        s(d, &[(0, 1)], 11), s(d, &[(0, 2)], 11), s(d, &[(0, 0)], 11), s(j, &[(0, 4)], 11), s(j, &[(0, 131)], 11),
        s(d, &[(0, 4), (3, 1)], 11), s(d, &[(0, 2), (12, 9)], 11),
        s(d, &[(1, 65)], 12), s(all, &[(1, 65)], 12), s(left, &[(1, 65)], 12), s(fixed, &[(1, 255)], 12), s(empty, &[(1, 65)], 12),
        s(d, &[(2, 65)], 12), s(all, &[(2, 65)], 12), s(empty, &[(2, 128)], 12), s(left, &[(2, 255)], 12),
        s(d, &[(3, 1)], 12), s(empty, &[(3, 255)], 12),
        s(empty, &[(460, 1)], 12), s(d, &[(507, 255)], 12), s(j, &[(484, 3)], 12),
        // 2^40 is byte 9 of the block, the sixth of the constant.
        s(most, &[(4, 1)], 12), s(most, &[(11, 128)], 12), s(most, &[(9, 2)], 12), s(most, &[(11, 127)], 12),
        s(least, &[(4, 255), (5, 255), (6, 255), (7, 255), (8, 255), (9, 254)], 12), s(least, &[(4, 1)], 0),
        s(least, &[(9, 254)], 12), s(empty, &[(11, 128)], 12), s(empty, &[(9, 1)], 0),
        s(left, &[(12, 4)], 12), s(j, &[(13, 4)], 12), s(fixed, &[(75, 255)], 12), s(fixed, &[(75, 2)], 0),
        s(empty, &[(12, 1)], 12), s(d, &[(14, 2)], 12), s(j, &[(75, 1)], 12), s(empty, &[(75, 2)], 12),
        s(empty, &[(step(0) + 5, 1)], 12), s(d, &[(step(2), 1)], 12), s(j, &[(step(63) + 5, 1)], 12), s(f, &[(step(1) + 1, 1)], 12),
        // A step's decision that has not state 3; a state 3 with no step; a step twice.
        s(d, &[(13, 2)], 12), s(j, &[(14, 2)], 12), s(j, &[(15, 1)], 12), s(all, &[(12, 2)], 12),
        s(left, &[(12, 3)], 12), s(fixed, &[(75, 3)], 12), s(j, &[(12, 3)], 12), s(d, &[(2, 1), (81, 0), (82, 0), (87, 0)], 12),
        s(empty, &[(2, 1)], 12), s(empty, &[(2, 1), (76, 64)], 12),
        s(j, &[(2, 3), (88, 2), (93, 1)], 12), s(d, &[(2, 3), (88, 1), (93, 1)], 12), s(f, &[(2, 2), (82, 0)], 12),
        s(d, &[(82, 2)], 12), s(j, &[(76, 200)], 12),
        // The degree.
        s(d, &[(77, 4)], 12), s(f, &[(77, 4)], 12), s(j, &[(77, 255)], 12), s(all, &[(77, 4)], 12),
        // Unused neighbours and choice bits.
        s(d, &[(79, 1)], 12), s(d, &[(84, 1)], 12), s(j, &[(80, 3)], 12), s(d, &[(77, 0)], 12),
        s(d, &[(81, 5)], 12), s(d, &[(87, 2)], 12), s(j, &[(87, 131)], 12), s(d, &[(87, 128)], 12), s(d, &[(81, 3)], 0),
        // Neighbours: ascending, below n, not fixed, not gone before.
        s(f, &[(78, 2), (79, 1)], 12), s(f, &[(79, 1)], 12), s(f, &[(79, 3)], 12), s(f, &[(78, 3), (80, 1)], 12),
        s(d, &[(78, 2)], 12), s(d, &[(78, 64)], 12), s(d, &[(78, 255)], 12), s(f, &[(80, 64)], 12), s(f, &[(80, 4)], 12), s(all, &[(78, 64)], 12), s(all, &[(78, 128)], 12),
        s(j, &[(13, 0)], 12), s(j, &[(13, 1)], 12), s(f, &[(15, 0)], 12), s(f, &[(14, 1)], 12), s(j, &[(12, 0)], 0),
        s(d, &[(78, 0)], 12), s(j, &[(84, 3)], 12), s(f, &[(78, 0)], 12),
        s(d, &[(83, 1), (84, 0)], 12), s(j, &[(84, 2)], 12), s(j, &[(78, 3)], 0),
    ]
}

/// The check seen alone: one or two bytes never keep it, these three can.
fn kept_check(bases: &[Base], random: &mut Random) -> Vec<Damage> {
    let mut list = Vec::new();
    while list.len() < 60 {
        let base = random.below(bases.len());
        let gap = 1 + random.below(40);
        let from = random.below(508 - 2 * gap);
        let at = |k: usize| bases[base].block[from + k * gap];
        let up = |v: u8, by: i32| u8::try_from(v as i32 + by);
        if let (Ok(a), Ok(b), Ok(c)) = (up(at(0), 1), up(at(1), -2), up(at(2), 1)) {
            list.push(Damage::loose(base, &[(from, a), (from + gap, b), (from + 2 * gap, c)]));
        }
    }
    list
}

fn single_bytes(bases: &[Base]) -> Vec<Damage> {
    let mut list = Vec::new();
    for base in [0, 1, 2, 9] {
        for place in 0..512 {
            let old = bases[base].block[place];
            for value in different(old, &[old ^ 1, old.wrapping_sub(1), 255]) {
                list.push(Damage::loose(base, &[(place, value)]));
            }
        }
    }
    for base in [1, 2, 3, 9, 10] {
        let last = 76 + 6 * bases[base].record.step_count as usize + 6;
        for place in (0..508).filter(|&p| p < last || p % 7 == 0) {
            let old = bases[base].block[place];
            for value in different(old, &[0, 1, 2, 3, old ^ 1, old.wrapping_add(1), 64, 255]) {
                list.push(Damage::sealed(base, &[(place, value)]));
            }
        }
    }
    list
}

fn different(old: u8, values: &[u8]) -> Vec<u8> {
    let mut list = values.to_vec();
    list.sort();
    list.dedup();
    list.retain(|&v| v != old);
    list
}

fn pairs_of_bytes(bases: &[Base], random: &mut Random) -> Vec<Damage> {
    let mut list = Vec::new();
    for k in 0..2400 {
        let base = random.below(bases.len());
        let last = 76 + 6 * bases[base].record.step_count as usize;
        let end = if random.chance(80) { last } else { 508 };
        let (p, q) = (random.below(end), random.below(end));
        let by = random.pick(&[1, 2, 3, 16, 128, 255]);
        let old = |place: usize| bases[base].block[place];
        let edits = [(p, old(p).wrapping_add(by)), (q, old(q).wrapping_sub(by))];
        if p != q {
            list.push(if k % 2 == 0 {
                Damage::loose(base, &edits)
            } else {
                Damage::sealed(base, &edits)
            });
        }
    }
    list
}

fn lengths() -> Vec<Damage> {
    let mut list = Vec::new();
    for base in [0, 1, 9] {
        for length in [0, 1, 508, 511, 513, 1024] {
            list.push(Damage { length, ..Damage::none(base) });
            // 9 is asked before everything else.
            list.push(Damage { length, ..Damage::loose(base, &[(0, 2), (3, 1)]) });
        }
    }
    list
}

pub fn records(out: &mut Lists, bases: &[Base]) {
    let mut random = Random(24);
    let mut list: Vec<Damage> = (0..bases.len()).map(Damage::none).collect();
    for (damage, meant) in by_hand() {
        assert_eq!(number(&damage, bases), meant, "{}", damage.line());
        list.push(damage);
    }
    list.extend(lengths());
    list.extend(single_bytes(bases));
    list.extend(pairs_of_bytes(bases, &mut random));
    for damage in list.iter().filter(|d| !d.sealed && d.length == 512 && !d.edits.is_empty()) {
        assert_eq!(number(damage, bases), 10, "one or two bytes changed: {}", damage.line());
    }
    list.extend(kept_check(bases, &mut random));
    let numbers: Vec<u32> = list.iter().map(|damage| number(damage, bases)).collect();
    let lines: Vec<String> = list
        .iter()
        .zip(&numbers)
        .map(|(damage, number)| format!("{};{number}", damage.line()))
        .collect();
    out.file("records.txt", lines.len(), &lines);
    tally("answers", numbers.iter().copied());
    told_apart(&[RULES], 2, || list.iter().map(|damage| number(damage, bases)));
}

fn number(damage: &Damage, bases: &[Base]) -> u32 {
    read(&damage.block(bases)).err().unwrap_or(0)
}

/// Records passed in to be written, some broken as no block can show.
pub fn passed(out: &mut Lists, bases: &[Base]) {
    let mut list: Vec<(usize, Record)> = Vec::new();
    for base in bases {
        for length in [512, 511, 513, 0] {
            list.push((length, base.record.clone()));
        }
        for n in [65, 128, 128 + base.record.n, 255] {
            list.push((512, Record { n, ..base.record.clone() }));
        }
        for step_count in [65, 128, 128 + base.record.step_count, 255] {
            list.push((512, Record { step_count, ..base.record.clone() }));
        }
        for constant in [i64::MIN, i64::MAX, 1 << 40, -(1 << 40), (1 << 40) + 1, -(1 << 40) - 1, 0]
        {
            list.push((512, Record { constant, ..base.record.clone() }));
        }
        list.push((511, Record { n: 65, ..base.record.clone() }));
    }
    for (damage, _) in by_hand() {
        list.push((512, model::record::fields(&damage.block(bases))));
    }
    let mut lines = Vec::new();
    let mut numbers = Vec::new();
    for (length, record) in &list {
        let (number, block) = match write(record, *length) {
            Ok(block) => (0, hex(&block)),
            Err(number) => (number, String::new()),
        };
        let (r, steps) = (record, record.steps.concat());
        lines.push(format!(
            "{length} {} {} {};{};{};{number};{block}",
            r.n,
            r.step_count,
            r.constant,
            runs(&r.states),
            runs(&steps)
        ));
        numbers.push(number);
    }
    out.file("passed.txt", lines.len(), &lines);
    tally("answers", numbers.into_iter());
}
