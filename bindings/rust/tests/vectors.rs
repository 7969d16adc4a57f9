//! Every stored vector that a call of this crate can be put to. (`texts.txt` is the program's, and
//! `passed.txt` is about a record passed in, which no vendor's call takes.)
mod common;
use balecreak::calls;
use common::{copies, every_plan, list, number, path, Lent};
use model::objective::Objective;
use model::record::seal;
use model::text::{read_within, with_semicolons, written};
use model::told::counts;
use std::fs::read_to_string;

fn lines(name: &str) -> Vec<String> {
    let text = read_to_string(path("crates/vectors/data").join(name)).unwrap();
    text.lines().map(String::from).collect()
}

fn gives(o: &Objective, output: &str, counted: &str) {
    let mut lent = Lent::fresh();
    assert_eq!(number(lent.reduce(o)), 0);
    let reduction = lent.as_model();
    assert_eq!(with_semicolons(&written(&reduction)), output);
    let told = counts(&reduction.counts).map(|c| c.to_string()).join(" ");
    assert_eq!(format!("{told} {}", reduction.counts.takes), counted);
}

fn objectives(name: &str) -> usize {
    let lines = lines(name);
    for entry in lines.chunks_exact(3) {
        let text = entry[0].replace(';', "\n");
        let o = read_within(text.as_bytes(), 1 << 20, 4096).expect("an objective");
        gives(&o, &entry[1], &entry[2]);
    }
    lines.len() / 3
}

/// How many of a list have at most 12 decisions; every filling and every full plan of them is tried.
fn small(name: &str) -> usize {
    let lines = lines(name);
    let read =
        |entry: &[String]| read_within(entry[0].replace(';', "\n").as_bytes(), 1 << 20, 4096);
    let all = lines.chunks_exact(3).map(|entry| read(entry).expect("an objective"));
    let small: Vec<Objective> = all.filter(|o| o.n <= 12).collect();
    small.iter().for_each(every_plan);
    small.len()
}

#[test]
fn every_plan_of_small_vectors() {
    let met = [small("objectives.txt"), small("budgets.txt")];
    assert!(met[0] > 400 && met[1] > 100, "{met:?}");
}

#[test]
fn runs() {
    assert_eq!(objectives("objectives.txt"), 1685);
    assert_eq!(objectives("budgets.txt"), 482);
}

/// A line of refusals.txt: the objective, the two lent lengths, the answer.
fn call(line: &str) -> (Objective, usize, usize, u32) {
    let parts: Vec<&str> = line.split(';').collect();
    let head: Vec<u32> = parts[0].split(' ').map(|w| w.parse().unwrap()).collect();
    let o = Objective {
        n: head[0],
        switches: head[1],
        budget: head[2],
        weights: list(parts[1]),
        firsts: list(parts[2]),
        seconds: list(parts[3]),
        term_weights: list(parts[4]),
        fixings: list(parts[5]),
    };
    (o, head[3] as usize, head[4] as usize, parts[6].parse().unwrap())
}

#[test]
fn crowded() {
    for entry in lines("crowded.txt").chunks_exact(3) {
        let (o, _, _, answer) = call(&entry[0]);
        assert_eq!(answer, 0);
        gives(&o, &entry[1], &entry[2]);
    }
}

#[test]
fn refusals() {
    for line in lines("refusals.txt") {
        let (o, linear, edges, answer) = call(&line);
        let before = Lent::sized(linear, edges, 512, 14);
        let mut lent = before.clone();
        assert_eq!(number(lent.reduce(&o)), answer, "{line}");
        assert!(answer == 0 || lent == before, "{line}");
        // A block of another length is refused last, a list of counts with the other lengths.
        let before = Lent::sized(linear, edges, 511, 14);
        let mut lent = before.clone();
        assert_eq!(number(lent.reduce(&o)), if answer == 0 { 9 } else { answer }, "{line}");
        assert_eq!(lent, before);
        let before = Lent::sized(linear, edges, 512, 15);
        let mut lent = before.clone();
        assert_eq!(number(lent.reduce(&o)), if answer == 1 { 1 } else { 2 }, "{line}");
        assert_eq!(lent, before);
    }
}

fn bases() -> Vec<Vec<u8>> {
    let byte = |pair: &[u8]| u8::from_str_radix(std::str::from_utf8(pair).unwrap(), 16).unwrap();
    lines("bases.txt").iter().map(|l| l.as_bytes().chunks_exact(2).map(byte).collect()).collect()
}

/// `BASE SEALED LENGTH` and `PLACE VALUE PLACE VALUE ...`
fn damaged(bases: &[Vec<u8>], head: &[usize], edits: &str) -> Vec<u8> {
    let mut block = bases[head[0]].clone();
    let edits: Vec<usize> = edits.split_whitespace().map(|w| w.parse().unwrap()).collect();
    for edit in edits.chunks_exact(2) {
        block[edit[0]] = edit[1] as u8;
    }
    if head[1] == 1 {
        seal(&mut block);
    }
    block.resize(head[2], 0);
    block
}

fn numbers(text: &str) -> Vec<usize> {
    text.split_whitespace().map(|w| w.parse().unwrap()).collect()
}

#[test]
fn records() {
    let bases = bases();
    let lines = lines("records.txt");
    for line in &lines {
        let parts: Vec<&str> = line.split(';').collect();
        let block = damaged(&bases, &numbers(parts[0]), parts[1]);
        assert_eq!(number(calls::check(&block)).to_string(), parts[2], "{line}");
        assert_eq!(balecreak::Record::from_bytes(&block).is_ok(), parts[2] == "0");
        copies(&block);
    }
    assert_eq!(lines.len(), 12048);
}

/// Every stored record is written anew as it stands.
#[test]
fn bases_written_anew() {
    for base in bases() {
        let record = balecreak::Record::from_bytes(&base).expect("a stored record is right");
        let mut out = vec![7; 512];
        record.write_to(&mut out).unwrap();
        assert_eq!(out, base);
        assert_eq!(record.write_to(&mut out[..511]), Err(balecreak::Refusal::BlockLength));
        assert_eq!(out, base);
    }
}

#[test]
fn back() {
    let bases = bases();
    let mut met = [0; 2];
    for line in lines("back.txt") {
        let parts: Vec<&str> = line.split(';').collect();
        let head = numbers(parts[0]);
        if head[0] > 1 {
            continue; // a record passed in
        }
        let block = damaged(&bases, &head[1..], parts[1]);
        let lent: Vec<u8> = list(parts[2]);
        let before = vec![9; parts[3].parse().unwrap()];
        let mut out = before.clone();
        let call = if head[0] == 0 { calls::grow_back } else { calls::project };
        assert_eq!(number(call(&block, &lent, &mut out)).to_string(), parts[4], "{line}");
        assert_eq!(out, if parts[4] == "0" { list(parts[5]) } else { before }, "{line}");
        met[head[0]] += 1;
    }
    assert!(met[0] > 100 && met[1] > 100);
}

/// "Steps 0 (choices 1, 0) and 1 (choice 1), constant −4; grown back 0, 1."
#[test]
fn example_d() {
    let d = balecreak::Objective::new([-3, -4]).pair(0, 1, 5).switch_bits(1).reduce().unwrap();
    let steps: Vec<_> = d.record().steps().map(|s| (s.decision, s.choices)).collect();
    assert_eq!(steps, [(0, vec![true, false]), (1, vec![true])]);
    assert_eq!(d.constant(), -4);
    assert_eq!(d.record().grow_back(&[]).unwrap(), [0, 1]);
}

/// "choices of 2 are (1, 0), of 3 are (1, 1); constant −3, a1 = 2, passes 2, units 1."
#[test]
fn example_j() {
    let hall = balecreak::Objective::new([0, 0, -1, -1]).pair(0, 1, 1).pair(1, 2, 2).pair(2, 3, -1);
    let j = hall.switch_bits(8).reduce().unwrap();
    let steps: Vec<_> = j.record().steps().map(|s| (s.decision, s.choices)).collect();
    assert_eq!(steps, [(2, vec![true, false]), (3, vec![true, true])]);
    assert_eq!((j.constant(), j.linear()), (-3, &[0, 2][..]));
    assert_eq!((j.counts().passes, j.counts().units), (2, 1));
    assert_eq!(j.record().grow_back(&[1, 1]).unwrap(), [1, 1, 0, 1]);
    assert_eq!(j.record().grow_back(&[1, 0]).unwrap(), [1, 0, 1, 1]);
    assert_eq!(j.record().project(&[0, 1, 0, 1]).unwrap(), [0, 1]);
}
