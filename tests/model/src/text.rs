//! The program's text form both ways.
use crate::objective::Objective;
use crate::run::{reduce, Reduction};
use std::fmt::{Display, Write};

/// What the program writes for the bytes it is given.
pub fn program(input: &[u8]) -> String {
    match read(input).and_then(|o| reduce(&o)) {
        Ok(reduction) => written(&reduction),
        Err(number) => format!("refused {number}\n"),
    }
}

/// "13 for size or a bad first line, 1, 13 for terms, 13 for the rest"; the table
/// is left to `reduce`.
pub fn read(input: &[u8]) -> Result<Objective, u32> {
    read_within(input, 32_768, 1_024)
}

/// The same with other limits: the call itself takes up to 4,096 terms, and the
/// comparison puts those to the oracle in the same form.
pub fn read_within(input: &[u8], bytes: usize, most_terms: u32) -> Result<Objective, u32> {
    if input.len() > bytes {
        return Err(13);
    }
    let mut rest = input;
    let first = line(&mut rest).and_then(|l| numbers(l, 4, u32_of)).ok_or(13u32)?;
    let (n, terms) = (first[0], first[3]);
    if n > 64 {
        return Err(1);
    }
    if terms > most_terms {
        return Err(13);
    }
    let mut objective =
        Objective { n, switches: first[1], budget: first[2], ..Objective::default() };
    read_rest(&mut objective, rest, n as usize, terms).ok_or(13u32)?;
    Ok(objective)
}

fn read_rest(objective: &mut Objective, mut rest: &[u8], n: usize, terms: u32) -> Option<()> {
    objective.weights = numbers(line(&mut rest)?, n, i64_of)?;
    objective.fixings = numbers(line(&mut rest)?, n, u8_of)?;
    for _ in 0..terms {
        let words = words(line(&mut rest)?, 3)?;
        objective.firsts.push(u32_of(words[0])?);
        objective.seconds.push(u32_of(words[1])?);
        objective.term_weights.push(i64_of(words[2])?);
    }
    // "anything after the last line is malformed"
    rest.is_empty().then_some(())
}

/// The bytes up to the next newline, which every line must have.
fn line<'a>(rest: &mut &'a [u8]) -> Option<&'a [u8]> {
    let end = rest.iter().position(|&b| b == b'\n')?;
    let (found, after) = (&rest[..end], &rest[end + 1..]);
    *rest = after;
    Some(found)
}

/// Exactly `count` words with one space between; an empty line has none.
fn words(line: &[u8], count: usize) -> Option<Vec<&[u8]>> {
    let found: Vec<&[u8]> =
        if line.is_empty() { Vec::new() } else { line.split(|&b| b == b' ').collect() };
    (found.len() == count).then_some(found)
}

fn numbers<T>(line: &[u8], count: usize, of: fn(&[u8]) -> Option<T>) -> Option<Vec<T>> {
    words(line, count)?.into_iter().map(of).collect()
}

/// Decimal digits, at least one, leading zeros as they come. Past 2^64 the exact
/// value no longer matters: it is outside every type.
fn digits(word: &[u8]) -> Option<i128> {
    if word.is_empty() {
        return None;
    }
    let mut value: i128 = 0;
    for &byte in word {
        if !byte.is_ascii_digit() {
            return None;
        }
        value = (value * 10 + (byte - b'0') as i128).min(1 << 64);
    }
    Some(value)
}

fn u32_of(word: &[u8]) -> Option<u32> {
    digits(word)?.try_into().ok()
}

fn u8_of(word: &[u8]) -> Option<u8> {
    digits(word)?.try_into().ok()
}

/// "a minus may stand only before a weight"
fn i64_of(word: &[u8]) -> Option<i64> {
    match word.strip_prefix(b"-") {
        Some(after) => (-digits(after)?).try_into().ok(),
        None => digits(word)?.try_into().ok(),
    }
}

pub fn list<T: Display>(head: &str, items: impl IntoIterator<Item = T>) -> String {
    items.into_iter().fold(head.to_string(), |text, item| format!("{text} {item}"))
}

/// The lines before the units line, each with its newline.
pub fn graph_and_steps(reduction: &Reduction) -> String {
    let r = reduction.remaining.len();
    let mut text = format!("constant {}\n", reduction.constant);
    text += &list("remaining", &reduction.remaining);
    text += &list("\nlinear", &reduction.linear[..r]);
    text += "\n";
    for i in 0..r {
        for j in i + 1..r {
            let w = reduction.edges[64 * i + j];
            if w != 0 {
                writeln!(text, "edge {i} {j} {w}").unwrap();
            }
        }
    }
    for step in &reduction.steps {
        text += &list(&format!("step {} :", step.decision), &step.neighbours);
        text += &list(" :", &step.choices);
        text += "\n";
    }
    text
}

pub fn written(reduction: &Reduction) -> String {
    let complete = if reduction.complete { "yes" } else { "no" };
    graph_and_steps(reduction) + &format!("units {} complete {complete}\n", reduction.units)
}

/// An objective as the program reads it.
pub fn objective_text(o: &Objective) -> String {
    let mut text = format!("{} {} {} {}\n", o.n, o.switches, o.budget, o.firsts.len());
    text += &joined(&o.weights);
    text += &joined(&o.fixings);
    for (i, j, w) in o.terms() {
        writeln!(text, "{i} {j} {w}").unwrap();
    }
    text
}

fn joined<T: Display>(items: &[T]) -> String {
    items.iter().map(T::to_string).collect::<Vec<_>>().join(" ") + "\n"
}

pub fn with_semicolons(text: &str) -> String {
    text.replace('\n', ";")
}
