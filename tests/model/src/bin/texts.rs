//! texts PROGRAM SEED COUNT: random and mutated texts through a program, against the model.
use model::generator::{any_size, objective};
use model::random::Random;
use model::text::{objective_text, program};
use std::collections::BTreeMap;
use std::io::Write;
use std::process::{Command, Stdio};

/// An objective's text, often with a budget that cuts it short.
fn whole(random: &mut Random) -> Vec<u8> {
    let n = any_size(random);
    let mut o = objective(random, n);
    if random.chance(40) {
        o.budget = random.below(12) as u32;
    }
    objective_text(&o).into_bytes()
}

const BYTES: &[u8] = b"0123456789 \n-+;a\t\r\0\xff";
const WORDS: &[&str] = &[
    "0",
    "-0",
    "00",
    "1",
    "-1",
    "2",
    "3",
    "63",
    "64",
    "65",
    "255",
    "256",
    "1024",
    "1025",
    "4294967295",
    "4294967296",
    "1099511627776",
    "-1099511627777",
    "9223372036854775807",
    "9223372036854775808",
    "-9223372036854775808",
    "-9223372036854775809",
    "18446744073709551616",
    "",
    "-",
    "+1",
    "1 ",
    "000000000000000000000000000000000001",
];

/// One change: a byte left out, put in, replaced or moved, a word or a line changed, the end cut or doubled.
fn change(random: &mut Random, text: &mut Vec<u8>) {
    if text.is_empty() {
        text.push(random.pick(BYTES));
        return;
    }
    let place = random.below(text.len());
    match random.below(9) {
        0 => drop(text.remove(place)),
        1 => text.insert(place, random.pick(BYTES)),
        2 => text[place] = random.pick(BYTES),
        3 => text[place] = random.next() as u8,
        4 => {
            let other = random.below(text.len());
            text.swap(place, other);
        }
        5 => text.truncate(place),
        6 => text.extend_from_within(place..),
        7 => {
            let from = text[..place].iter().rposition(|b| b" \n".contains(b)).map_or(0, |k| k + 1);
            let long = text[from..].iter().position(|b| b" \n".contains(b)).unwrap_or(0);
            text.splice(from..from + long, random.pick(WORDS).bytes());
        }
        _ => {
            let mut lines: Vec<Vec<u8>> =
                text.split_inclusive(|&b| b == b'\n').map(<[u8]>::to_vec).collect();
            let line = lines[random.below(lines.len())].clone();
            match random.below(3) {
                0 => drop(lines.remove(random.below(lines.len()))),
                1 => lines.insert(random.below(lines.len()), line),
                _ => random.shuffle(&mut lines),
            }
            *text = lines.concat();
        }
    }
}

fn drawn(random: &mut Random) -> Vec<u8> {
    match random.below(20) {
        // Bytes of the form's own letters.
        0 => (0..random.below(60)).map(|_| random.pick(BYTES)).collect(),
        // About the limit of the size: leading zeros, then something after the last line.
        1 => {
            let mut text = whole(random);
            let zeros = (32_760 + random.below(17)).saturating_sub(text.len());
            text.splice(0..0, std::iter::repeat(b'0').take(zeros));
            text
        }
        2..=7 => whole(random),
        _ => {
            let mut text = whole(random);
            for _ in 0..=random.below(3) {
                change(random, &mut text);
            }
            text
        }
    }
}

fn run(path: &str, text: &[u8], piece: usize) -> Vec<u8> {
    let mut child =
        Command::new(path).stdin(Stdio::piped()).stdout(Stdio::piped()).spawn().unwrap();
    let mut to = child.stdin.take().unwrap();
    // In pieces, since the program may need many reads. A text over the limit may be left unread.
    for part in text.chunks(piece) {
        if to.write_all(part).is_err() {
            break;
        }
    }
    drop(to);
    let out = child.wait_with_output().unwrap();
    assert!(out.status.success(), "the program ended with {}", out.status);
    out.stdout
}

fn main() {
    let args: Vec<String> = std::env::args().skip(1).collect();
    let (seed, count): (u64, usize) = (args[1].parse().unwrap(), args[2].parse().unwrap());
    let mut random = Random(seed);
    let mut kinds: BTreeMap<String, usize> = BTreeMap::new();
    let mut differ = 0;
    for _ in 0..count {
        let text = drawn(&mut random);
        let told = program(&text);
        let kind = if told.starts_with("refused") {
            told.trim_end()
        } else {
            told.rsplit(' ').next().unwrap().trim_end()
        };
        *kinds.entry(kind.to_string()).or_insert(0) += 1;
        let piece = random.pick(&[text.len() + 1, 4096, 100, 7]);
        if run(&args[0], &text, piece) != told.as_bytes() {
            differ += 1;
            if differ == 1 {
                println!("first that differs: {:?}", String::from_utf8_lossy(&text));
            }
        }
    }
    println!("texts {count}, differences {differ}");
    for (kind, times) in kinds {
        match kind.as_str() {
            "yes" | "no" => println!("  complete {kind}: {times}"),
            _ => println!("  {kind}: {times}"),
        }
    }
    std::process::exit((differ > 0) as i32);
}
