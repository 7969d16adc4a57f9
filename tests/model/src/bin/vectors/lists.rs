//! Writing the lists: files of short lines, numbers with one space between.
use model::wrong::{choose, Wrong};
use std::fmt::Display;
use std::fs;
use std::path::PathBuf;

pub struct Lists {
    dir: PathBuf,
}

impl Lists {
    pub fn new(dir: &str) -> Lists {
        fs::create_dir_all(dir).unwrap();
        Lists { dir: dir.into() }
    }

    /// Writes one file and says how large it is.
    pub fn file(&mut self, name: &str, entries: usize, lines: &[String]) {
        let text: String = lines.iter().map(|line| format!("{line}\n")).collect();
        let longest = lines.iter().map(String::len).max().unwrap_or(0);
        println!(
            "{name}: entries {entries}, lines {}, bytes {}, longest line {longest}",
            lines.len(),
            text.len()
        );
        fs::write(self.dir.join(name), text).unwrap();
    }
}

/// COUNT*VALUE for each run of equal values, one space between.
pub fn runs<T: Display + PartialEq>(items: &[T]) -> String {
    let mut parts: Vec<String> = Vec::new();
    let mut from = 0;
    while from < items.len() {
        let count = items[from..].iter().take_while(|&item| *item == items[from]).count();
        parts.push(format!("{count}*{}", items[from]));
        from += count;
    }
    parts.join(" ")
}

pub fn hex(bytes: &[u8]) -> String {
    bytes.iter().map(|b| format!("{b:02x}")).collect()
}

/// COUNT*HEX with one byte where the count is over 1, else a stretch of bytes.
pub fn hex_runs(bytes: &[u8]) -> String {
    const LONG: usize = 12;
    let mut parts: Vec<String> = Vec::new();
    let mut plain: Vec<u8> = Vec::new();
    let mut from = 0;
    while from < bytes.len() {
        let count = bytes[from..].iter().take_while(|&&b| b == bytes[from]).count();
        if count >= LONG {
            if !plain.is_empty() {
                parts.push(format!("1*{}", hex(&plain)));
                plain.clear();
            }
            parts.push(format!("{count}*{}", hex(&bytes[from..=from])));
        } else {
            plain.extend(&bytes[from..from + count]);
        }
        from += count;
    }
    if !plain.is_empty() {
        parts.push(format!("1*{}", hex(&plain)));
    }
    parts.join(" ")
}

/// How often each answer number stands in a list.
pub fn tally(what: &str, numbers: impl Iterator<Item = u32>) {
    let mut times = std::collections::BTreeMap::new();
    for number in numbers {
        *times.entry(number).or_insert(0) += 1;
    }
    let words: Vec<String> = times.iter().map(|(n, t)| format!("{n} ({t} times)")).collect();
    println!("  {what}: {}", words.join(", "));
}

/// Makes the answers again with each wrong variant and says how many differ. A
/// list that tells some variant in fewer than `least` entries is not good enough.
pub fn told_apart<T: PartialEq, I: Iterator<Item = T>>(
    groups: &[&[(Wrong, &str)]],
    least: usize,
    answers: impl Fn() -> I,
) {
    let right: Vec<T> = answers().collect();
    for &(variant, says) in groups.concat().iter() {
        choose(variant);
        let told = answers().zip(&right).filter(|(answer, right)| answer != *right).count();
        choose(Wrong::None);
        println!("  wrong variant \"{says}\": {told} entries differ");
        assert!(told >= least, "the list must tell every wrong variant");
    }
}
