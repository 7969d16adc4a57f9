//! Input bytes of the program and what it must write.
use crate::lists::{hex_runs, tally, Lists};
use crate::named::{complete, cut_short};
use model::text::program;

/// Malformed or refused, with the number each is meant to show.
#[rustfmt::skip]
const REFUSED: &[(&str, u32)] = &[
    // The first line.
    ("", 13), ("\n", 13), (" ", 13), ("0", 13), ("0 0 0 0", 13), ("0 0 0\n\n\n", 13),
    ("0 0 0 0 0\n\n\n", 13), ("0  0 0 0\n\n\n", 13), (" 0 0 0 0\n\n\n", 13), ("0 0 0 0 \n\n\n", 13),
    ("0\t0 0 0\n\n\n", 13), ("0 0 0 0\r\n\n\n", 13), ("+0 0 0 0\n\n\n", 13), ("-0 0 0 0\n\n\n", 13),
    ("0 -0 0 0\n\n\n", 13), ("0 0 -0 0\n\n\n", 13), ("0 0 0 -0\n\n\n", 13), ("a 0 0 0\n\n\n", 13),
    ("0 0x1 0 0\n\n\n", 13), ("0 0 1.0 0\n\n\n", 13), ("0,0,0,0\n\n\n", 13), ("\n0 0 0 0\n\n\n", 13),
    ("4294967296 0 0 0\n\n\n", 13), ("0 4294967296 0 0\n\n\n", 13), ("0 0 4294967296 0\n\n\n", 13),
    ("0 0 0 4294967296\n\n\n", 13), ("99999999999999999999999999 0 0 0\n\n\n", 13),
    ("18446744073709551616 0 0 0\n\n\n", 13), ("65 0 0\n", 13), ("65 0 0 x\n", 13), ("65 0 0 0", 13),
    ("0\0 0 0 0\n\n\n", 13), ("0 0 0 0;\n\n\n", 13), ("/ 0 0 0\n\n\n", 13), (": 0 0 0\n\n\n", 13),
    // The order: n before the terms, the terms before the rest, the rest before the table.
    ("65 0 0 9999\n", 1), ("65 0 0 0\n", 1), ("4294967295 0 0 0\n", 1), ("65 99 0 4294967295\nx", 1),
    ("64 0 0 1025\n", 13), ("0 0 0 1025\n", 13), ("64 0 0 4294967295\n", 13), ("1 16 0 1025\n0\n2\n", 13),
    ("1 16 0 0\n0\n2", 13), ("1 16 0 0\n0\n3\nx", 13), ("1 16 0 0\nx\n3\n", 13),
    // The weights.
    ("1 1 9 0\n", 13), ("1 1 9 0\n0", 13), ("1 1 9 0\n\n2\n", 13), ("1 1 9 0\n0 0\n2\n", 13),
    ("2 1 9 0\n0\n2 2\n", 13), ("2 1 9 0\n0  0\n2 2\n", 13), ("2 1 9 0\n0 0 \n2 2\n", 13),
    ("2 1 9 0\n 0 0\n2 2\n", 13), ("1 1 9 0\n+5\n2\n", 13), ("1 1 9 0\n-\n2\n", 13), ("1 1 9 0\n--5\n2\n", 13),
    ("1 1 9 0\n- 5\n2\n", 13), ("1 1 9 0\n5-\n2\n", 13), ("1 1 9 0\n5 \n2\n", 13), ("1 1 9 0\n\t5\n2\n", 13),
    ("1 1 9 0\n5\r\n2\n", 13), ("1 1 9 0\n9223372036854775808\n2\n", 13), ("1 1 9 0\n-9223372036854775809\n2\n", 13),
    ("1 1 9 0\n18446744073709551616\n2\n", 13), ("1 1 9 0\n1e3\n2\n", 13), ("1 1 9 0\n5.0\n2\n", 13),
    ("0 1 9 0\n \n\n", 13), ("0 1 9 0\n0\n\n", 13), ("0 1 9 0\n\n", 13), ("0 1 9 0\n", 13), ("0 1 9 0\n\n0\n", 13),
    ("0 1 9 0\n\n \n", 13), ("2 1 9 0\n1\n1\n2 2\n", 13),
    // The fixings.
    ("1 1 9 0\n0\n2", 13), ("1 1 9 0\n0\n", 13), ("1 1 9 0\n0\n\n", 13), ("1 1 9 0\n0\n-0\n", 13), ("1 1 9 0\n0\n256\n", 13),
    ("1 1 9 0\n0\n-1\n", 13), ("1 1 9 0\n0\n+2\n", 13), ("1 1 9 0\n0\n2 2\n", 13), ("2 1 9 0\n0 0\n2\n", 13),
    ("2 1 9 0\n0 0\n2  2\n", 13), ("2 1 9 0\n0 0\n2,2\n", 13), ("1 1 9 0\n0\n2 \n", 13), ("1 1 9 0\n0\n 2\n", 13),
    ("1 1 9 0\n0\nf\n", 13), ("1 1 9 0\n0\n1000\n", 13), ("1 1 9 0\n0\n258\n", 13), ("1 1 9 0\n0\n4294967298\n", 13),
    // The terms.
    ("2 1 9 1\n0 0\n2 2\n", 13), ("2 1 9 1\n0 0\n2 2\n0 1 5", 13), ("2 1 9 1\n0 0\n2 2\n0 1\n", 13),
    ("2 1 9 1\n0 0\n2 2\n0 1 5 6\n", 13), ("2 1 9 1\n0 0\n2 2\n0  1 5\n", 13), ("2 1 9 1\n0 0\n2 2\n0 1  5\n", 13),
    ("2 1 9 1\n0 0\n2 2\n 0 1 5\n", 13), ("2 1 9 1\n0 0\n2 2\n0 1 5 \n", 13), ("2 1 9 1\n0 0\n2 2\n-0 1 5\n", 13),
    ("2 1 9 1\n0 0\n2 2\n0 -0 5\n", 13), ("2 1 9 1\n0 0\n2 2\n0 1 +5\n", 13), ("2 1 9 1\n0 0\n2 2\n0 1 -\n", 13),
    ("2 1 9 1\n0 0\n2 2\n0 4294967296 5\n", 13), ("2 1 9 1\n0 0\n2 2\n0 1 9223372036854775808\n", 13),
    ("2 1 9 1\n0 0\n2 2\n0 1 -9223372036854775809\n", 13), ("2 1 9 1\n0 0\n2 2\n\n0 1 5\n", 13),
    ("2 1 9 2\n0 0\n2 2\n0 1 5\n", 13), ("2 1 9 1\n0 0\n2 2\n0 1 5\n0 1 5\n", 13), ("2 1 9 0\n0 0\n2 2\n0 1 5\n", 13),
    ("2 1 9 1\n0 0\n2 2\n0 1 5\n\n", 13), ("2 1 9 1\n0 0\n2 2\n0 1 5\n ", 13), ("2 1 9 1\n0 0\n2 2\n0 1 5\nx", 13),
    ("2 1 9 1\n0 0\n2 2\n0 1 5\n\0", 13), ("2 1 9 1\n0 0\n2 2\n0 1 5\r\n", 13), ("2 1 9 1\n0 0\n2 2\n0\t1 5\n", 13),
    ("0 0 0 0\n\n\n\n", 13), ("0 0 0 0\n\n\n0", 13),
    // The table.
    ("2 1 9 1\n0 0\n2 2\n0 2 5\n", 3), ("2 1 9 1\n0 0\n2 2\n2 0 0\n", 3), ("2 1 9 1\n0 0\n2 2\n4294967295 0 0\n", 3),
    ("0 1 9 1\n\n\n0 0 0\n", 3), ("2 16 9 1\n0 0\n3 2\n0 2 5\n", 3), ("1 1 9 0\n0\n3\n", 4), ("1 1 9 0\n0\n255\n", 4),
    ("1 16 9 0\n0\n255\n", 4), ("1 16 9 0\n0\n2\n", 5), ("1 4294967295 9 0\n0\n2\n", 5),
    ("1 16 9 0\n1099511627777\n2\n", 5), ("1 1 9 0\n1099511627777\n2\n", 6), ("1 1 9 0\n-1099511627777\n2\n", 6),
    ("1 1 9 0\n-9223372036854775808\n2\n", 6), ("1 1 9 0\n9223372036854775807\n2\n", 6),
    ("2 1 9 1\n-9223372036854775808 -9223372036854775808\n2 2\n0 1 5\n", 6),
    ("2 1 9 1\n0 0\n2 2\n0 1 -9223372036854775808\n", 6), ("2 1 9 1\n1099511627776 0\n2 2\n0 1 1\n", 6),
];

/// Well formed, if odd.
#[rustfmt::skip]
const ODD: &[&str] = &[
    "1 1 9 0\n-0\n2\n", "1 1 9 0\n-00\n2\n", "1 1 9 0\n0000000000000000000000000000000000005\n2\n",
    "1 1 9 0\n-0000000000000000000000000000000000005\n2\n", "01 001 0009 00000000000000000000000000000\n-5\n0000002\n",
    "2 1 9 1\n-3 -4\n2 2\n00 0000000000000000000001 -0005\n", "2 1 9 1\n-3 -4\n2 2\n1 0 -0\n", "2 1 9 1\n-3 -4\n2 2\n1 1 7\n",
    "1 1 4294967295 0\n-5\n2\n", "1 1 0 0\n-5\n2\n", "1 0 0 0\n-5\n2\n", "1 1 9 0\n1099511627776\n1\n",
    "1 1 9 0\n-1099511627776\n2\n", "2 1 9 2\n0 0\n2 2\n0 1 549755813888\n1 0 -549755813888\n", "3 15 9 0\n1 2 3\n0 1 0\n",
    "0 15 0 0\n\n\n", "0 0 4294967295 0\n\n\n", "1 1 9 0\n0\n00000000000000000000000000000000000000000000002\n",
];

fn bytes_of(texts: &[(&str, u32)]) -> Vec<(Vec<u8>, u32)> {
    texts.iter().map(|(text, number)| (text.as_bytes().to_vec(), *number)).collect()
}

/// High bytes, and the limits that take long inputs.
fn long_ones() -> Vec<(Vec<u8>, u32)> {
    let with_zeros = |total: usize| {
        let mut text = b"1 1 9 0\n-5\n2\n".to_vec();
        let missing = total - text.len();
        // Leading zeros after the minus.
        text.splice(9..9, std::iter::repeat(b'0').take(missing));
        text
    };
    let terms = |count: usize| {
        let mut text = format!("1 0 0 {count}\n0\n2\n").into_bytes();
        (0..count).for_each(|_| text.extend(b"0 0 1\n"));
        text
    };
    let first_padded = |total: usize, first: &[u8]| {
        let mut text = vec![b'0'; total - first.len()];
        text.extend(first);
        text
    };
    vec![
        (b"1 1 9 0\n\xc3\xa9\n2\n".to_vec(), 13),
        (b"1 1 9 0\n5\xff\n2\n".to_vec(), 13),
        (b"\xef\xbb\xbf0 0 0 0\n\n\n".to_vec(), 13),
        (b"1\xa01 9 0\n5\n2\n".to_vec(), 13),
        (b"1 1 9 0\n\xb25\n2\n".to_vec(), 13),
        (vec![0xff], 13),
        (vec![0], 13),
        (with_zeros(32_768), 0),
        (with_zeros(32_769), 13),
        (first_padded(32_768, b"65 0 0 0\n"), 1),
        (first_padded(32_769, b"65 0 0 0\n"), 13),
        (vec![b' '; 32_769], 13),
        (vec![b'0'; 32_768], 13),
        (vec![b'\n'; 32_800], 13),
        (terms(1024), 0),
        (terms(1025), 13),
    ]
}

/// A well-formed text with one byte left out, doubled, or replaced, at every place.
fn changed(text: &[u8]) -> Vec<Vec<u8>> {
    let mut list = Vec::new();
    for place in 0..text.len() {
        let mut put = |with: &[u8]| {
            let changed = [&text[..place], with, &text[place + 1..]].concat();
            if changed != text && !list.contains(&changed) {
                list.push(changed);
            }
        };
        put(&[]);
        put(&[text[place], text[place]]);
        for byte in *b" \n-+09;a\t\r\0\xff" {
            put(&[byte]);
        }
    }
    list
}

fn number_of(written: &str) -> u32 {
    written.strip_prefix("refused ").map_or(0, |n| n.trim_end().parse().unwrap())
}

pub fn texts(out: &mut Lists) {
    let mut inputs = bytes_of(REFUSED);
    inputs.extend(long_ones());
    inputs.extend(ODD.iter().map(|text| (text.as_bytes().to_vec(), 0)));
    for (_, line) in complete().into_iter().chain(cut_short()) {
        inputs.push((line.replace(';', "\n").into_bytes(), 0));
    }
    for text in [&b"2 1 100 1\n-3 -4\n2 2\n0 1 5\n"[..], b"0 0 9 0\n\n\n"] {
        inputs.extend(changed(text).into_iter().map(|t| (t.clone(), number_of(&program(&t)))));
    }
    let mut lines = Vec::new();
    for (input, meant) in &inputs {
        let written = program(input);
        let number = number_of(&written);
        assert_eq!(number, *meant, "{:?}", String::from_utf8_lossy(&input[..input.len().min(60)]));
        lines.push(format!("{};{}", hex_runs(input), written.replace('\n', ";")));
    }
    out.file("texts.txt", lines.len(), &lines);
    tally("answers", inputs.iter().map(|(_, number)| *number));
}
