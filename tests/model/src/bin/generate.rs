//! generate SEED COUNT: objectives, one a line, a semicolon for each newline.
use model::generator::{any_size, crowded, objective};
use model::random::Random;
use model::text::{objective_text, with_semicolons};
use std::io::{BufWriter, Write};

fn main() {
    let args: Vec<u64> = std::env::args().skip(1).map(|a| a.parse().unwrap()).collect();
    let mut random = Random(args[0]);
    let mut out = BufWriter::new(std::io::stdout().lock());
    for k in 0..args[1] {
        let n = any_size(&mut random);
        let o = if k % 400 == 0 { crowded(&mut random) } else { objective(&mut random, n) };
        writeln!(out, "{}", with_semicolons(&objective_text(&o))).unwrap();
    }
}
