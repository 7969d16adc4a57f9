//! bench MILLISECONDS TABLE PLOT: times our reduce and the given Rust's on the same objectives, and
//! reading, writing and growing back; prints the table and writes it, with a plot beside it.
mod blocks;
#[path = "../../bindings/rust/tests/common/lent.rs"]
mod lent;
mod others;
mod plot;
mod sets;
mod times;

use sets::{Set, DRAWN, WITHOUT_BLOCK, WITH_BLOCK};
use std::fmt::Write;
use times::{times, Times};

/// One line of the table.
pub struct Row {
    pub name: &'static str,
    pub n: usize,
    pub small_block: bool,
    pub times: Times,
}

fn main() {
    let args: Vec<String> = std::env::args().skip(1).collect();
    let [milliseconds, table, plot] = args.as_slice() else {
        eprintln!("usage: bench MILLISECONDS TABLE PLOT");
        std::process::exit(2);
    };
    let budget = milliseconds.parse().expect("a number of milliseconds");
    let sets = sets::sets();
    let rows: Vec<Row> = sets.iter().flat_map(|set| rows(set, budget)).collect();
    let text = told(milliseconds, &rows) + &others::told(&sets, budget) + &blocks::told(budget);
    print!("{text}");
    std::fs::write(table, text).expect("the table is written");
    std::fs::write(plot, plot::svg(&rows)).expect("the plot is written");
}

fn rows(set: &Set, budget: u64) -> [Row; 2] {
    [WITHOUT_BLOCK, WITH_BLOCK].map(|switches| Row {
        name: set.name,
        n: set.n,
        small_block: switches == WITH_BLOCK,
        times: times(set, switches, budget),
    })
}

fn told(milliseconds: &str, rows: &[Row]) -> String {
    let mut text = format!("made by: bench/run {milliseconds}\n");
    writeln!(
        text,
        "microseconds a call, the mean over {DRAWN} objectives of the best of many repetitions"
    )
    .unwrap();
    writeln!(text, "ours: balecreak_reduce, with the record written into its block; Rust: the given reduce; still: the").unwrap();
    writeln!(
        text,
        "same with its calls of the clock taken out; a ratio is how many times faster ours is"
    )
    .unwrap();
    writeln!(
        text,
        "low degree, degree three and dominant edge are on; small block as the column says\n"
    )
    .unwrap();
    let head =
        ["set", "n", "block", "units", "left", "ours", "Rust", "still", "Rust/ours", "still/ours"];
    writeln!(text, "{}", line(&head.map(String::from))).unwrap();
    for row in rows {
        let t = &row.times;
        writeln!(
            text,
            "{}",
            line(&[
                row.name.into(),
                row.n.to_string(),
                if row.small_block { "on" } else { "off" }.into(),
                format!("{:.1}", t.units),
                format!("{:.1}", t.remaining),
                format!("{:.2}", t.ours),
                format!("{:.2}", t.rust),
                format!("{:.2}", t.still),
                format!("{:.2}", t.rust / t.ours),
                format!("{:.2}", t.still / t.ours),
            ])
        )
        .unwrap();
    }
    let least = |name: &str, small_block: bool, large: bool| {
        rows.iter()
            .filter(|r| {
                r.small_block == small_block && r.name.starts_with(name) && (!large || r.n == 64)
            })
            .map(|r| r.times.still / r.times.ours)
            .fold(f64::MAX, f64::min)
    };
    writeln!(
        text,
        "\nleast still/ours at n 64, small block off: sparse {:.2}, dense {:.2}",
        least("sparse", false, true),
        least("dense", false, true)
    )
    .unwrap();
    writeln!(text, "least still/ours of any set, small block on: {:.2}\n", least("", true, false))
        .unwrap();
    text
}

/// A line of a table: what it is about, and the figures.
fn line<const K: usize>(cells: &[String; K]) -> String {
    let about = format!("{:<13}", cells[0]);
    cells[1..].iter().fold(about, |text, cell| text + &format!(" {cell:>10}"))
}
