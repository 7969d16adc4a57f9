//! Random objectives against the given Rust itself. It is not in this repository: where the shared
//! papers are not found (BALECREAK_SHARED, or `shared` beside the repository), nothing is compared, and it says so.
mod common;
use common::{number, path, Lent};
use model::generator::{any_size, objective};
use model::random::Random;
use model::text::{objective_text, with_semicolons};
use model::told::told;
use std::io::Write;
use std::path::PathBuf;
use std::process::{Command, Stdio};

#[test]
fn random_objectives() {
    let shared = std::env::var_os("BALECREAK_SHARED").map_or(path("../shared"), PathBuf::from);
    let Some(shared) = shared.canonicalize().ok().filter(|s| s.join("docs/src/src").is_dir())
    else {
        // Not by println!, which a test that passes keeps to itself.
        writeln!(std::io::stderr(), "skipped: the given Rust is not here").unwrap();
        return;
    };
    let mut random = Random(6);
    let tries = std::env::var("BALECREAK_TRIES").ok().and_then(|t| t.parse().ok()).unwrap_or(2_000);
    let drawn: Vec<_> = (0..tries)
        .map(|_| {
            let n = any_size(&mut random);
            objective(&mut random, n)
        })
        .collect();
    let text: String = drawn.iter().map(|o| with_semicolons(&objective_text(o)) + "\n").collect();
    let answers = ask(&shared, text);
    assert_eq!(answers.lines().count(), drawn.len());
    let mut steps = 0;
    for (o, answer) in drawn.iter().zip(answers.lines()) {
        let mut lent = Lent::fresh();
        assert_eq!(number(lent.reduce(o)), 0);
        assert_eq!(told(&lent.as_model()), answer);
        steps += usize::from(answer != "none");
    }
    assert!(steps > tries / 3);
}

fn ask(shared: &std::path::Path, text: String) -> String {
    let mut oracle = Command::new(env!("CARGO"))
        .args(["run", "--release", "--offline", "--quiet"])
        .current_dir(path("tests/oracle"))
        .env("BALECREAK_SHARED", shared)
        .stdin(Stdio::piped())
        .stdout(Stdio::piped())
        .spawn()
        .expect("cargo runs the oracle");
    let mut input = oracle.stdin.take().unwrap();
    let writer = std::thread::spawn(move || input.write_all(text.as_bytes()));
    let output = oracle.wait_with_output().unwrap();
    writer.join().unwrap().unwrap();
    assert!(output.status.success());
    String::from_utf8(output.stdout).unwrap()
}
