//! Makes the stored lists of crates/vectors/data.
//!   vectors questions                     the objectives to put to the oracle
//!   vectors lists QUESTIONS ANSWERS DIR   all lists, and a summary on standard output
mod back;
mod bases;
mod damage;
mod lists;
mod named;
mod objectives;
mod records;
mod refusals;
mod texts;

use std::fs::read_to_string;

fn main() {
    let args: Vec<String> = std::env::args().skip(1).collect();
    match args[0].as_str() {
        "questions" => print!("{}", objectives::questions()),
        "lists" => {
            let questions = read_to_string(&args[1]).unwrap();
            let answers = read_to_string(&args[2]).unwrap();
            let mut out = lists::Lists::new(&args[3]);
            objectives::objectives(&mut out, &questions, &answers);
            objectives::budgets(&mut out);
            refusals::refusals(&mut out);
            texts::texts(&mut out);
            let bases = bases::bases();
            records::bases(&mut out, &bases);
            records::records(&mut out, &bases);
            records::passed(&mut out, &bases);
            back::back(&mut out, &bases);
        }
        other => panic!("no such part: {other}"),
    }
}
