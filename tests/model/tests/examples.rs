//! The paper's examples A to J, held against the model.
use model::record::{write, Record};
use model::run::{reduce, Counts};
use model::text::{program, read};

fn says(input: &str, expected: &str) {
    let input = input.replace(';', "\n");
    assert_eq!(program(input.as_bytes()).replace('\n', ";"), expected);
}

fn counts(input: &str) -> Counts {
    reduce(&read(input.replace(';', "\n").as_bytes()).unwrap()).unwrap().counts
}

#[test]
fn a_nothing_at_all() {
    says("0 15 0 0;;;", "constant 0;remaining;linear;units 0 complete yes;");
}

#[test]
fn b_zero_chooses_zero() {
    says("1 1 9 0;0;2;", "constant 0;remaining;linear;step 0 : : 0;units 1 complete yes;");
}

#[test]
fn c_below_zero_chooses_one() {
    says("1 1 9 0;-5;2;", "constant -5;remaining;linear;step 0 : : 1;units 1 complete yes;");
}

#[test]
fn d_two_and_an_edge() {
    says(
        "2 1 100 1;-3 -4;2 2;0 1 5;",
        "constant -4;remaining;linear;step 0 : 1 : 1 0;step 1 : : 1;units 2 complete yes;",
    );
}

#[test]
fn e_cut_short_and_complete() {
    says(
        "3 1 1 3;-2 -10 -10;2 2 2;0 1 3;0 2 3;1 2 2;",
        "constant -2;remaining 1 2;linear -8 -8;step 0 : 1 2 : 1 0 0 0;units 1 complete no;",
    );
    says(
        "3 1 3 3;-2 -10 -10;2 2 2;0 1 3;0 2 3;1 2 2;",
        "constant -18;remaining;linear;step 0 : 1 2 : 1 0 0 0;step 1 : : 1;step 2 : : 1;units 3 complete yes;",
    );
}

#[test]
fn f_degree_three() {
    says(
        "4 3 1 3;-3 0 0 0;2 2 2 2;0 1 2;0 2 2;0 3 2;",
        "constant -3;remaining 1 2 3;linear 2 2 2;edge 0 1 -1;edge 0 2 -1;edge 1 2 -1;\
         step 0 : 1 2 3 : 1 1 1 0 1 0 0 0;units 1 complete no;",
    );
}

#[test]
fn g_a_cubic_entry() {
    let input = "4 3 1 3;-1 0 0 0;2 2 2 2;0 1 1;0 2 1;0 3 1;";
    says(
        input,
        "constant 0;remaining 0 1 2 3;linear -1 0 0 0;edge 0 1 1;edge 0 2 1;edge 0 3 1;units 1 complete no;",
    );
    assert_eq!(counts(input).degree_three_skipped, 1);
}

#[test]
fn h_dominant_not_weak() {
    let input = "2 4 100 1;-3 -4;2 2;0 1 5;";
    says(input, "constant -3;remaining 1;linear -1;step 0 : 1 : 1 0;units 2 complete yes;");
    let counts = counts(input);
    assert_eq!((counts.contracted, counts.weak_contractions), (1, 0));
}

#[test]
fn i_dominant_and_weak() {
    let input = "2 4 100 1;0 7;2 2;0 1 -4;";
    says(input, "constant 0;remaining 1;linear 3;step 0 : 1 : 0 1;units 2 complete yes;");
    let counts = counts(input);
    assert_eq!((counts.contracted, counts.weak_contractions), (1, 1));
}

#[test]
fn j_a_small_block() {
    let input = "4 8 100 3;0 0 -1 -1;2 2 2 2;0 1 1;1 2 2;2 3 -1;";
    says(
        input,
        "constant -3;remaining 0 1;linear 0 2;edge 0 1 1;step 2 : 1 : 1 0;step 3 : 1 : 1 1;units 1 complete yes;",
    );
    assert_eq!(counts(input).passes, 2);
}

/// The state-3 decisions, the steps and the check of D, written out by hand.
#[test]
fn the_block_of_d() {
    let reduction = reduce(&read(b"2 1 100 1\n-3 -4\n2 2\n0 1 5\n").unwrap()).unwrap();
    let block = write(&Record::of(&reduction), 512).unwrap();
    let mut bytes = vec![3, 2, 2, 0, 0xfc, 0xff, 0xff, 0xff, 0xff, 0xff, 0xff, 0xff, 3, 3];
    bytes.resize(76, 0);
    bytes.extend([0, 1, 1, 0, 0, 1, 1, 0, 0, 0, 0, 1]);
    assert_eq!(block[..88], bytes);
    assert!(block[88..508].iter().all(|&b| b == 0));
    // s1 = 1 + 3+2+2 + 252 + 7*255 + 3+3 + 1+1+1 + 1+1 = 2056, by hand.
    assert_eq!(block[508..510], 2056u16.to_le_bytes());
}
