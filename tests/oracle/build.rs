//! Copies the given Rust into the build directory, unchanged but for one door
//! appended at the end of `low_degree.rs`, because `reduce` is private there.
//! With the feature `without_clock` each name of the clock becomes a stand-in's.
use std::path::{Path, PathBuf};
use std::{env, fs};

const GIVEN: [&str; 7] = [
    "solver_options.rs",
    "preprocess/low_degree.rs",
    "preprocess/low_degree/cut_dominance.rs",
    "preprocess/low_degree/degree_three.rs",
    "preprocess/low_degree/dominant_edge.rs",
    "preprocess/low_degree/small_block.rs",
    "subproblemsolvers/roofdual/flow.rs",
];

fn main() {
    println!("cargo:rerun-if-env-changed=BALECREAK_SHARED");
    let shared = env::var("BALECREAK_SHARED").unwrap_or("../../../shared".into());
    let from = Path::new(&shared).join("docs/src/src");
    let to = PathBuf::from(env::var("OUT_DIR").unwrap()).join("given");
    for file in GIVEN {
        copy(&from.join(file), &to.join(file));
    }
    let low_degree = to.join("preprocess/low_degree.rs");
    let text = fs::read_to_string(&low_degree).unwrap();
    fs::write(&low_degree, text + "\n" + include_str!("src/door.rs")).unwrap();
    fs::write(to.join("modules.rs"), modules(&to)).unwrap();
}

fn copy(from: &Path, to: &Path) {
    println!("cargo:rerun-if-changed={}", from.display());
    let text = fs::read_to_string(from).unwrap_or_else(|e| panic!("{}: {e}", from.display()));
    fs::create_dir_all(to.parent().unwrap()).unwrap();
    // A copy of a read-only file would be read-only: write the text instead.
    let clock = env::var_os("CARGO_FEATURE_WITHOUT_CLOCK").is_none();
    fs::write(to, if clock { text } else { without_clock(&text) }).unwrap();
}

fn without_clock(text: &str) -> String {
    const STILL: &str = "crate::stand_ins::still::Instant";
    text.replace("use std::time::{Duration, Instant};", &format!("use std::time::Duration;\nuse {STILL};"))
        .replace("std::time::Instant", STILL)
}

/// The module tree of the copies. `#[path]` takes no variable, so it is written here.
fn modules(to: &Path) -> String {
    let at = |name: &str| format!("{:?}", to.join(name));
    format!(
        "#[path = {}] pub mod solver_options;\n\
         #[path = {}] pub mod preprocess {{ pub use crate::stand_ins::preprocess_qubo; pub mod low_degree; }}\n\
         pub mod subproblemsolvers {{ #[path = {}] pub mod roofdual {{\n\
             pub use crate::stand_ins::PreparedRoofDual; pub(crate) mod flow; }} }}\n",
        at("solver_options.rs"),
        at("preprocess"),
        at("subproblemsolvers/roofdual"),
    )
}
