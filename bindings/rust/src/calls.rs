//! The library's calls on slices, one to one. Slices of any length and any values are fine: what a
//! call cannot use it refuses, and then nothing lent has changed.
use crate::Refusal;

mod library {
    // A slice goes as its first element's address and its length. The library reads and writes
    // nothing else, keeps nothing, and has no state.
    extern "C" {
        pub fn balecreak_reduce(
            n: u32,
            weights: *const i64,
            weights_len: usize,
            firsts: *const u32,
            firsts_len: usize,
            seconds: *const u32,
            seconds_len: usize,
            term_weights: *const i64,
            term_weights_len: usize,
            fixings: *const u8,
            fixings_len: usize,
            switches: u32,
            budget: u32,
            linear: *mut i64,
            linear_len: usize,
            edges: *mut i64,
            edges_len: usize,
            block: *mut u8,
            block_len: usize,
            counts: *mut u32,
            counts_len: usize,
        ) -> u32;
        pub fn balecreak_check(block: *const u8, block_len: usize) -> u32;
        pub fn balecreak_copy(
            block: *const u8,
            block_len: usize,
            out: *mut u8,
            out_len: usize,
        ) -> u32;
        pub fn balecreak_grow_back(
            block: *const u8,
            block_len: usize,
            answer: *const u8,
            answer_len: usize,
            plan: *mut u8,
            plan_len: usize,
        ) -> u32;
        pub fn balecreak_project(
            block: *const u8,
            block_len: usize,
            plan: *const u8,
            plan_len: usize,
            out: *mut u8,
            out_len: usize,
        ) -> u32;
    }
}

/// Reduces an objective. `linear` is 64 long, `edges` 4,096, `block` 512, `counts` 14: the ten
/// counts of [`Counts`](crate::Counts) in order, then takes, blocks, units, and 1 if complete.
#[allow(clippy::too_many_arguments)]
pub fn reduce(
    n: u32,
    weights: &[i64],
    firsts: &[u32],
    seconds: &[u32],
    term_weights: &[i64],
    fixings: &[u8],
    switches: u32,
    budget: u32,
    linear: &mut [i64],
    edges: &mut [i64],
    block: &mut [u8],
    counts: &mut [u32],
) -> Result<(), Refusal> {
    // SAFETY: each pair is one live slice, and the four lent outputs are apart from all others.
    Refusal::from_number(unsafe {
        library::balecreak_reduce(
            n,
            weights.as_ptr(),
            weights.len(),
            firsts.as_ptr(),
            firsts.len(),
            seconds.as_ptr(),
            seconds.len(),
            term_weights.as_ptr(),
            term_weights.len(),
            fixings.as_ptr(),
            fixings.len(),
            switches,
            budget,
            linear.as_mut_ptr(),
            linear.len(),
            edges.as_mut_ptr(),
            edges.len(),
            block.as_mut_ptr(),
            block.len(),
            counts.as_mut_ptr(),
            counts.len(),
        )
    })
}

/// Whether a block is one that can be read: refuses with 9, 10, 11, 12.
pub fn check(block: &[u8]) -> Result<(), Refusal> {
    // SAFETY: one live slice.
    Refusal::from_number(unsafe { library::balecreak_check(block.as_ptr(), block.len()) })
}

/// Writes the record that a block holds anew into an output of 512 bytes, which then holds the
/// block's bytes: refuses with 9, 10, 11, 12; 9 where either is not 512 long.
pub fn copy(block: &[u8], out: &mut [u8]) -> Result<(), Refusal> {
    // SAFETY: two live slices, the lent one apart from the other.
    Refusal::from_number(unsafe {
        library::balecreak_copy(block.as_ptr(), block.len(), out.as_mut_ptr(), out.len())
    })
}

/// Grows an answer back into a plan n long: refuses with 9, 10, 11, 12, 7, 8.
pub fn grow_back(block: &[u8], answer: &[u8], plan: &mut [u8]) -> Result<(), Refusal> {
    // SAFETY: three live slices, the lent one apart from the others.
    Refusal::from_number(unsafe {
        library::balecreak_grow_back(
            block.as_ptr(),
            block.len(),
            answer.as_ptr(),
            answer.len(),
            plan.as_mut_ptr(),
            plan.len(),
        )
    })
}

/// Writes a plan's remaining entries at the front of an output n long, then zeros: refuses with 9,
/// 10, 11, 12, 7, 8.
pub fn project(block: &[u8], plan: &[u8], out: &mut [u8]) -> Result<(), Refusal> {
    // SAFETY: three live slices, the lent one apart from the others.
    Refusal::from_number(unsafe {
        library::balecreak_project(
            block.as_ptr(),
            block.len(),
            plan.as_ptr(),
            plan.len(),
            out.as_mut_ptr(),
            out.len(),
        )
    })
}
