//! Shim for `crate::utils`, whose original is not at hand.
//!
//! `set_difference` and `merge_and_order_indices` are written anew, by the rule in
//! docs/DIFFERENCES.md; both are pure list functions. The others are reached only
//! by formatting and by SQL text, which the oracle never calls, and so they stop
//! the program rather than guess.

use std::borrow::{Borrow, Cow};

/// Keeps the first list's entries absent from the second.
pub fn set_difference<T: Borrow<usize>, S: Borrow<usize>>(
    first: impl IntoIterator<Item = T>,
    second: impl IntoIterator<Item = S>,
) -> Vec<usize> {
    let absent_from: Vec<usize> = second.into_iter().map(|e| *e.borrow()).collect();
    first
        .into_iter()
        .map(|e| *e.borrow())
        .filter(|e| !absent_from.contains(e))
        .collect()
}

/// Both lists, ascending, without repeats.
pub fn merge_and_order_indices<T: Borrow<usize>, S: Borrow<usize>>(
    first: impl IntoIterator<Item = T>,
    second: impl IntoIterator<Item = S>,
) -> Vec<usize> {
    let mut both: Vec<usize> = first.into_iter().map(|e| *e.borrow()).collect();
    both.extend(second.into_iter().map(|e| *e.borrow()));
    both.sort_unstable();
    both.dedup();
    both
}

pub fn quote_identifier(_s: &str) -> Cow<'_, str> {
    unimplemented!("shim: SQL text is not carried")
}

pub(crate) fn parse_identifiers_normalized(_s: &str, _ignore_case: bool) -> Vec<String> {
    unimplemented!("shim: SQL text is not carried")
}

pub mod datafusion_strsim {
    pub fn levenshtein(_a: &str, _b: &str) -> usize {
        unimplemented!("shim: formatting is not carried")
    }

    pub fn normalized_levenshtein(_a: &str, _b: &str) -> f64 {
        unimplemented!("shim: diagnostics are not carried")
    }
}
