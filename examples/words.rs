//! Counts the words of a text in a `BTreeMap`, and prints those that come often enough.

use std::collections::BTreeMap;

#[link(wasm_import_module = "host")]
extern "C" {
    /// Writes the low byte of its argument.
    fn put(byte: i32);
    /// Writes its argument as a signed decimal number, and a newline.
    fn num(value: i64);
}

const TEXT: &str = "the quick brown fox jumps over the lazy dog and the dog sleeps";

fn print(text: &str) {
    for byte in text.bytes() {
        unsafe { put(i32::from(byte)) }
    }
}

/// Prints each word that comes at least so often, in order, with its count, and returns how many these are.
#[no_mangle]
pub extern "C" fn words(least: i64) -> i32 {
    let mut counts: BTreeMap<String, i64> = BTreeMap::new();
    for word in TEXT.split(' ') {
        *counts.entry(word.to_string()).or_insert(0) += 1;
    }
    let often: Vec<(&String, &i64)> = counts.iter().filter(|(_, count)| **count >= least).collect();
    for (word, count) in &often {
        print(word);
        print(" ");
        unsafe { num(**count) }
    }
    often.len() as i32
}
