//! Reads and writes more memory than a processor's cache holds, until it is ended.
use std::hint::black_box;

fn main() {
    let mut words = vec![1u64; 16 << 20];
    loop {
        words
            .iter_mut()
            .for_each(|word| *word = word.wrapping_mul(3));
        black_box(&words);
    }
}
