//! `atomics CELL TIMES`: the bare atomic steps of taking a cell of a lock table and giving it back, so many times.
//!
//! The cells are those of lock_bench: cell k is on level k for k = 0 .. 10, and stands in cells k - 1, .. 0.
use std::hint::black_box;
use std::sync::atomic::AtomicU64;
use std::sync::atomic::Ordering::SeqCst;

/// Takes the cell: false where it or a cell above was found locked (which doesn't come about here, by one thread).
#[inline(always)]
fn take(words: &[AtomicU64], cell: usize, above: &[u32]) -> bool {
    if words[1 + cell].compare_exchange(0, 1, SeqCst, SeqCst).is_err() {
        return false;
    }
    for &cell in above {
        if words[1 + cell as usize].fetch_add(2, SeqCst) % 2 == 1 {
            return false;
        }
    }
    true
}

/// Gives it back.
#[inline(always)]
fn give(words: &[AtomicU64], cell: usize, above: &[u32]) {
    for &cell in above.iter().rev() {
        words[1 + cell as usize].fetch_sub(2, SeqCst);
    }
    words[1 + cell].fetch_sub(1, SeqCst);
}

fn main() {
    let mut given = std::env::args().skip(1).map(|word| word.parse::<u64>().unwrap());
    let (cell, times) = (given.next().unwrap() as usize, given.next().unwrap());
    // A word before the cells, eleven cells and a leaf, as in the table.
    let words: Vec<AtomicU64> = (0..13).map(|_| AtomicU64::new(0)).collect();
    let above: Vec<u32> = black_box((0..cell as u32).rev().collect());
    let mut got = 0u64;
    for _ in 0..times {
        if take(&words, cell, &above) {
            give(&words, cell, &above);
            got += 1;
        }
    }
    assert!(words.iter().all(|word| word.load(SeqCst) == 0));
    // A copy, so that the count above stays in a register.
    let total = got;
    println!("got {total}");
}
