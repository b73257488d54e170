//! What the rounds of leases and tokens are measured against: a plain `fetch_add` on one atomic
//! word, and a plain list under a mutex, from which a byte is popped and to which it is pushed.
//! Each line of standard input is `atomic` or `mutex` and a number of rounds.
use std::hint::black_box;
use std::io::BufRead;
use std::sync::Mutex;
use std::sync::atomic::{AtomicU64, Ordering::SeqCst};

fn main() {
    for line in std::io::stdin().lock().lines() {
        let line = line.expect("a line");
        let (kind, count) = line.split_once(' ').expect("a kind and a count");
        let count: u64 = count.parse().expect("a number");
        if kind == "atomic" {
            let word = AtomicU64::new(0);
            for _ in 0..count {
                black_box(&word).fetch_add(black_box(1), SeqCst);
            }
            println!("atomic {}", word.into_inner());
        } else {
            let pool = Mutex::new(vec![b'+']);
            let mut taken = 0u64;
            for _ in 0..count {
                let byte = black_box(&pool).lock().expect("the lock").pop();
                if let Some(byte) = byte {
                    taken += 1;
                    black_box(&pool).lock().expect("the lock").push(byte);
                }
            }
            println!("mutex {taken}");
        }
    }
}
