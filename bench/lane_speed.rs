//! What sessions are measured against: as many threads over the channels of std, and as many jobs out
//! at once as there are tokens and one. Each line of standard input has the number of units, of lanes
//! and of tokens, and for how many turns each unit is worked on; each answer has how many units were
//! made, and the microseconds on the clock and of the processor that it took.
use std::hint::black_box;
use std::io::BufRead;
use std::sync::mpsc::{Receiver, channel};
use std::sync::{Arc, Mutex};
use std::thread;
use std::time::Instant;

fn turned(seed: u64, turns: u64) -> u64 {
    let mut state = seed;
    for _ in 0..turns {
        state = state
            .wrapping_mul(6364136223846793005)
            .wrapping_add(1442695040888963407);
        state ^= state >> 29;
    }
    state
}

fn next_job(jobs: &Arc<Mutex<Receiver<u64>>>) -> Option<u64> {
    jobs.lock().expect("the lock").recv().ok()
}

fn session(units: u64, lanes: u64, tokens: u64, turns: u64) -> u64 {
    let (job_end, jobs) = channel::<u64>();
    let (done_end, dones) = channel::<(u64, u64)>();
    let jobs = Arc::new(Mutex::new(jobs));
    let mut threads = Vec::new();
    for _ in 0..lanes {
        let jobs = Arc::clone(&jobs);
        let done_end = done_end.clone();
        threads.push(thread::spawn(move || {
            while let Some(unit) = next_job(&jobs) {
                let _ = done_end.send((unit, black_box(turned(unit, turns))));
            }
        }));
    }
    let (mut sent, mut made) = (0, 0);
    while made < units {
        while sent < units && sent - made <= tokens {
            let _ = job_end.send(sent);
            sent += 1;
        }
        if dones.recv().is_ok() {
            made += 1;
        }
    }
    drop(job_end);
    for thread in threads {
        let _ = thread.join();
    }
    made
}

// Microseconds of the processor so far, in the steps in which Linux tells them.
fn used() -> u64 {
    let told = std::fs::read_to_string("/proc/self/stat").expect("the times of the process");
    let rest = told.rsplit(')').next().expect("what follows the name");
    let ticks: u64 = rest
        .split_whitespace()
        .skip(11)
        .take(2)
        .map(|word| word.parse::<u64>().expect("a number"))
        .sum();
    ticks * 10_000
}

fn main() {
    for line in std::io::stdin().lock().lines() {
        let line = line.expect("a line");
        let words: Vec<u64> = line.split(' ').map(|word| word.parse().expect("a number")).collect();
        let (start, before) = (Instant::now(), used());
        let made = session(words[0], words[1], words[2], words[3]);
        println!("{made} {} {}", start.elapsed().as_micros(), used() - before);
    }
}
