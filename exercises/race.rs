//! Races that are seen, on the machine that runs this: three tables, in some seconds.
//!
//!   rustc --edition 2024 -O -o race exercises/race.rs && ./race
//!
//! **Two callers, one word.** Press and table claim and release zones of their own, z3 and z1, by a
//! compare-exchange, by a load and a plain store, and by a load and a store under a lock. Each makes
//! 500,000 calls, and lets the other go on after the load of every 1,024th. The stamp in the word counts
//! changes, so at the end it should be as many as the callers were told `done`. Neither touches the
//! other's bits; so whoever was told that its claim is done should find its own bit set at its release.
//!
//! **One stands still.** The press stops for 200 ms after its load. How many calls does the table make?
//!
//! **Two words.** Each of two callers raises a flag of its own, then looks at the other's, and goes in
//! if that is down. Both should never be in.

use std::sync::atomic::{AtomicBool, AtomicU64, AtomicUsize, Ordering, Ordering::*};
use std::sync::{Barrier, Mutex};
use std::time::{Duration, Instant};
use std::{hint, thread};

/// The owner of z1 is the table, the owner of z3 is the press (`docs/MODEL.md`).
const TABLE: u64 = 1;
const PRESS: u64 = 1 << 10;
const STAMP: u64 = 1 << 40;
const CALLS: u64 = 500_000;
const ROUNDS: usize = 200_000;

/// Puts `new` in place of `old`, and returns whether it has.
type Put = fn(&AtomicU64, u64, u64) -> bool;

fn exchange(word: &AtomicU64, old: u64, new: u64) -> bool {
    word.compare_exchange(old, new, SeqCst, SeqCst).is_ok()
}

fn store(word: &AtomicU64, _old: u64, new: u64) -> bool {
    word.store(new, SeqCst);
    true
}

/// Claims and releases. Returns the calls that were done, the lost exchanges, and how often its zone
/// was gone at a release, or there before a claim.
fn calls(word: &AtomicU64, own: u64, put: Put, lock: Option<&Mutex<()>>) -> [u64; 3] {
    let [mut done, mut lost, mut wrong] = [0; 3];
    for number in 0..CALLS {
        let claims = number % 2 == 0;
        loop {
            let _kept = lock.map(|it| it.lock().expect("no thread panics"));
            let old = word.load(SeqCst);
            if (old & own == 0) != claims {
                wrong += 1;
                break;
            }
            // (so that it is seen on one processor too, or on a busy one)
            if number % 1024 == 0 {
                thread::yield_now();
            }
            if put(word, old, (old ^ own) + STAMP) {
                done += 1;
                break;
            }
            lost += 1;
        }
    }
    [done, lost, wrong]
}

/// Two callers on one word: one row of the first table.
fn race(name: &str, put: Put, lock: Option<&Mutex<()>>) {
    let (word, both) = (AtomicU64::new(0), Barrier::new(2));
    let told = thread::scope(|scope| {
        [TABLE, PRESS]
            .map(|own| {
                let (word, both) = (&word, &both);
                scope.spawn(move || {
                    both.wait();
                    calls(word, own, put, lock)
                })
            })
            .map(|it| it.join().expect("no thread panics"))
    });
    let [done, lost, wrong] = [0, 1, 2].map(|it| told[0][it] + told[1][it]);
    let stamp = word.into_inner() >> 40;
    println!("{name:<8} {done:>7} {stamp:>8} {:>13} {lost:>15} {wrong:>14}", done as i64 - stamp as i64);
}

/// How many calls the table makes while the press stands still after its load.
fn made_meanwhile(lock: Option<&Mutex<()>>) -> u64 {
    let (word, both, over) = (AtomicU64::new(0), Barrier::new(2), AtomicBool::new(false));
    thread::scope(|scope| {
        let table = scope.spawn(|| {
            both.wait();
            for made in 0.. {
                let _kept = lock.map(|it| it.lock().expect("no thread panics"));
                let old = word.load(SeqCst);
                if over.load(SeqCst) {
                    return made;
                }
                exchange(&word, old, (old ^ TABLE) & (STAMP - 1));
            }
            unreachable!("the press goes on")
        });
        let kept = lock.map(|it| it.lock().expect("no thread panics"));
        let old = word.load(SeqCst);
        both.wait();
        thread::sleep(Duration::from_millis(200));
        over.store(true, SeqCst);
        exchange(&word, old, old ^ PRESS);
        drop(kept);
        table.join().expect("no thread panics")
    })
}

/// In how many rounds both callers are in, and in how many they looked, if they do so in this order of
/// memory. It ends after two seconds, if the machine is busy.
fn both_in(raise: Ordering, look: Ordering) -> (usize, usize) {
    let flags = [0, 1].map(|_| (0..ROUNDS).map(|_| AtomicBool::new(false)).collect::<Vec<_>>());
    let (rounds, begun) = ([0, 1].map(|_| AtomicUsize::new(0)), Instant::now());
    let inside = thread::scope(|scope| {
        [0, 1]
            .map(|own| {
                let (flags, rounds, other) = (&flags, &rounds, 1 - own);
                scope.spawn(move || {
                    let mut inside = vec![];
                    for round in 0..ROUNDS {
                        rounds[own].store(round + 1, SeqCst);
                        // both begin 16 rounds at a time, or nearly so
                        for waited in 1u64.. {
                            if round % 16 != 0 || rounds[other].load(SeqCst) > round {
                                break;
                            }
                            hint::spin_loop();
                            if waited % 100 == 0 {
                                thread::yield_now();
                            }
                        }
                        if begun.elapsed() > Duration::from_secs(2) {
                            rounds[own].store(ROUNDS, SeqCst);
                            break;
                        }
                        flags[own][round].store(true, raise);
                        inside.push(!flags[other][round].load(look));
                    }
                    inside
                })
            })
            .map(|it| it.join().expect("no thread panics"))
    });
    let both = inside[0].iter().zip(&inside[1]);
    (both.clone().filter(|(one, other)| **one && **other).count(), both.count())
}

fn main() {
    let lock = Mutex::new(());
    println!("two callers     done    stamp  changes lost  exchanges lost  own bit wrong");
    race("exchange", exchange, None);
    race("store", store, None);
    race("lock", store, Some(&lock));
    println!("one stands still: calls of the other meanwhile");
    println!("exchange {}", made_meanwhile(None));
    println!("lock     {}", made_meanwhile(Some(&lock)));
    println!("two flags        both in    of");
    let acquire = ("Release, Acquire", Release, Acquire);
    for (name, raise, look) in [("Relaxed", Relaxed, Relaxed), acquire, ("SeqCst", SeqCst, SeqCst)] {
        let (both, rounds) = both_in(raise, look);
        println!("{name:<16} {both:>7} {rounds:>7}");
    }
}
