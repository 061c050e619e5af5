//! A, B, A: between a caller's load and its exchange others change what it loaded, and change it back.
//!
//!   rustc --edition 2024 -O -o aba exercises/aba.rs && ./aba
//!
//! First step by step, by one thread. Then two threads take cells from a stack of free cells and put
//! them back: how often is one cell in two hands, and are all there at the end?

use std::sync::Barrier;
use std::sync::atomic::{AtomicBool, AtomicU64, Ordering::SeqCst};
use std::thread;
use std::time::{Duration, Instant};

const CELLS: usize = 3;
const NONE: u64 = 3;
const COUNT: u64 = 4;

/// A stack of free cells. The head's two low bits are the number of the uppermost cell, or `NONE`.
/// The bits above them count exchanges, if they are counted.
struct Stack {
    head: AtomicU64,
    below: [AtomicU64; CELLS],
    counts: bool,
}

impl Stack {
    fn new(counts: bool) -> Stack {
        Stack { head: AtomicU64::new(0), below: [1, 2, NONE].map(AtomicU64::new), counts }
    }

    /// A load: the head, and the cell below the uppermost one.
    fn look(&self) -> Option<(u64, u64)> {
        let head = self.head.load(SeqCst);
        let below = self.below.get((head % COUNT) as usize)?;
        Some((head, below.load(SeqCst)))
    }

    /// An exchange of the head that was loaded.
    fn attempt(&self, head: u64, cell: u64) -> bool {
        let count = if self.counts { head / COUNT + 1 } else { 0 };
        self.head.compare_exchange(head, count * COUNT + cell, SeqCst, SeqCst).is_ok()
    }

    /// Takes the uppermost cell. If `slow`, it rests between its load and its exchange.
    fn take(&self, slow: bool) -> Option<u64> {
        loop {
            let (head, below) = self.look()?;
            if slow {
                thread::sleep(Duration::from_micros(10));
            }
            if self.attempt(head, below) {
                return Some(head % COUNT);
            }
        }
    }

    fn put_back(&self, cell: u64) {
        loop {
            let head = self.head.load(SeqCst);
            self.below[cell as usize].store(head % COUNT, SeqCst);
            if self.attempt(head, cell) {
                return;
            }
        }
    }
}

/// The press looks at the word, the table claims z1 and releases it, and then the press exchanges.
/// Is z3 the press's, and z1 nobody's?
fn word_step_by_step() {
    let (table, press, word) = (1, 1 << 10, AtomicU64::new(0));
    let old = word.load(SeqCst);
    word.store(table, SeqCst);
    word.store(0, SeqCst);
    let is_done = word.compare_exchange(old, old | press, SeqCst, SeqCst).is_ok();
    let is_right = word.into_inner() == press;
    let word = if is_right { "right" } else { "wrong" };
    println!("a word without stamp: the exchange {}, and the word is {word}", told(is_done));
}

/// One caller looks at cell 0 and at cell 1 below it. The other takes both, and puts cell 0 back.
/// Then the first one exchanges, and takes a second cell.
fn stack_step_by_step(counts: bool) {
    let stack = Stack::new(counts);
    let (head, below) = stack.look().expect("three cells are free");
    let (first, second) = (stack.take(false).expect("three are free"), stack.take(false).expect("two are free"));
    stack.put_back(first);
    let is_done = stack.attempt(head, below);
    let next = stack.take(false);
    let fault = if next == Some(second) { ", and cell 1 is in two hands" } else { "" };
    println!("{}: the exchange {}{fault}", name(counts), told(is_done));
}

/// How often a thread took a cell that the other one had, and how many cells are left at the end. One
/// thread is slow; the other one takes cells and puts them back meanwhile, for a second.
fn by_threads(counts: bool) -> (u64, usize) {
    let (stack, both, over) = (Stack::new(counts), Barrier::new(2), AtomicBool::new(false));
    let used = [0, 1, 2].map(|_| AtomicBool::new(false));
    let round = |slow: bool| {
        let mut taken: Vec<u64> = (0..CELLS).filter_map(|it| stack.take(slow && it == 0)).collect();
        let twice = taken.iter().filter(|&&cell| used[cell as usize].swap(true, SeqCst)).count() as u64;
        // the first cell comes back last, so it is uppermost again
        if !taken.is_empty() {
            taken.rotate_left(1);
        }
        for cell in taken {
            used[cell as usize].store(false, SeqCst);
            stack.put_back(cell);
        }
        twice
    };
    let twice = thread::scope(|scope| {
        let fast = scope.spawn(|| {
            both.wait();
            let mut twice = 0;
            while !over.load(SeqCst) {
                twice += round(false);
            }
            twice
        });
        both.wait();
        let (mut twice, begun) = (0, Instant::now());
        while begun.elapsed() < Duration::from_secs(1) {
            twice += round(true);
            thread::yield_now();
        }
        over.store(true, SeqCst);
        twice + fast.join().expect("no thread panics")
    });
    (twice, (0..CELLS).map_while(|_| stack.take(false)).count())
}

fn told(is_done: bool) -> &'static str {
    if is_done { "is done" } else { "is lost" }
}

fn name(counts: bool) -> &'static str {
    if counts { "a stack with a count" } else { "a stack" }
}

fn main() {
    word_step_by_step();
    for counts in [false, true] {
        stack_step_by_step(counts);
    }
    for counts in [false, true] {
        let (twice, left) = by_threads(counts);
        let note = if counts || twice > 0 || left < CELLS { "" } else { ": run again on an idle machine" };
        println!("{}, by threads: {twice} times a cell in two hands, {left} of 3 left{note}", name(counts));
    }
}
