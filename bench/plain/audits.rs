//! Times audits of journals of random calls in hand-written plain Rust, unproved, for comparison with
//! `proved/audit`, which reads and writes the same.

mod audit;
#[allow(dead_code, reason = "each program uses a part of it")]
mod interlock;

use audit::{Entry, audit, audit_by};
use interlock::{Answer, Call, Machine, Pose, State, Zone};
use std::io::Read;
use std::time::Instant;

/// Random numbers from a seed.
struct Numbers(u32);

impl Numbers {
    fn below(&mut self, end: u32) -> usize {
        self.0 = self.0.wrapping_mul(1_664_525).wrapping_add(1_013_904_223);
        ((self.0 >> 8) % end) as usize
    }

    fn zone(&mut self) -> Zone {
        Zone::ALL[self.below(6)]
    }

    fn call(&mut self) -> Call {
        match self.below(8) {
            0 => Call::Claim(self.zone()),
            1 => Call::Give(self.zone()),
            2 => Call::Yield(self.zone()),
            3 => Call::Take(self.zone()),
            4 => Call::Release(self.zone()),
            5 => Call::SetPose(Pose::WORDS[self.below(12)].1),
            6 => Call::Advance,
            _ => Call::Inquire(self.zone()),
        }
    }
}

/// The journals after a number of calls from a start, and the state after these.
fn run(start: &State, calls: u32) -> ([Vec<Entry>; 7], State) {
    let mut numbers = Numbers(1995);
    let mut journals: [Vec<Entry>; 7] = Default::default();
    let mut state = *start;
    for _ in 0..calls {
        let number = numbers.below(6);
        let call = numbers.call();
        let answer = state.apply(Machine::ALL[number], call);
        journals[number].push(Entry { call, answer, stamp: state.stamp });
    }
    (journals, state)
}

/// The events of the history that the journals are of, in their order.
fn events(
    journals: &[(Machine, &[Entry])],
    start: &State,
    end: &State,
) -> Result<Vec<(Machine, Call, Answer)>, String> {
    let mut events = Vec::with_capacity(journals.iter().map(|(_, journal)| journal.len()).sum());
    audit_by(journals, start, end, |machine, entry| events.push((machine, entry.call, entry.answer)))?;
    Ok(events)
}

fn main() -> std::io::Result<()> {
    let mut digits = [0; 2];
    std::io::stdin().read_exact(&mut digits)?;
    let (calls, audits) = match digits[0] {
        b'3' => (1_000, 1_000),
        b'4' => (10_000, 100),
        b'5' => (100_000, 10),
        _ => (1_000_000, 1),
    };
    let audits = if digits[1] == b'0' { 0 } else { audits };
    let Some(start) = State::start("1101001110", 0) else {
        println!("no start");
        return Ok(());
    };
    let (journals, end) = run(&start, calls);
    let journals: Vec<_> = Machine::ALL.into_iter().zip(journals.iter().map(|journal| &journal[..])).collect();
    let begun = Instant::now();
    let mut count = 0;
    for _ in 0..audits {
        count = if digits[1] == b'1' {
            events(&journals, &start, &end).map_or(0, |events| events.len())
        } else {
            audit(&journals, &start, &end).map_or(0, |()| calls as usize)
        };
    }
    println!("{} {count} {}", begun.elapsed().as_nanos(), end.stamp);
    Ok(())
}
