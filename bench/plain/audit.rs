//! The audit of journals in hand-written plain Rust, unproved.

use crate::interlock::{Answer, Call, Machine, State};

/// A settled call, with the stamp that came with its answer.
#[derive(Clone, Copy)]
pub struct Entry {
    pub call: Call,
    pub answer: Answer,
    pub stamp: u32,
}

/// Checks that the journals are those of one history from the start to the end. The error has the
/// words of the fault.
pub fn audit(journals: &[(Machine, &[Entry])], start: &State, end: &State) -> Result<(), String> {
    audit_by(journals, start, end, |_, _| ())
}

/// Checks the journals, and gives each entry of the history to `keep`.
pub fn audit_by(
    journals: &[(Machine, &[Entry])],
    start: &State,
    end: &State,
    mut keep: impl FnMut(Machine, &Entry),
) -> Result<(), String> {
    let mut order = Vec::with_capacity(journals.iter().map(|(_, journal)| journal.len()).sum());
    for (number, (_, journal)) in journals.iter().enumerate() {
        for (index, entry) in journal.iter().enumerate() {
            order.push((entry.stamp, entry.answer != Answer::Done, number as u8, index as u32));
        }
    }
    order.sort();
    let done = || order.iter().filter(|(_, is_read, _, _)| !is_read).map(|(stamp, ..)| *stamp);
    if let Some((stamp, _)) = done().zip(done().skip(1)).find(|(one, next)| one == next) {
        return Err(format!("twice {stamp}"));
    }
    let top = order.last().map_or(end.stamp, |(stamp, ..)| (*stamp).max(end.stamp));
    let mut later = done().skip_while(|stamp| *stamp <= start.stamp);
    if let Some(stamp) = (start.stamp + 1..=top).find(|stamp| later.next() != Some(*stamp)) {
        return Err(format!("gap {stamp}"));
    }
    let mut state = *start;
    let mut seen = vec![0; journals.len()];
    for (stamp, _, number, index) in order {
        let (machine, journal) = journals[usize::from(number)];
        let entry = journal[index as usize];
        let is_next = seen[usize::from(number)] == index;
        seen[usize::from(number)] += 1;
        if !is_next || state.apply(machine, entry.call) != entry.answer || state.stamp != stamp {
            return Err(format!("differs {stamp}"));
        }
        keep(machine, &entry);
    }
    if state == *end { Ok(()) } else { Err("end".to_string()) }
}
