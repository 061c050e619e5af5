//! Configurations in hand-written plain Rust, unproved, with the faults of those that are refused.

use crate::interlock::{LAST_STAMP, State};
use crate::machines::Gauge;
use crate::toml::{Table, Value, read};

pub struct Config {
    pub start: State,
    pub schedule: String,
    pub gauges: [Gauge; 5],
}

/// The sections, in the order of the gauges, with the end of each axis.
const SECTIONS: [(&str, i32); 5] = [("arm1", 1000), ("arm2", 1000), ("rotation", 2000), ("turn", 500), ("gripper", 1000)];

/// The configuration, or the word of its first fault.
pub fn read_config(bytes: &[u8]) -> Result<Config, &'static str> {
    if bytes.len() > 2_097_152 {
        return Err("long");
    }
    let table = read(bytes).ok_or("text")?;
    if !table.entries.iter().all(|(key, value)| is_known(key, value)) {
        return Err("unknown");
    }
    let places = text_of(table.get("start").ok_or("missing")?)?;
    if places.len() != 10 || !places.bytes().all(|digit| digit == b'0' || digit == b'1') {
        return Err("start");
    }
    let stamp = number_in(&table, "stamp", 0, i64::from(LAST_STAMP), 0)?;
    let start = State::start(places, stamp as u32).ok_or("start")?;
    let schedule = match table.get("schedule") {
        Some(value) => schedule_of(text_of(value)?)?,
        None => String::new(),
    };
    let mut gauges = SECTIONS.map(|(_, end)| Gauge { raw_lo: 0, raw_hi: 4000, tol: 5, end, pairs: [(0, 0); 32], filled: 0 });
    for (gauge, (name, _)) in gauges.iter_mut().zip(SECTIONS) {
        if let Some(value) = table.get(name) {
            calibrate(gauge, value)?;
        }
    }
    Ok(Config { start, schedule, gauges })
}

fn is_known(key: &str, value: &Value) -> bool {
    if SECTIONS.iter().any(|(name, _)| *name == key) {
        return match value {
            Value::Table(section) => section.entries.keys().all(|key| key == "raw" || key == "tol" || key == "points"),
            _ => true,
        };
    }
    ["start", "stamp", "schedule"].contains(&key)
}

fn text_of(value: &Value) -> Result<&str, &'static str> {
    match value {
        Value::Text(text) => Ok(text),
        _ => Err("kind"),
    }
}

fn number_in(table: &Table, key: &str, least: i64, most: i64, absent: i64) -> Result<i64, &'static str> {
    match table.get(key) {
        None => Ok(absent),
        Some(Value::Whole(number)) if (least..=most).contains(number) => Ok(*number),
        Some(Value::Whole(_)) => Err("range"),
        Some(_) => Err("kind"),
    }
}

fn schedule_of(text: &str) -> Result<String, &'static str> {
    if text.chars().count() > 1_000_000 {
        return Err("range");
    }
    let is_lawful = text.bytes().all(|letter| b"ftrpdcwFTRPDCW".contains(&letter));
    is_lawful.then(|| text.to_string()).ok_or("letter")
}

fn calibrate(gauge: &mut Gauge, value: &Value) -> Result<(), &'static str> {
    let Value::Table(section) = value else {
        return Err("kind");
    };
    if let Some(raw) = section.get("raw") {
        let Value::Array(items) = raw else {
            return Err("kind");
        };
        let [Value::Whole(lo), Value::Whole(hi)] = items[..] else {
            return Err("kind");
        };
        let [lo, hi] = [lo, hi].map(|it| u16::try_from(it).map(i32::from));
        (gauge.raw_lo, gauge.raw_hi) = (lo.map_err(|_| "range")?, hi.map_err(|_| "range")?);
        if gauge.raw_hi - gauge.raw_lo < gauge.end {
            return Err("range");
        }
    }
    gauge.tol = number_in(section, "tol", 1, 10, 5)? as i32;
    if let Some(points) = section.get("points") {
        let pairs = pairs_of(points).ok_or("kind")?;
        if !gauge.is_curve(&pairs) {
            return Err("range");
        }
        gauge.pairs[..pairs.len()].copy_from_slice(&pairs);
        gauge.filled = pairs.len();
    }
    Ok(())
}

fn pairs_of(points: &Value) -> Option<Vec<(i64, i64)>> {
    let Value::Array(items) = points else {
        return None;
    };
    let pair_of = |item: &Value| match item {
        Value::Array(pair) => match pair[..] {
            // (no number so great is near a line, and products of these fit)
            [Value::Whole(raw), Value::Whole(at)] => Some((raw.clamp(-1, 1 << 20), at.clamp(-1, 1 << 20))),
            _ => None,
        },
        _ => None,
    };
    items.iter().map(pair_of).collect()
}
