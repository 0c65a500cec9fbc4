//! The lines of `compare`: what differs between two timetables of one instance.

use crate::judge::{Breach, Parts, judge};
use crate::model::{Instance, Place};
use std::collections::BTreeSet;
use std::io::Write;

type Part = fn(&Parts) -> u64;

const PARTS: [(&str, Part); 9] = [
    ("two in a row", |parts| parts.row),
    ("two in a day", |parts| parts.day),
    ("period spread", |parts| parts.spread),
    ("over night", |parts| parts.night),
    ("mixed durations", |parts| parts.mixed),
    ("front load", |parts| parts.front),
    ("period penalty", |parts| parts.period),
    ("room penalty", |parts| parts.room),
    ("total", Parts::total),
];

fn write_breaches(
    out: &mut Vec<u8>,
    name: &str,
    breaches: &[Breach],
    others: &[Breach],
) -> std::io::Result<()> {
    let only: Vec<&Breach> = breaches.iter().filter(|breach| !others.contains(breach)).collect();
    writeln!(out, "{name} breaches {}", only.len())?;
    for breach in only {
        writeln!(out, "{} {} {}", breach.rule.name(), breach.exam, breach.other)?;
    }
    Ok(())
}

pub fn write_comparison(
    out: &mut Vec<u8>,
    instance: &Instance,
    [before, after]: [&[Place]; 2],
) -> std::io::Result<()> {
    let key = |place: &Place| (place.period, place.room);
    let moved: Vec<usize> =
        (0..before.len()).filter(|&exam| key(&before[exam]) != key(&after[exam])).collect();
    writeln!(out, "moved {}", moved.len())?;
    for &exam in &moved {
        let (from, to) = (&before[exam], &after[exam]);
        writeln!(out, "{exam} {} {} {} {}", from.period, from.room, to.period, to.room)?;
    }
    let candidates: BTreeSet<u32> =
        moved.iter().flat_map(|&exam| instance.students.get(exam).iter().copied()).collect();
    writeln!(out, "candidates {}", candidates.len())?;
    let ((old_breaches, old), (new_breaches, new)) =
        (judge(instance, before), judge(instance, after));
    for (name, part) in PARTS {
        writeln!(out, "{name} {} {}", part(&old), part(&new))?;
    }
    write_breaches(out, "gained", &new_breaches, &old_breaches)?;
    write_breaches(out, "lost", &old_breaches, &new_breaches)
}
