//! The lines of `check --why`: each summand of the penalty, asked pair by pair and place by place.

use crate::model::{Instance, Place};
use std::cmp::Reverse;
use std::io::Write;

/// What two periods cost for a student who has exams in both, in one part of the penalty.
type Cost = fn(&Instance, usize, usize) -> u32;

const KINDS: [(&str, Cost); 4] = [("row", row), ("day", day), ("spread", spread), ("night", night)];

fn days_apart(instance: &Instance, p: usize, q: usize) -> u32 {
    instance.periods[p].date.abs_diff(instance.periods[q].date)
}

fn row(instance: &Instance, p: usize, q: usize) -> u32 {
    let counts = days_apart(instance, p, q) == 0 && p.abs_diff(q) == 1;
    if counts { instance.weights.row } else { 0 }
}

fn day(instance: &Instance, p: usize, q: usize) -> u32 {
    let counts = days_apart(instance, p, q) == 0 && p.abs_diff(q) > 1;
    if counts { instance.weights.day } else { 0 }
}

fn spread(instance: &Instance, p: usize, q: usize) -> u32 {
    u32::from(p != q && p.abs_diff(q) <= instance.weights.spread as usize)
}

fn night(instance: &Instance, p: usize, q: usize) -> u32 {
    let counts = days_apart(instance, p, q) == 1 && p.abs_diff(q) == 1;
    if counts { instance.weights.night } else { 0 }
}

fn shared(instance: &Instance, a: usize, b: usize) -> usize {
    let students = instance.students.get(b);
    instance.students.get(a).iter().filter(|student| students.contains(student)).count()
}

fn pairs(out: &mut Vec<u8>, instance: &Instance, places: &[Place]) -> std::io::Result<()> {
    for (name, cost) in KINDS {
        for other in 0..places.len() {
            for exam in 0..other {
                let (p, q) = (places[exam].period as usize, places[other].period as usize);
                let students = shared(instance, exam, other);
                let points = students as u64 * u64::from(cost(instance, p, q));
                if points > 0 {
                    writeln!(out, "{name} {exam} {other} {students} {points}")?;
                }
            }
        }
    }
    Ok(())
}

fn mixed(out: &mut Vec<u8>, instance: &Instance, places: &[Place]) -> std::io::Result<()> {
    for room in 0..instance.rooms.len() as u32 {
        for period in 0..instance.periods.len() as u32 {
            let here = (0..places.len()).filter(|&exam| places[exam] == Place { period, room });
            let mut minutes: Vec<u32> = here.map(|exam| instance.minutes[exam]).collect();
            minutes.sort_unstable();
            minutes.dedup();
            let further = minutes.len().saturating_sub(1) as u64;
            let points = further * u64::from(instance.weights.mixed);
            if points > 0 {
                writeln!(out, "mixed {room} {period} {} {points}", minutes.len())?;
            }
        }
    }
    Ok(())
}

fn front(out: &mut Vec<u8>, instance: &Instance, places: &[Place]) -> std::io::Result<()> {
    let weights = &instance.weights;
    let mut largest: Vec<usize> = (0..places.len()).collect();
    largest.sort_by_key(|&exam| (Reverse(instance.size(exam)), exam));
    largest.truncate(weights.front_exams as usize);
    largest.sort_unstable();
    for exam in largest {
        let late = places[exam].period + weights.front_periods >= instance.periods.len() as u32;
        if late && weights.front > 0 {
            writeln!(out, "front {exam} {} {}", instance.size(exam), weights.front)?;
        }
    }
    Ok(())
}

fn penalties(
    out: &mut Vec<u8>,
    name: &str,
    penalties: impl Iterator<Item = u32>,
    numbers: &[u32],
) -> std::io::Result<()> {
    for (number, penalty) in penalties.enumerate() {
        let exams = numbers.iter().filter(|&&other| other as usize == number).count();
        let points = exams as u64 * u64::from(penalty);
        if points > 0 {
            writeln!(out, "{name} {number} {exams} {points}")?;
        }
    }
    Ok(())
}

pub fn write_why(
    out: &mut Vec<u8>,
    instance: &Instance,
    places: &[Place],
) -> std::io::Result<()> {
    pairs(out, instance, places)?;
    mixed(out, instance, places)?;
    front(out, instance, places)?;
    let (periods, rooms): (Vec<u32>, Vec<u32>) =
        places.iter().map(|place| (place.period, place.room)).unzip();
    penalties(out, "period", instance.periods.iter().map(|period| period.penalty), &periods)?;
    penalties(out, "room", instance.rooms.iter().map(|room| room.penalty), &rooms)
}
