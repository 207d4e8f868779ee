//! Crossing an arc, with and without breaks, and the meet of two sets.
use crate::spans::{Run, Spans};
use std::mem;
use std::time::Instant;

const ARCS: u32 = 64;
const TIMES: u32 = 5;
const HORIZON: i64 = 1 << 36;
const FAR: i64 = 1 << 42;

const RUNS: [Run; 4] = [
    Run { lo: 0, hi: 8 },
    Run { lo: 10, hi: 18 },
    Run { lo: 20, hi: 28 },
    Run { lo: 30, hi: 38 },
];

#[derive(Clone, Copy)]
struct Hop {
    transit: i64,
    slack: i64,
    visit: i64,
}

#[derive(Clone, Copy)]
struct BreakRow {
    from: i64,
    to: i64,
    duration: i64,
}

// What an arc with breaks inside asks of the cumuls at its two ends.
struct Passage {
    least: i64,
    greatest: i64,
    until: i64,
    from: i64,
}

impl Passage {
    fn of(hop: Hop, rows: &[BreakRow]) -> Option<Passage> {
        let (mut total, mut latest, mut first_end) = (0, FAR, -FAR);
        for row in rows.iter().rev() {
            latest = row.to.min(latest - row.duration);
            if row.from > latest {
                return None;
            }
            first_end = first_end.max(row.from + row.duration + total);
            total += row.duration;
        }
        let least = total + hop.visit.max(hop.transit);
        let greatest = hop.transit + hop.slack;
        if least > greatest || hop.visit > latest || first_end > HORIZON {
            return None;
        }
        Some(Passage { least, greatest, until: HORIZON.min(latest - hop.visit), from: first_end.max(0) })
    }
}

// Sets that are written over while an arc with breaks is crossed.
struct Room {
    left: Spans,
    right: Spans,
    image: Spans,
    whole: Spans,
}

impl Room {
    fn new() -> Room {
        Room { left: Spans::new(), right: Spans::new(), image: Spans::new(), whole: Spans::new() }
    }

    fn add_arrivals(&mut self, from: &Spans, hop: Hop, rows: &[BreakRow], next: &Spans, set: &mut Spans) {
        let Some(passage) = Passage::of(hop, rows) else {
            return;
        };
        self.left.clip(from.as_slice(), Run { lo: 0, hi: passage.until });
        self.right.clip(next.as_slice(), Run { lo: passage.from, hi: HORIZON });
        self.image.reach(self.left.as_slice(), passage.least, passage.greatest, self.right.as_slice());
        self.whole.join(set.as_slice(), self.image.as_slice());
        mem::swap(set, &mut self.whole);
    }
}

#[inline]
fn cross(from: &[Spans], hop: Hop, next: &Spans, rows: &[BreakRow], out: &mut [Spans]) {
    if !rows.is_empty() {
        return cross_over(from, hop, next, rows, out);
    }
    out[0].reach(from[0].as_slice(), hop.transit, hop.transit + hop.slack, next.as_slice());
}

#[inline(never)]
fn cross_over(from: &[Spans], hop: Hop, next: &Spans, rows: &[BreakRow], out: &mut [Spans]) {
    let mut room = Room::new();
    for b in 0..=rows.len() {
        let set = &mut out[b];
        set.reach(from[b].as_slice(), hop.transit, hop.transit + hop.slack, next.as_slice());
        for a in (0..b).rev() {
            room.add_arrivals(&from[a], hop, &rows[a..b], next, set);
        }
    }
}

#[inline(never)]
fn cross_all(next: &Spans, hop: Hop, rows: &[BreakRow], a: &mut [Spans], b: &mut [Spans]) {
    for _ in 0..ARCS / 2 {
        cross(a, hop, next, rows, b);
        cross(b, hop, next, rows, a);
    }
}

fn report(name: &str, nanos: u128, rounds: u32, sum: i64) {
    let tenths = nanos * 10 / (u128::from(rounds) * u128::from(ARCS)).max(1);
    println!("{name}: {}.{} ns (sum {sum})", tenths / 10, tenths % 10);
}

fn time_cross(name: &str, runs: &[Run], slack: i64, rows: &[BreakRow], rounds: u32) {
    let next = Spans::of(runs);
    let mut a: Vec<Spans> = (0..=rows.len()).map(|_| Spans::of(runs)).collect();
    let mut b: Vec<Spans> = (0..=rows.len()).map(|_| Spans::new()).collect();
    let mut sum = 0_i64;
    let start = Instant::now();
    for round in 0..rounds {
        let hop = Hop { transit: 0, slack: slack + i64::from(round % 2), visit: 0 };
        cross_all(&next, hop, rows, &mut a, &mut b);
        sum = sum.wrapping_add(a[0].as_slice().last().map_or(0, |run| run.hi));
    }
    report(name, start.elapsed().as_nanos(), rounds, sum);
}

#[inline(never)]
fn meet_all(next: &Spans, a: &mut Spans, b: &mut Spans) {
    for _ in 0..ARCS / 2 {
        b.reach(a.as_slice(), 0, 0, next.as_slice());
        a.reach(b.as_slice(), 0, 0, next.as_slice());
    }
}

fn time_meet(name: &str, runs: &[Run], rounds: u32) {
    let next = Spans::of(runs);
    let mut a = Spans::of(runs);
    let mut b = Spans::new();
    let mut sum = 0_i64;
    let start = Instant::now();
    for _ in 0..rounds {
        meet_all(&next, &mut a, &mut b);
        sum = sum.wrapping_add(a.as_slice().last().map_or(0, |run| run.hi));
    }
    report(name, start.elapsed().as_nanos(), rounds, sum);
}

pub fn time_crossings(rounds: u32) {
    let row = BreakRow { from: 0, to: 1000, duration: 10 };
    for _ in 0..TIMES {
        time_cross("cross, 1 run", &RUNS[..1], 0, &[], rounds);
        time_cross("cross, 2 runs", &RUNS[..2], 0, &[], rounds);
        time_cross("cross, 4 runs", &RUNS, 0, &[], rounds);
        time_cross("cross, two breaks", &[Run { lo: 0, hi: 1000 }], 99, &[row, row], rounds);
    }
}

pub fn time_meets(rounds: u32) {
    for _ in 0..TIMES {
        time_meet("meet, 1 run", &RUNS[..1], rounds);
        time_meet("meet, 2 runs", &RUNS[..2], rounds);
        time_meet("meet, 4 runs", &RUNS, rounds);
    }
}
