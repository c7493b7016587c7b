//! A minute: one call of `boltjuniper_minute` (crates/minutes) against the same ticks and sets made one by one over the same words: `boltjuniper_step_checked`
//! for a tick, and for a set `boltjuniper_set_at` of crates/timed, which looks at nothing else, or `boltjuniper_set_block`, which looks at every cell
//! first. The feet of every tick, the motion and the words at the end are compared bit for bit before anything is timed. One by one no fall record
//! is kept, and tables and window are taken as checked, with the summary built; the minute keeps the one and does the others.
use std::hint::black_box;
use std::time::Instant;

#[allow(dead_code)]
mod palette;
#[allow(dead_code)]
mod standins;
#[allow(dead_code)]
mod yards;
use palette::{CUBE, Call, FENCE, SLAB, WATER, boltjuniper_step_checked, tables};
#[allow(unused_imports)]
use standins::{entity, world};
use yards::{KINDS, LOW, SIZE, WORLD, first, numbers, window};

unsafe extern "C" {
    fn boltjuniper_minute(
        records: *const u32, records_len: usize, shapes: *const f32, shapes_len: usize, cells: *mut u32, cells_len: usize, ox: i32, oy: i32, oz: i32,
        sx: u32, sy: u32, sz: u32, lowest: i32, highest: i32, numbers: *const f64, numbers_len: usize, words: *const u32, words_len: usize, age: u64,
        log: *const u8, log_len: usize, feet: *mut f64, feet_len: usize, out: *mut f64, out_len: usize,
    ) -> u32;
    fn boltjuniper_set_at(
        records: *const u32, records_len: usize, cells: *mut u32, cells_len: usize, ox: i32, oy: i32, oz: i32, sx: u32, sy: u32, sz: u32, lowest: i32,
        highest: i32, air: u32, x: u32, y: u32, z: u32, state: u32,
    ) -> u32;
    fn boltjuniper_set_block(
        records: *const u32, records_len: usize, shapes: *const f32, shapes_len: usize, cells: *mut u32, cells_len: usize, ox: i32, oy: i32, oz: i32,
        sx: u32, sy: u32, sz: u32, lowest: i32, highest: i32, air: u32, x: i32, y: i32, z: i32, state: u32,
    ) -> u32;
    fn boltjuniper_build_summary(
        records: *const u32, records_len: usize, shapes: *const f32, shapes_len: usize, cells: *mut u32, cells_len: usize, ox: i32, oy: i32, oz: i32,
        sx: u32, sy: u32, sz: u32, lowest: i32, highest: i32, air: u32,
    ) -> u32;
    fn boltjuniper_write_scene(
        records: *const u32, records_len: usize, shapes: *const f32, shapes_len: usize, cells: *const u32, cells_len: usize, ox: i32, oy: i32, oz: i32,
        sx: u32, sy: u32, sz: u32, lowest: i32, highest: i32, numbers: *const f64, numbers_len: usize, words: *const u32, words_len: usize, age: u64,
        out: *mut u8, out_len: usize,
    ) -> u64;
    fn boltjuniper_write_log(events: *const u32, events_len: usize, out: *mut u8, out_len: usize) -> u64;
}

const TICKS: usize = 1200;
const SETS: usize = 600;
const RUNS: usize = 12;
const PASSES: usize = 100;
const N: u32 = SIZE as u32;
const GROUPS: usize = 64;

struct Run {
    cells: Vec<u32>,
    summed: Vec<u32>,
    numbers: [f64; 19],
    words: [u32; 7],
    age: u64,
    events: Vec<u32>,
    log: Vec<u8>,
}

/// What a run leaves: the feet of each tick, the motion (seven numbers), and the words.
#[derive(Clone, PartialEq)]
struct Left {
    feet: Vec<u64>,
    motion: Vec<u64>,
    words: Vec<u32>,
}

struct Tables {
    records: Vec<u32>,
    shapes: Vec<f32>,
}

#[inline(never)]
fn minute(t: &Tables, r: &Run, words: &mut [u32], feet: &mut [f64], out: &mut [f64; 12]) -> u32 {
    unsafe {
        boltjuniper_minute(
            t.records.as_ptr(), t.records.len(), t.shapes.as_ptr(), t.shapes.len(), words.as_mut_ptr(), words.len(), LOW, LOW, LOW, N, N, N, WORLD.0,
            WORLD.1, r.numbers.as_ptr(), 19, r.words.as_ptr(), 7, r.age, r.log.as_ptr(), r.log.len(), feet.as_mut_ptr(), feet.len(), out.as_mut_ptr(), 12,
        )
    }
}

#[inline(never)]
fn set_at(t: &Tables, words: &mut [u32], position: u32, state: u32) -> u32 {
    let (x, y, z) = (position & 255, position >> 8 & 255, position >> 16);
    unsafe {
        boltjuniper_set_at(
            t.records.as_ptr(), t.records.len(), words.as_mut_ptr(), words.len(), LOW, LOW, LOW, N, N, N, WORLD.0, WORLD.1, 0, x, y, z, state,
        )
    }
}

#[inline(never)]
fn set_block(t: &Tables, words: &mut [u32], position: u32, state: u32) -> u32 {
    let at = |shift: u32| LOW + (position >> shift & 255) as i32;
    unsafe {
        boltjuniper_set_block(
            t.records.as_ptr(), t.records.len(), t.shapes.as_ptr(), t.shapes.len(), words.as_mut_ptr(), words.len(), LOW, LOW, LOW, N, N, N, WORLD.0,
            WORLD.1, 0, at(0), at(8), at(16), state,
        )
    }
}

#[inline(never)]
fn step(t: &Tables, words: &[u32], numbers: &[f64; 19], body: &[u32; 7], age: u64, out: &mut [f64; 10]) -> u32 {
    unsafe {
        boltjuniper_step_checked(
            t.records.as_ptr(), t.records.len(), t.shapes.as_ptr(), t.shapes.len(), words.as_ptr(), words.len(), LOW, LOW, LOW, N, N, N, WORLD.0,
            WORLD.1, numbers.as_ptr(), 19, body.as_ptr(), 7, age, out.as_mut_ptr(), 10,
        )
    }
}

/// The events one by one; the first refusal ends it.
fn one_by_one(t: &Tables, r: &Run, words: &mut [u32], feet: &mut [f64], motion: &mut [f64; 7], set: impl Fn(&Tables, &mut [u32], u32, u32) -> u32) -> u32 {
    let (mut numbers, mut body, mut age, mut n) = (r.numbers, r.words, r.age, 0);
    let mut out = [0.0; 10];
    for e in r.events.chunks_exact(4) {
        if e[0] == 2 {
            let refusal = set(t, words, e[1], e[2]);
            if refusal != 0 {
                return refusal;
            }
            continue;
        }
        let refusal = step(t, words, &numbers, &body, age, &mut out);
        if refusal != 0 {
            return refusal;
        }
        numbers[..6].copy_from_slice(&out[..6]);
        body[0] = out[6] as u32;
        age = age.wrapping_add(1);
        feet[n..n + 3].copy_from_slice(&out[..3]);
        n += 3;
    }
    motion.copy_from_slice(&out[..7]);
    0
}

fn bits(x: &[f64]) -> Vec<u64> {
    x.iter().map(|x| x.to_bits()).collect()
}

/// Two ticks, then a set: near the body's start, or anywhere; a block, water or air.
fn events(next: &mut impl FnMut(u64) -> u32) -> Vec<u32> {
    let mut all = Vec::new();
    for k in 0..TICKS {
        all.extend([1, 0, 0, 0]);
        if k % (TICKS / SETS) == 1 {
            let near = next(2) == 0;
            let [x, y, z] = std::array::from_fn(|_| if near { 6 + next(5) } else { next(N.into()) });
            let state = [0, 0, CUBE, SLAB, FENCE, WATER][next(6) as usize];
            all.extend([2, x | y << 8 | z << 16, state, 0]);
        }
    }
    all
}

fn run_of(t: &Tables, kind: usize, next: &mut impl FnMut(u64) -> u32) -> Run {
    let cells = window(kind, next);
    let Call { numbers, words, age, .. } = first(&cells, kind, next);
    let events = events(next);
    let mut log = vec![0; 65536];
    let bytes = unsafe {
        let scene = boltjuniper_write_scene(
            t.records.as_ptr(), t.records.len(), t.shapes.as_ptr(), t.shapes.len(), cells.as_ptr(), cells.len(), LOW, LOW, LOW, N, N, N, WORLD.0, WORLD.1,
            numbers.as_ptr(), 19, words.as_ptr(), 7, age, log.as_mut_ptr(), log.len(),
        );
        assert!(scene >= 512);
        boltjuniper_write_log(events.as_ptr(), events.len(), log.as_mut_ptr(), log.len())
    };
    assert!(bytes >= 512, "refused {bytes}");
    log.truncate(bytes as usize);
    let mut roomy = cells.clone();
    roomy.resize(cells.len() + GROUPS, 7);
    let mut summed = roomy.clone();
    let refusal = unsafe {
        boltjuniper_build_summary(
            t.records.as_ptr(), t.records.len(), t.shapes.as_ptr(), t.shapes.len(), summed.as_mut_ptr(), summed.len(), LOW, LOW, LOW, N, N, N, WORLD.0,
            WORLD.1, 0,
        )
    };
    assert_eq!(refusal, 0);
    Run { cells: roomy, summed, numbers, words, age, events, log }
}

/// What the one call leaves and what the calls one by one leave; none where the body leaves the window.
fn compared(t: &Tables, r: &Run) -> Option<Left> {
    let (mut feet, mut out) = (vec![0.0; 3 * TICKS], [0.0; 12]);
    let mut words = r.cells.clone();
    let refusal = minute(t, r, &mut words, &mut feet, &mut out);
    let whole = Left { feet: bits(&feet), motion: bits(&out[..7]), words };
    if refusal == 0 {
        assert_eq!((out[9], out[10] + out[11] * 4294967296.0), (TICKS as f64, (r.age + TICKS as u64) as f64));
    }
    for set in [set_at, set_block] {
        let (mut feet, mut motion) = (vec![0.0; 3 * TICKS], [0.0; 7]);
        let mut words = r.summed.clone();
        assert_eq!(one_by_one(t, r, &mut words, &mut feet, &mut motion, set), refusal);
        if refusal == 0 {
            assert!(whole == Left { feet: bits(&feet), motion: bits(&motion), words });
        }
    }
    (refusal == 0).then_some(whole)
}

fn main() {
    let (records, shapes) = tables();
    let t = Tables { records, shapes };
    let mut next = numbers();
    for (kind, what) in KINDS.iter().enumerate() {
        let mut runs = Vec::new();
        let mut left = 0;
        while runs.len() < RUNS {
            let r = run_of(&t, kind, &mut next);
            match compared(&t, &r) {
                Some(_) => runs.push(r),
                None => left += 1,
            }
        }
        let mut feet = vec![0.0; 3 * TICKS];
        let (mut out, mut motion) = ([0.0; 12], [0.0; 7]);
        let mut best = vec![[f64::MAX; 3]; RUNS];
        let mut words = vec![0; runs[0].cells.len()];
        for n in 0..PASSES {
            for (r, best) in runs.iter().zip(&mut best) {
                for (k, best) in best.iter_mut().enumerate() {
                    if k == 2 && n % 10 != 0 {
                        continue;
                    }
                    words.copy_from_slice(if k == 0 { &r.cells } else { &r.summed });
                    let begun = Instant::now();
                    black_box(match k {
                        0 => minute(&t, r, &mut words, &mut feet, &mut out),
                        1 => one_by_one(&t, r, &mut words, &mut feet, &mut motion, set_at),
                        _ => one_by_one(&t, r, &mut words, &mut feet, &mut motion, set_block),
                    });
                    *best = best.min(begun.elapsed().as_nanos() as f64 / 1000.0);
                }
            }
        }
        let sum = |k: usize| best.iter().map(|b| b[k]).sum::<f64>() / RUNS as f64;
        println!(
            "{what:9} one call {:7.1} µs   one by one {:7.1} µs   ratio {:.2}   with set_block {:8.1} µs   {RUNS} minutes of {TICKS} ticks and {SETS} sets, {left} left out",
            sum(0), sum(1), sum(0) / sum(1), sum(2)
        );
    }
}
