//! The midnight run: 4,096 bodies over 16 windows in one call, against as many calls of the entry, of the step over tables that were checked before, and
//! the original Rust's loop over the same bodies; in one thread, in two by the host, and as two parties with half of the bodies each. Every answer
//! is compared bit for bit first.
use std::hint::black_box;
use std::time::Instant;

mod palette;
#[allow(dead_code)]
mod standins;
mod yards;
use palette::{Call, boltjuniper_step, boltjuniper_step_checked, tables};
use standins::registry_of;
#[allow(unused_imports)]
use standins::{entity, world};
use yards::{KINDS, LOW, SIZE, Told, WORLD, after, bits, first, numbers, ours, rusts, window};

unsafe extern "C" {
    fn boltjuniper_midnight_capped(
        records: *const u32, records_len: usize, shapes: *const f32, shapes_len: usize, windows: *const u32, windows_len: usize, windows_count: u32,
        cells: *const u32, cells_len: usize, numbers: *const f64, numbers_len: usize, words: *const u32, words_len: usize, bodies_count: u32,
        out: *mut f64, out_len: usize,
    ) -> u32;
    fn boltjuniper_midnight_two(
        records: *const u32, records_len: usize, shapes: *const f32, shapes_len: usize, windows1: *const u32, windows1_len: usize, windows1_count: u32,
        cells1: *const u32, cells1_len: usize, numbers1: *const f64, numbers1_len: usize, words1: *const u32, words1_len: usize, bodies1_count: u32,
        windows2: *const u32, windows2_len: usize, windows2_count: u32, cells2: *const u32, cells2_len: usize, numbers2: *const f64, numbers2_len: usize,
        words2: *const u32, words2_len: usize, bodies2_count: u32, out: *mut f64, out_len: usize,
    ) -> u64;
}

const WINDOWS: usize = 16;
const BODIES: usize = 4096;
const TICKS: usize = 8;
const PASSES: usize = 100;

/// What a call is lent: tables, windows in rows over the words of all of them.
struct Lent {
    records: Vec<u32>,
    shapes: Vec<f32>,
    windows: Vec<u32>,
    cells: Vec<u32>,
}

#[inline(never)]
fn night(t: &Lent, numbers: &[[f64; 21]], words: &[[u32; 10]], out: &mut [[f64; 13]]) -> u32 {
    let (n, w, o) = (numbers.as_flattened(), words.as_flattened(), out.as_flattened_mut());
    unsafe {
        boltjuniper_midnight_capped(
            t.records.as_ptr(), t.records.len(), t.shapes.as_ptr(), t.shapes.len(), t.windows.as_ptr(), t.windows.len(), WINDOWS as u32,
            t.cells.as_ptr(), t.cells.len(), n.as_ptr(), n.len(), w.as_ptr(), w.len(), numbers.len() as u32, o.as_mut_ptr(), o.len(),
        )
    }
}

/// Two parties, each with all windows and half of the bodies.
#[inline(never)]
fn pair(t: &Lent, numbers: &[[f64; 21]], words: &[[u32; 10]], out: &mut [[f64; 13]]) -> u64 {
    let half = numbers.len() / 2;
    let [(n, w), (m, v)] = [0..half, half..numbers.len()].map(|part| (numbers[part.clone()].as_flattened(), words[part].as_flattened()));
    let o = out.as_flattened_mut();
    unsafe {
        boltjuniper_midnight_two(
            t.records.as_ptr(), t.records.len(), t.shapes.as_ptr(), t.shapes.len(), t.windows.as_ptr(), t.windows.len(), WINDOWS as u32,
            t.cells.as_ptr(), t.cells.len(), n.as_ptr(), n.len(), w.as_ptr(), w.len(), half as u32, t.windows.as_ptr(), t.windows.len(), WINDOWS as u32,
            t.cells.as_ptr(), t.cells.len(), m.as_ptr(), m.len(), v.as_ptr(), v.len(), half as u32, o.as_mut_ptr(), o.len(),
        )
    }
}

/// Nanoseconds of one run, if it was quicker than those before.
fn timed(best: &mut f64, mut f: impl FnMut()) {
    let begun = Instant::now();
    f();
    *best = best.min(begun.elapsed().as_nanos() as f64);
}

fn main() {
    let (records, shapes) = tables();
    let registry = registry_of(&records, &shapes);
    let mut next = numbers();
    let windows: Vec<Vec<u32>> = (0..WINDOWS).map(|n| window(n % KINDS.len(), &mut next)).collect();
    // The bodies take turns among the windows, and with them among the kinds; each is followed for some ticks.
    let mut calls: Vec<(usize, Call)> = Vec::new();
    let mut answers: Vec<Told> = Vec::new();
    for _ in 0..BODIES / WINDOWS / TICKS {
        let mut bodies: Vec<Call> = (0..WINDOWS).map(|j| first(&windows[j], j % KINDS.len(), &mut next)).collect();
        for _ in 0..TICKS {
            for (j, c) in bodies.iter_mut().enumerate() {
                let mut b = [9.0; 10];
                rusts(&registry, c, &mut b);
                let following = after(c, j % KINDS.len(), &b);
                calls.push((j, std::mem::replace(c, following)));
                answers.push(b);
            }
        }
    }
    let row = |j: usize| {
        let words = windows[j].len() as u32;
        [LOW as u32, LOW as u32, LOW as u32, SIZE as u32, SIZE as u32, SIZE as u32, WORLD.0 as u32, WORLD.1 as u32, words * j as u32, words]
    };
    let lent = Lent { records, shapes, windows: (0..WINDOWS).flat_map(row).collect(), cells: windows.concat() };
    let numbers: Vec<[f64; 21]> = calls.iter().map(|(_, c)| std::array::from_fn(|k| if k < 19 { c.numbers[k] } else { 0.0 })).collect();
    let words: Vec<[u32; 10]> = calls
        .iter()
        .map(|(j, c)| {
            let [a, b, d, e, f, g, cap] = c.words;
            [*j as u32, c.age as u32, (c.age >> 32) as u32, a, b, d, e, f, g, cap]
        })
        .collect();
    let mut out = vec![[9.0; 13]; BODIES + 1];
    assert_eq!(night(&lent, &numbers, &words, &mut out), 0);
    assert_eq!(out[BODIES], [9.0; 13]);
    let mut one = [9.0; 10];
    for ((_, c), (a, b)) in calls.iter().zip(out.iter().zip(&answers)) {
        assert_eq!((a[0], std::array::from_fn(|k| a[k + 1].to_bits())), (0.0, bits(b)));
        assert_eq!(ours(boltjuniper_step_checked, &lent.records, &lent.shapes, c, &mut one), 0);
        assert_eq!(bits(&one), bits(b));
        assert_eq!((one[8], one[9].to_bits()), (a[11], a[12].to_bits()));
    }
    let mut both = vec![[9.0; 13]; BODIES];
    assert_eq!(pair(&lent, &numbers, &words, &mut both), 0);
    assert!(both.as_flattened().iter().zip(out.as_flattened()).all(|(a, b)| a.to_bits() == b.to_bits()));
    println!("{BODIES} bodies over {WINDOWS} windows, a table of {} states; the least of {PASSES} passes", lent.records.len() / 20);

    let [mut whole, mut two, mut parties, mut checked, mut entry, mut rust] = [f64::MAX; 6];
    for n in 0..PASSES {
        timed(&mut whole, || assert_eq!(night(black_box(&lent), &numbers, &words, &mut out), 0));
        timed(&mut parties, || assert_eq!(pair(black_box(&lent), &numbers, &words, &mut both), 0));
        timed(&mut checked, || {
            for (_, c) in &calls {
                black_box(ours(boltjuniper_step_checked, &lent.records, &lent.shapes, black_box(c), &mut one));
            }
        });
        timed(&mut rust, || {
            for (_, c) in &calls {
                black_box(rusts(&registry, black_box(c), &mut one));
            }
        });
        if n % 10 == 0 {
            timed(&mut entry, || {
                for (_, c) in &calls {
                    black_box(ours(boltjuniper_step, &lent.records, &lent.shapes, black_box(c), &mut one));
                }
            });
        }
        let (half, other) = out.split_at_mut(BODIES / 2);
        timed(&mut two, || {
            std::thread::scope(|s| {
                s.spawn(|| assert_eq!(night(&lent, &numbers[BODIES / 2..], &words[BODIES / 2..], other), 0));
                assert_eq!(night(&lent, &numbers[..BODIES / 2], &words[..BODIES / 2], half), 0);
            })
        });
    }
    let body = |t: f64| t / BODIES as f64;
    println!("one call             {:8.1} ns a body", body(whole));
    println!("step_checked, each   {:8.1} ns a body   one call is {:.2} of it", body(checked), whole / checked);
    println!("the entry, each      {:8.1} ns a body   one call is {:.1} times less", body(entry), entry / whole);
    println!("Rust's loop          {:8.1} ns a body   one call is {:.2} of it", body(rust), whole / rust);
    println!("two parties          {:8.1} ns a body   {:.2} of one call", body(parties), parties / whole);
    println!("two threads          {:8.1} ns a body   one thread takes {:.2} of it", body(two), whole / two);

    // the checks apart: what a call without a body takes
    let mut checks = f64::MAX;
    for _ in 0..PASSES * 20 {
        timed(&mut checks, || assert_eq!(night(black_box(&lent), &[], &[], &mut out), 0));
    }
    println!("the checks of tables and windows: {:.1} µs a call", checks / 1000.0);
    for bodies in [64, 256, 1024, 4096] {
        // the same bodies each time, so that the mix is the same: part after part of them
        let mut best = f64::MAX;
        for _ in 0..PASSES {
            let mut all = 0.0;
            for at in (0..BODIES).step_by(bodies) {
                let mut part = f64::MAX;
                let mut call = || assert_eq!(night(black_box(&lent), &numbers[at..at + bodies], &words[at..at + bodies], &mut out), 0);
                timed(&mut part, &mut call);
                all += part - checks;
            }
            best = best.min(all);
        }
        println!("{bodies:4} bodies a call     {:8.1} ns a body, the checks apart", body(best));
    }
}
