//! The step: ours (the native static library of crates/exports) against the original Rust. Both look into the same window over the same tables;
//! every answer is compared bit for bit first. Ours is timed over tables that were checked before, and with the table check.
use std::hint::black_box;
use std::time::Instant;

mod palette;
#[allow(dead_code)]
mod standins;
mod yards;
use palette::{Call, boltjuniper_step, boltjuniper_step_checked, tables};
use standins::registry_of;
#[allow(unused_imports)]
use standins::{entity, world};
use yards::{KINDS, after, bits, first, numbers, ours, rusts, window};

const TICKS: usize = 8;
const PASSES: usize = 200;

/// One pass over the calls, if it was quicker than those before.
fn pass(best: &mut f64, calls: &[Call], mut f: impl FnMut(&Call) -> u32) {
    let begun = Instant::now();
    for c in calls {
        black_box(f(black_box(c)));
    }
    *best = best.min(begun.elapsed().as_nanos() as f64 / calls.len() as f64);
}

fn main() {
    let (records, shapes) = tables();
    let registry = registry_of(&records, &shapes);
    let mut next = numbers();
    // 64 windows of each kind
    let windows: Vec<(usize, Vec<u32>)> = (0..256).map(|n| (n % 4, window(n % 4, &mut next))).collect();
    let mut calls: Vec<Vec<Call>> = vec![vec![], vec![], vec![], vec![]];
    let mut scenes = 0;
    for (kind, cells) in &windows {
        let mut c = first(cells, *kind, &mut next);
        scenes += 1;
        for _ in 0..TICKS {
            let (mut a, mut b, mut e) = ([9.0; 10], [9.0; 10], [9.0; 10]);
            assert_eq!(ours(boltjuniper_step_checked, &records, &shapes, &c, &mut a), 0);
            assert_eq!(ours(boltjuniper_step, &records, &shapes, &c, &mut e), 0);
            rusts(&registry, &c, &mut b);
            assert_eq!(bits(&a), bits(&b));
            assert_eq!(bits(&e), bits(&b));
            let following = after(&c, *kind, &b);
            calls[*kind].push(std::mem::replace(&mut c, following));
        }
    }
    let mut out = [0.0; 10];
    let mut report = |what: &str, calls: &[Call]| {
        let (mut a, mut b, mut e) = (f64::MAX, f64::MAX, f64::MAX);
        for n in 0..PASSES {
            pass(&mut a, calls, |c| ours(boltjuniper_step_checked, &records, &shapes, c, &mut out));
            pass(&mut b, calls, |c| rusts(&registry, c, &mut out));
            if n % 10 == 0 {
                pass(&mut e, calls, |c| ours(boltjuniper_step, &records, &shapes, c, &mut out));
            }
        }
        println!("{what:9} ours {a:7.1} ns   Rust {b:7.1} ns   ratio {:.2}   with the table check {e:8.1} ns", a / b);
    };
    for (kind, what) in KINDS.iter().enumerate() {
        report(what, &calls[kind]);
    }
    // all of them, one kind after the other from call to call
    let mut each: Vec<_> = calls.into_iter().map(Vec::into_iter).collect();
    let mut mix = Vec::new();
    while let Some(c) = each[mix.len() % 4].next() {
        mix.push(c);
    }
    println!("the mix: {} steps of {scenes} scenes, {PASSES} passes, {} steps; a table of {} states", mix.len(), PASSES * mix.len(), records.len() / 20);
    report("all", &mix);
}
