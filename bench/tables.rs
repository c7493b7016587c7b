//! The table check, at the sizes that a host lends: 212 states and 4,096 states of one cube each, 4,096 states of four boxes each (all 16,384),
//! and 4,096 states of 16 boxes each. The original has no such check, so there is nothing to compare with; the cost for one state is printed beside it.
use std::hint::black_box;
use std::time::Instant;

unsafe extern "C" {
    fn boltjuniper_check_tables(records: *const u32, records_len: usize, shapes: *const f32, shapes_len: usize) -> u32;
}

fn check(records: &[u32], shapes: &[f32]) -> u32 {
    unsafe { boltjuniper_check_tables(records.as_ptr(), records.len(), shapes.as_ptr(), shapes.len()) }
}

/// States of so many boxes each, from the first of the shapes on and round again, all with the same faces.
fn records(states: u32, boxes: u32, of: u32, faces: u32) -> Vec<u32> {
    let mut words = Vec::new();
    for s in 0..states {
        let first = s * boxes % of;
        words.extend([3, 0x3f19_999a, 0, 0, 0, 0, 0, first, boxes, 0, 0, 0, 0, 0, 0, 0, 0, 0, 0, faces]);
    }
    words
}

/// The cube, cut into so many slabs: each covers a part of all four faces, and together they cover them.
fn slabs(n: u32, times: u32) -> Vec<f32> {
    let one = (0..n).flat_map(|k| [0.0, k as f32 / n as f32, 0.0, 1.0, (k + 1) as f32 / n as f32, 1.0]);
    one.cycle().take((6 * n * times) as usize).collect()
}

/// Posts, four by four: no two of a row touch, and no face is covered.
fn posts() -> Vec<f32> {
    let at = |k: u32| k as f32 / 4.0;
    (0..16).flat_map(|k| [at(k % 4), 0.0, at(k / 4), at(k % 4) + 0.125, 1.0, at(k / 4) + 0.125]).collect()
}

/// The least of many passes: other work on the machine can only add to one.
fn time(what: &str, records: &[u32], shapes: &[f32], passes: u32) {
    assert_eq!(check(records, shapes), 0, "{what}");
    let mut best = f64::MAX;
    for _ in 0..passes {
        let begun = Instant::now();
        black_box(check(black_box(records), black_box(shapes)));
        best = best.min(begun.elapsed().as_nanos() as f64);
    }
    let states = records.len() / 20;
    println!("{what:<52} {:9.1} us   {:8.1} ns a state", best / 1000.0, best / states as f64);
}

fn main() {
    let mut broken = records(4096, 1, 4096, 15);
    *broken.last_mut().unwrap() = 14;
    assert_eq!(check(&broken, &slabs(1, 4096)), 1);
    time("212 states, a cube each", &records(212, 1, 212, 15), &slabs(1, 212), 5000);
    time("4096 states, a cube each", &records(4096, 1, 4096, 15), &slabs(1, 4096), 1000);
    time("4096 states, four slabs each, 16384 boxes", &records(4096, 4, 16384, 15), &slabs(4, 4096), 300);
    time("4096 states, 16 posts each, 16 boxes", &records(4096, 16, 16, 0), &posts(), 300);
    time("4096 states, 16 slabs each, 16384 boxes", &records(4096, 16, 16384, 15), &slabs(16, 1024), 20);
}
