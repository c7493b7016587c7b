//! What a summary saves: the move through a window as a step makes it (`boltjuniper_way` of crates/timed), over the words of cells and columns alone and
//! over the same with a summary behind them, which `boltjuniper_build_summary` of crates/exports built. Every answer is compared bit for bit first, and
//! passes with and without alternate.
use std::hint::black_box;
use std::time::Instant;

unsafe extern "C" {
    fn boltjuniper_way(
        records: *const u32, records_len: usize, shapes: *const f32, shapes_len: usize, cells: *const u32, cells_len: usize,
        ox: i32, oy: i32, oz: i32, sx: u32, sy: u32, sz: u32, lowest: i32, highest: i32, air: u32,
        x0: f64, y0: f64, z0: f64, x1: f64, y1: f64, z1: f64, dx: f64, dy: f64, dz: f64, step: f64, ground: u32, k: u32,
    ) -> f64;
    fn boltjuniper_build_summary(
        records: *const u32, records_len: usize, shapes: *const f32, shapes_len: usize, cells: *mut u32, cells_len: usize,
        ox: i32, oy: i32, oz: i32, sx: u32, sy: u32, sz: u32, lowest: i32, highest: i32, air: u32,
    ) -> u32;
}

const LOWEST: i32 = -64;
const HIGHEST: i32 = 319;

/// State 0 is air, state 1 a cube.
const SHAPES: [f32; 6] = [0.0, 0.0, 0.0, 1.0, 1.0, 1.0];
fn records() -> [u32; 40] {
    let mut r = [0; 40];
    (r[0], r[20], r[28]) = (3, 3, 1);
    r[39] = 15;
    r
}

struct Scene {
    sizes: [u32; 3],
    /// Cells and columns; and the same with the summary.
    plain: Vec<u32>,
    summed: Vec<u32>,
    mover: [f64; 6],
    delta: [f64; 3],
}

fn scene(records: &[u32], sizes: [u32; 3], is_full: impl Fn(u32, u32, u32) -> bool, mover: [f64; 6], delta: [f64; 3]) -> Scene {
    let [sx, sy, sz] = sizes;
    let cells = (0..sy).flat_map(|y| (0..sz).flat_map(move |z| (0..sx).map(move |x| (x, y, z))));
    let mut plain: Vec<u32> = cells.map(|(x, y, z)| is_full(x, y, z) as u32).collect();
    plain.extend(std::iter::repeat_n(1, (sx * sz) as usize));
    let mut summed = plain.clone();
    let groups: u32 = sizes.iter().map(|s| s.div_ceil(4)).product();
    summed.extend(std::iter::repeat_n(7, groups as usize));
    let refusal = unsafe {
        boltjuniper_build_summary(
            records.as_ptr(), records.len(), SHAPES.as_ptr(), 6, summed.as_mut_ptr(), summed.len(), 0, 0, 0, sx, sy, sz, LOWEST, HIGHEST, 0,
        )
    };
    assert_eq!(refusal, 0);
    Scene { sizes, plain, summed, mover, delta }
}

#[inline(never)]
fn way(records: &[u32], s: &Scene, words: &[u32], k: u32) -> f64 {
    let ([sx, sy, sz], a, d) = (s.sizes, s.mover, s.delta);
    unsafe {
        boltjuniper_way(
            records.as_ptr(), records.len(), SHAPES.as_ptr(), 6, words.as_ptr(), words.len(), 0, 0, 0, sx, sy, sz, LOWEST, HIGHEST, 0,
            a[0], a[1], a[2], a[3], a[4], a[5], d[0], d[1], d[2], 0.0, 0, k,
        )
    }
}

fn main() {
    let records = records();
    let body = |y: f64| [3.2, y, 3.2, 3.8, y + 1.8, 3.8];
    let fall = [0.3, -36.0, 0.2];
    let all = [
        // through layers 2 to 41 onto the ground, 5 of the 40 full: 7 in 8 are empty
        ("a fall through 40 layers, 35 empty", scene(&records, [8, 44, 8], |_, y, _| y < 7, body(39.5), fall)),
        // the same down a shaft, so that no box is collected: the time is that of collection alone
        ("the same down a shaft", scene(&records, [8, 44, 8], |x, y, z| y < 7 && !((3..5).contains(&x) && (3..5).contains(&z)), body(39.5), fall)),
        ("the same of a body 2 wide", scene(&records, [8, 44, 8], |_, y, _| y < 7, [3.2, 39.5, 3.2, 5.2, 41.3, 5.2], fall)),
        // the same where each eighth layer is full, so that every second group is marked 1; and where no layer is empty
        ("a fall past floors, 1 layer in 8 full", scene(&records, [8, 44, 8], |_, y, _| y % 8 == 0, body(39.5), fall)),
        ("a fall through 40 full layers", scene(&records, [8, 44, 8], |_, _, _| true, body(39.5), fall)),
        // steps: where no group is empty, where the ground's are full, and where the body is in empty ones
        ("a step of a body over a full window", scene(&records, [8, 8, 8], |_, _, _| true, body(5.0), [0.2, -0.08, 0.1])),
        ("a step of a body on the ground", scene(&records, [8, 8, 8], |_, y, _| y < 4, body(4.0), [0.2, -0.08, 0.1])),
        ("a step of a body in the air", scene(&records, [8, 12, 8], |_, y, _| y < 4, body(6.5), [0.2, -0.3, 0.1])),
    ];
    for (what, s) in &all {
        for k in 0..3 {
            assert_eq!(way(&records, s, &s.plain, k).to_bits(), way(&records, s, &s.summed, k).to_bits(), "{what}");
        }
        assert!(way(&records, s, &s.plain, 0) != 0.0, "refused: {what}");
        let mut best = [f64::MAX; 2];
        for _ in 0..400 {
            for (k, words) in [&s.plain, &s.summed].into_iter().enumerate() {
                let begun = Instant::now();
                for _ in 0..200 {
                    black_box(way(black_box(&records), black_box(s), black_box(words), 1));
                }
                best[k] = best[k].min(begun.elapsed().as_nanos() as f64 / 200.0);
            }
        }
        let [without, with] = best;
        println!("{what:40} without {without:7.1} ns   with {with:7.1} ns   {:.2} of it", with / without);
    }
}
