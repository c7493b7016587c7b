//! Currents over an item's box: ours (the native static library of crates/exports) against the original Rust. Both look into the same window
//! over the same tables, which were checked before; every answer is compared bit for bit first.
use std::hint::black_box;
use std::time::Instant;

#[allow(dead_code)]
mod standins;
#[allow(unused_imports)]
use standins::{entity, world};
use standins::{BlockRegistry, DVec3, IVec3, Window, current_at, registry_of};

unsafe extern "C" {
    fn boltjuniper_item_current(
        records: *const u32, records_len: usize, cells: *const u32, cells_len: usize, ox: i32, oy: i32, oz: i32, sx: u32, sy: u32, sz: u32,
        lowest: i32, highest: i32, air: u32, x: f64, y: f64, z: f64, width: f64, height: f64, out: *mut f64, out_len: usize,
    ) -> u32;
}

const SIZE: i32 = 8;
/// The world's lowest and highest cell: the window lies within.
const WORLD: (i32, i32) = (-64, 319);

struct Scene {
    cells: Vec<u32>,
    feet: [f64; 3],
}

#[inline(never)]
fn ours(records: &[u32], s: &Scene, out: &mut [f64; 4]) -> u32 {
    let [x, y, z] = s.feet;
    let n = SIZE as u32;
    unsafe {
        boltjuniper_item_current(
            records.as_ptr(), records.len(), s.cells.as_ptr(), s.cells.len(), -4, -4, -4, n, n, n, WORLD.0, WORLD.1, 0, x, y, z, 1.5, 1.5,
            out.as_mut_ptr(), 4,
        )
    }
}

#[inline(never)]
fn rusts(registry: &BlockRegistry, s: &Scene, out: &mut [f64; 4]) -> u32 {
    let w = Window::new(registry, &s.cells, IVec3::new(-4, -4, -4), IVec3::new(SIZE, SIZE, SIZE), WORLD);
    let (v, water) = current_at(&w, DVec3::new(s.feet[0], s.feet[1], s.feet[2]), 1.5, 1.5);
    *out = [v.x, v.y, v.z, f64::from(u8::from(water))];
    0
}

/// One pass over the scenes, if it was quicker than those before.
fn pass(best: &mut f64, scenes: &[Scene], mut f: impl FnMut(&Scene) -> u32) {
    let begun = Instant::now();
    for s in scenes {
        black_box(f(black_box(s)));
    }
    *best = best.min(begun.elapsed().as_nanos() as f64 / scenes.len() as f64);
}

fn main() {
    // States: 0 air, 1 a cube, 2 to 17 water of depth 0 to 15, 18 to 33 lava likewise.
    let mut records = Vec::new();
    for state in 0..34u32 {
        let mut r = [0u32; 20];
        r[0] = if state == 1 { 3 } else { 1 };
        if state == 1 {
            (r[8], r[19]) = (1, 15);
        }
        if state > 1 {
            (r[2], r[3]) = (1 + (state - 2) / 16, (state - 2) % 16);
        }
        records.extend(r);
    }
    let registry = registry_of(&records, &[0.0, 0.0, 0.0, 1.0, 1.0, 1.0]);
    let mut seed = 0x9e37_79b9_7f4a_7c15u64;
    let mut next = move |n: u64| {
        seed ^= seed << 13;
        seed ^= seed >> 7;
        seed ^= seed << 17;
        (seed % n) as u32
    };
    // The box reaches 2 by 2 by 2 cells, all of water. Around them, and in the depths, lie: a still lake; a stream, its depths rising to the
    // east; depths at random; depths at random among walls, air and lava, one cell in two of them falling.
    for what in ["a lake", "a stream", "depths at random", "falling, among walls"] {
        let scenes: Vec<Scene> = (0..200)
            .map(|_| {
                let mut cells = vec![0u32; (SIZE * SIZE * SIZE) as usize];
                for (at, c) in cells.iter_mut().enumerate() {
                    let at = at as i32;
                    let (x, z, y) = (at % SIZE, at / SIZE % SIZE, at / SIZE / SIZE);
                    let within = (3..5).contains(&x) && (3..5).contains(&z) && (4..6).contains(&y);
                    *c = match what {
                        "a lake" => 2,
                        "a stream" => 2 + x as u32,
                        "depths at random" => 2 + next(8),
                        _ if within => 2 + next(16),
                        _ => match next(4) {
                            0 => 1,
                            1 => 0,
                            2 => 2 + next(16),
                            _ => 18 + next(16),
                        },
                    };
                }
                cells.resize((SIZE * SIZE * (SIZE + 1)) as usize, 1); // every column is loaded
                let part = |n: u32| f64::from(n) / 1000.0;
                Scene { cells, feet: [-0.2 + part(next(400)), 0.1 + part(next(300)), -0.2 + part(next(400))] }
            })
            .collect();
        for s in &scenes {
            let (mut a, mut b) = ([9.0; 4], [9.0; 4]);
            assert_eq!(ours(&records, s, &mut a), 0);
            rusts(&registry, s, &mut b);
            assert_eq!(a.map(f64::to_bits), b.map(f64::to_bits));
        }
        let mut out = [0.0; 4];
        let (mut a, mut b) = (f64::MAX, f64::MAX);
        for _ in 0..1000 {
            pass(&mut a, &scenes, |s| ours(&records, s, &mut out));
            pass(&mut b, &scenes, |s| rusts(&registry, s, &mut out));
        }
        println!("8 cells of water, {what:22} ours {a:7.1} ns   Rust {b:7.1} ns   ratio {:.2}", a / b);
    }
}
