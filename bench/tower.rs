//! A tall tower. Its world has 16 layers; one window holds 64, sky and void with them, and another just the 16, a quarter of the cells. Bodies stand
//! on the tower, fall beside it, and are above and below the world. Every answer over the one window is compared with that over the other, ours and
//! the original Rust's, bit for bit. What the large window holds beyond the world is anything: nobody reads it.
use std::hint::black_box;
use std::time::Instant;

mod palette;
#[allow(dead_code)]
mod standins;
use palette::{CUBE, Call, FENCE, ICE, LAVA, SLAB, STAIR, Step, WALL, WATER, bodies, boltjuniper_step, boltjuniper_step_checked, tables};
#[allow(unused_imports)]
use standins::{entity, world};
use standins::{BlockRegistry, DVec3, IVec3, LiquidKind, Window, registry_of, step_body_sensed};

const SIZE: i32 = 16;
const LOW: i32 = -8;
/// The world's lowest and highest cell.
const WORLD: (i32, i32) = (0, 15);
/// Where each window begins, and its layers.
const TALL: (i32, i32) = (-24, 64);
const QUARTER: (i32, i32) = (0, 16);
const TICKS: usize = 8;
const PASSES: usize = 100;

#[inline(never)]
fn ours(f: Step, records: &[u32], shapes: &[f32], (low, layers): (i32, i32), c: &Call, out: &mut [f64; 10]) -> u32 {
    let n = SIZE as u32;
    unsafe {
        f(
            records.as_ptr(), records.len(), shapes.as_ptr(), shapes.len(), c.cells.as_ptr(), c.cells.len(), LOW, low, LOW, n, layers as u32, n,
            WORLD.0, WORLD.1, c.numbers.as_ptr(), 19, c.words.as_ptr(), 7, c.age, out.as_mut_ptr(), out.len(),
        )
    }
}

fn rusts(registry: &BlockRegistry, (low, layers): (i32, i32), c: &Call) -> [f64; 8] {
    let w = Window::new(registry, c.cells, IVec3::new(LOW, low, LOW), IVec3::new(SIZE, layers, SIZE), WORLD);
    let (mut v, mut ground) = (c.velocity, c.ground);
    let (p, liquid) = step_body_sensed(&w, &c.body, c.feet, &mut v, &mut ground, c.age);
    let liquid = match liquid {
        None => 0.0,
        Some(LiquidKind::Water) => 1.0,
        Some(LiquidKind::Lava) => 2.0,
    };
    [p.x, p.y, p.z, v.x, v.y, v.z, f64::from(u8::from(ground)), liquid]
}

/// The cells of the world's layers: a tower of six columns a side up to the highest cell, around it a ground with holes, and blocks and a liquid.
fn layers(next: &mut impl FnMut(u64) -> u32) -> Vec<u32> {
    let liquid = if next(4) == 0 { LAVA } else { WATER };
    let mut cells = Vec::new();
    for y in WORLD.0..=WORLD.1 {
        for z in LOW..LOW + SIZE {
            for x in LOW..LOW + SIZE {
                let tower = (-3..3).contains(&x) && (-3..3).contains(&z);
                cells.push(match next(6) {
                    _ if tower && y < WORLD.1 => CUBE,
                    k if tower => [CUBE, SLAB, STAIR, ICE, FENCE, WALL][k as usize],
                    0 | 1 if y == WORLD.0 => 0,
                    _ if y == WORLD.0 => CUBE,
                    0 => [CUBE, SLAB, STAIR, FENCE, FENCE, WALL][next(6) as usize],
                    1 | 2 => liquid + next(16),
                    _ => 0,
                });
            }
        }
    }
    cells
}

fn main() {
    let (records, shapes) = tables();
    let registry = registry_of(&records, &shapes);
    let mut seed = 0x9e37_79b9_7f4a_7c15u64;
    let mut next = move |n: u64| {
        seed ^= seed << 13;
        seed ^= seed >> 7;
        seed ^= seed << 17;
        (seed % n) as u32
    };
    // 64 worlds, of each its two windows; one column in 16 is not loaded
    let windows: Vec<(Vec<u32>, Vec<u32>)> = (0..64)
        .map(|_| {
            let cells = layers(&mut next);
            let columns: Vec<u32> = (0..SIZE * SIZE).map(|_| u32::from(next(16) != 0)).collect();
            let mut beyond = |layers: i32| -> Vec<u32> { (0..layers * SIZE * SIZE).map(|_| if next(4) == 0 { u32::MAX } else { next(90) }).collect() };
            let (void, sky) = (beyond(WORLD.0 - TALL.0), beyond(TALL.0 + TALL.1 - 1 - WORLD.1));
            ([&void, &cells, &sky, &columns].map(|part| part.as_slice()).concat(), [cells, columns].concat())
        })
        .collect();
    let (mut calls, mut bodies_seen, mut above, mut below) = (Vec::new(), 0, 0, 0);
    for (tall, quarter) in &windows {
        for n in 0..16 {
            let mut part = |n: u64| f64::from(next(1000 * n)) / 1000.0;
            let y = match n / 4 {
                0 => 16.0,                  // on the tower's top
                1 => 14.0 + part(16),       // about the highest cell and above it
                2 => part(16),              // beside the tower
                _ => part(16) - 14.0,       // about the lowest cell and below it
            };
            let (x, z) = if n / 4 == 0 { (part(4) - 2.0, part(4) - 2.0) } else { (part(10) - 5.0, part(10) - 5.0) };
            let way = DVec3::new((part(1) - 0.5) * 0.5, part(1) - 0.7, (part(1) - 0.5) * 0.5);
            let mut c = Call::new(tall, bodies()[n % 4], DVec3::new(x, y, z), way, n / 4 == 0, n as u64);
            bodies_seen += 1;
            for _ in 0..TICKS {
                let q = Call { cells: quarter, ..c };
                let (mut a, mut b) = ([9.0; 10], [9.0; 10]);
                assert_eq!(ours(boltjuniper_step, &records, &shapes, TALL, &c, &mut a), 0);
                assert_eq!(ours(boltjuniper_step, &records, &shapes, QUARTER, &q, &mut b), 0);
                assert_eq!(a.map(f64::to_bits), b.map(f64::to_bits));
                // the Rust does not tell the case of its sample, the last two of ours
                let ours: [f64; 8] = std::array::from_fn(|k| a[k]);
                let all = [ours, rusts(&registry, TALL, &c), rusts(&registry, QUARTER, &q)].map(|out| out.map(f64::to_bits));
                assert!(all.iter().all(|out| *out == all[0]), "{:?} {:?}: {all:x?}", c.feet, c.velocity);
                above += usize::from(c.feet.y >= f64::from(WORLD.1 + 1));
                below += usize::from(c.feet.y < f64::from(WORLD.0));
                let after = Call::new(tall, c.body, DVec3::new(a[0], a[1], a[2]), DVec3::new(a[3], a[4], a[5]), a[6] == 1.0, c.age + 1);
                calls.push((std::mem::replace(&mut c, after), q));
            }
        }
    }
    println!("a tower: {} steps of {bodies_seen} bodies, {above} from above the world, {below} from below it", calls.len());
    println!("a window of {} words has the bits of one of {} in every answer, ours and the Rust's", windows[0].1.len(), windows[0].0.len());
    let mut out = [0.0; 10];
    let mut best = [f64::MAX; 4];
    for _ in 0..PASSES {
        let ways: [(Step, (i32, i32)); 4] =
            [(boltjuniper_step_checked, TALL), (boltjuniper_step_checked, QUARTER), (boltjuniper_step, TALL), (boltjuniper_step, QUARTER)];
        for (k, (f, w)) in ways.into_iter().enumerate() {
            let begun = Instant::now();
            for (c, q) in &calls {
                black_box(ours(f, &records, &shapes, w, black_box(if w == TALL { c } else { q }), &mut out));
            }
            best[k] = best[k].min(begun.elapsed().as_nanos() as f64 / calls.len() as f64);
        }
    }
    let [a, b, c, d] = best;
    println!("ours over all 64 layers {a:.1} ns, over 16 {b:.1} ns; with both checks {c:.1} and {d:.1} ns");
}
