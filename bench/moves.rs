//! One move over a list of boxes: ours (the native static library of crates/exports) against the original Rust, whose text bench/original takes
//! out of its files when the bench is built. The same inputs, in one run; every answer is compared bit for bit first.
//!
//! Ours is handed six numbers to a box and reads them where they lie. The Rust is called in two ways: with its list as it stands in memory
//! (`given`), and filling its `Vec` from the same numbers, box by box, as `move_aabb` has its boxes collected (`filled`).
use std::hint::black_box;
use std::time::Instant;

unsafe extern "C" {
    fn boltjuniper_move_over(
        boxes: *const f64,
        boxes_len: usize,
        mover: *const f64,
        mover_len: usize,
        step: f64,
        ground: u32,
        out: *mut f64,
        out_len: usize,
    ) -> u32;
}

/// The original, over stand-ins for glam's vector and for the source of its boxes.
#[allow(dead_code)]
mod original {
    use std::ops::{Add, Sub};

    #[derive(Debug, Clone, Copy, PartialEq)]
    pub struct DVec3 {
        pub x: f64,
        pub y: f64,
        pub z: f64,
    }
    impl DVec3 {
        pub const ZERO: Self = Self::new(0.0, 0.0, 0.0);
        pub const fn new(x: f64, y: f64, z: f64) -> Self {
            Self { x, y, z }
        }
        pub fn min(self, o: Self) -> Self {
            Self::new(self.x.min(o.x), self.y.min(o.y), self.z.min(o.z))
        }
        pub fn max(self, o: Self) -> Self {
            Self::new(self.x.max(o.x), self.y.max(o.y), self.z.max(o.z))
        }
    }
    impl Add for DVec3 {
        type Output = Self;
        fn add(self, o: Self) -> Self {
            Self::new(self.x + o.x, self.y + o.y, self.z + o.z)
        }
    }
    impl Sub for DVec3 {
        type Output = Self;
        fn sub(self, o: Self) -> Self {
            Self::new(self.x - o.x, self.y - o.y, self.z - o.z)
        }
    }

    pub fn vec_at(n: &[f64]) -> DVec3 {
        DVec3::new(n[0], n[1], n[2])
    }
    pub fn aabb_at(n: &[f64]) -> Aabb {
        Aabb::new(vec_at(&n[..3]), vec_at(&n[3..6]))
    }

    pub trait BlockSource {
        fn numbers(&self) -> &[f64];
    }
    pub struct Numbers<'a>(pub &'a [f64]);
    impl BlockSource for Numbers<'_> {
        fn numbers(&self) -> &[f64] {
            self.0
        }
    }
    pub fn collect_block_boxes(blocks: &impl BlockSource, _area: Aabb, out: &mut Vec<Aabb>) {
        for six in blocks.numbers().chunks_exact(6) {
            out.push(aabb_at(six));
        }
    }

    include!("../target/bench/original.rs");
}
use original::{aabb_at, move_aabb, move_over, vec_at, Aabb, MoveResult, Numbers};

fn write(m: MoveResult, out: &mut [f64]) {
    let (a, b, v) = (m.aabb.min, m.aabb.max, m.moved);
    out.copy_from_slice(&[a.x, a.y, a.z, b.x, b.y, b.z, v.x, v.y, v.z, m.on_ground as u32 as f64]);
}

#[inline(never)]
fn ours(s: &Scene, step: f64, ground: u32, out: &mut [f64]) -> u32 {
    unsafe {
        boltjuniper_move_over(s.numbers.as_ptr(), s.numbers.len(), s.mover.as_ptr(), s.mover.len(), step, ground, out.as_mut_ptr(), out.len())
    }
}
#[inline(never)]
fn given(s: &Scene, step: f64, ground: u32, out: &mut [f64]) -> u32 {
    write(move_over(&s.boxes, aabb_at(&s.mover), vec_at(&s.mover[6..]), step, ground != 0), out);
    0
}
#[inline(never)]
fn filled(s: &Scene, step: f64, ground: u32, out: &mut [f64]) -> u32 {
    write(move_aabb(&Numbers(&s.numbers), aabb_at(&s.mover), vec_at(&s.mover[6..]), step, ground != 0), out);
    0
}

struct Random(u64);
impl Random {
    fn next(&mut self) -> u64 {
        self.0 ^= self.0 << 13;
        self.0 ^= self.0 >> 7;
        self.0 ^= self.0 << 17;
        self.0
    }
    fn unit(&mut self) -> f64 {
        (self.next() >> 11) as f64 / (1u64 << 53) as f64
    }
    fn below(&mut self, n: u64) -> u64 {
        self.next() % n
    }
}

struct Scene {
    numbers: Vec<f64>,
    boxes: Vec<Aabb>,
    mover: Vec<f64>,
}

/// A body that walks in +x on a floor into a wall or a ledge; the other boxes are cubes around it. The order of the boxes is any.
fn scene(random: &mut Random, count: usize) -> Scene {
    let (x, y, z) = (random.unit() * 200.0 - 100.0, (random.below(100) as f64) - 50.0, random.unit() * 200.0 - 100.0);
    let mover = vec![x - 0.3, y, z - 0.3, x + 0.3, y + 1.8, z + 0.3, 0.25 + 0.1 * random.unit(), -0.0784, (random.unit() - 0.5) * 0.2];
    let mut boxes = Vec::new();
    let wall = x + 0.3 + 0.2 * random.unit();
    let top = if random.below(2) == 0 { y + 0.5 } else { y + 1.0 };
    boxes.push([wall, y, z - 1.0, wall + 1.0, top, z + 1.0]);
    boxes.push([x - 1.0, y - 1.0, z - 1.0, x + 2.0, y, z + 1.0]);
    while boxes.len() < count {
        let at = |r: &mut Random| r.below(7) as f64 - 3.0;
        let (i, j, k) = (x.floor() + at(random), y + at(random), z.floor() + at(random));
        boxes.push([i, j, k, i + 1.0, j + 1.0, k + 1.0]);
    }
    for i in (1..boxes.len()).rev() {
        boxes.swap(i, random.below(i as u64 + 1) as usize);
    }
    Scene { numbers: boxes.concat(), boxes: boxes.iter().map(|b| aabb_at(b)).collect(), mover }
}

/// Whether the Rust tries a step-up: its rule, on its own first attempt.
fn tries(s: &Scene, step: f64, ground: u32) -> bool {
    let d = vec_at(&s.mover[6..]);
    let first = move_over(&s.boxes, aabb_at(&s.mover), d, 0.0, false).moved;
    step > 0.0 && (ground != 0 || first.y != d.y) && (first.x != d.x || first.z != d.z)
}

type Call = fn(&Scene, f64, u32, &mut [f64]) -> u32;

/// Nanoseconds for one move of each kind: the least of many passes over all scenes, since other work on the machine can only add to a pass. The
/// kinds take turns, so that what slows the machine for long slows them alike.
fn time(scenes: &[Scene], step: f64, ground: u32, calls: [Call; 3]) -> [f64; 3] {
    let mut best = [f64::MAX; 3];
    let mut out = [0.0; 10];
    for _ in 0..100_000 / scenes.len() + 400 {
        for (k, call) in calls.iter().enumerate() {
            let begun = Instant::now();
            for s in scenes {
                black_box(call(black_box(s), step, ground, black_box(&mut out)));
            }
            best[k] = best[k].min(begun.elapsed().as_nanos() as f64 / scenes.len() as f64);
        }
    }
    best
}

fn main() {
    let mut random = Random(0x9e37_79b9_7f4a_7c15);
    let mut compared = 0u64;
    let mut kept = 0u64;
    for count in (0..=128).chain([15; 3000]).chain([128; 1000]) {
        let s = scene(&mut random, count.max(2));
        for (step, ground) in [(0.0, 0), (0.0, 1), (0.5625, 0), (0.5625, 1)] {
            let (mut a, mut b, mut c) = ([7.0; 10], [7.0; 10], [7.0; 10]);
            assert_eq!(ours(&s, step, ground, &mut a), 0);
            given(&s, step, ground, &mut b);
            filled(&s, step, ground, &mut c);
            assert_eq!(a.map(f64::to_bits), b.map(f64::to_bits), "{count} boxes, mover {:?}", s.mover);
            assert_eq!(a.map(f64::to_bits), c.map(f64::to_bits), "{count} boxes, mover {:?}", s.mover);
            compared += 1;
            kept += (a[7] > 0.0) as u64;
        }
    }
    println!("{compared} moves, {kept} of them up a step: every answer has the Rust's bits");
    // 64 scenes of 15 boxes are few enough for the processor to learn which way every branch goes; 1,024 are not, and no two ticks are alike.
    for (count, scenes) in [(15, 1024), (15, 64), (128, 128), (128, 64)] {
        let scenes: Vec<Scene> = std::iter::repeat_with(|| scene(&mut random, count)).filter(|s| tries(s, 0.5625, 1)).take(scenes).collect();
        println!("\n{count} boxes, {} scenes:", scenes.len());
        let mut passes = [[0.0; 3]; 2];
        for (k, (what, step)) in [("no step tried, 3 passes", 0.0), ("a step tried, 7 passes", 0.5625)].iter().enumerate() {
            let [o, g, f] = time(&scenes, *step, 1, [ours, given, filled]);
            println!("{what:<24} ours {o:7.1} ns   Rust, list given {g:7.1} ns, ratio {:4.2}   Rust, list filled {f:7.1} ns, ratio {:4.2}", o / g, o / f);
            passes[k] = [o, g, f];
        }
        let bare: Vec<Scene> = scenes.iter().map(|s| Scene { numbers: Vec::new(), boxes: Vec::new(), mover: s.mover.clone() }).collect();
        let [o, g, f] = time(&bare, 0.0, 1, [ours, given, filled]);
        println!("{:<24} ours {o:7.1} ns   Rust, list given {g:7.1} ns               Rust, list filled {f:7.1} ns", "no box, 3 passes");
        let [o, g, _] = [0, 1, 2].map(|k| (passes[1][k] - passes[0][k]) / 4.0);
        println!("{:<24} ours {o:7.1} ns   Rust             {g:7.1} ns, ratio {:4.2}", "one pass more", o / g);
    }
}
