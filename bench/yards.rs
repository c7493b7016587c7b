//! Where the bodies of bench/step.rs and bench/midnight.rs walk, fall, swim and float: windows of 16 cells a side, and each body tick after tick.
use crate::palette::{CUBE, Call, FENCE, ICE, LAVA, SLAB, STAIR, Step, WALL, WATER, bodies};
use crate::standins::{BlockRegistry, DVec3, IVec3, LiquidKind, Window, step_body_sensed};

pub const SIZE: i32 = 16;
pub const LOW: i32 = -8;
/// The world's lowest and highest cell: the windows lie within.
pub const WORLD: (i32, i32) = (-64, 319);
pub const KINDS: [&str; 4] = ["walking", "falling", "swimming", "floating"];

/// Numbers below n, the same in every run.
pub fn numbers() -> impl FnMut(u64) -> u32 {
    let mut seed = 0x9e37_79b9_7f4a_7c15u64;
    move |n: u64| {
        seed ^= seed << 13;
        seed ^= seed >> 7;
        seed ^= seed << 17;
        (seed % n) as u32
    }
}

/// A window for bodies of a kind. Ground up to y = 0, cubes, slabs, stairs and ice; on it, one cell in five a block, a fence or a wall; where there is a
/// liquid it fills three layers above the ground, its depths at random. Every column is loaded.
pub fn window(kind: usize, next: &mut impl FnMut(u64) -> u32) -> Vec<u32> {
    let liquid = if next(4) == 0 { LAVA } else { WATER };
    let mut cells = vec![0u32; (SIZE * SIZE * SIZE) as usize];
    for (at, c) in cells.iter_mut().enumerate() {
        let y = at as i32 / SIZE / SIZE + LOW;
        *c = match y {
            ..0 => CUBE,
            0 => [CUBE, CUBE, CUBE, SLAB, STAIR, ICE][next(6) as usize],
            1..4 if next(5) == 0 => [CUBE, SLAB, STAIR, FENCE, FENCE, WALL][next(6) as usize],
            1..4 if kind > 1 => liquid + if next(8) == 0 { next(16) } else { next(4) },
            _ => 0,
        };
    }
    cells.resize((SIZE * SIZE * (SIZE + 1)) as usize, 1);
    cells
}

/// The first step of a body of a kind.
pub fn first<'a>(cells: &'a [u32], kind: usize, next: &mut impl FnMut(u64) -> u32) -> Call<'a> {
    let [item, block, arrow, living] = bodies();
    let part = |n: u32| f64::from(n) / 1000.0;
    let (body, height, speed) = match kind {
        0 => (living, 1.0, 0.2),
        1 => ([block, item, arrow, living][next(4) as usize], 4.0 + part(next(1000)), 0.3),
        2 => (living, 1.5 + part(next(1000)), 0.1),
        _ => (item, 1.2 + part(next(1500)), 0.1),
    };
    let way = |n: u32| (part(n) - 1.0) * speed;
    Call::new(
        cells, body, DVec3::new(part(next(1000)), height, part(next(1000))),
        DVec3::new(way(next(2000)), if kind == 0 { -0.0784 } else { -part(next(500)) }, way(next(2000))), kind == 0, u64::from(next(100)),
    )
}

/// What a step writes: eight numbers that the Rust has too, then the case of its sample, which the Rust does not tell, and the sampled number.
pub type Told = [f64; 10];

/// The bits of what both have.
pub fn bits(told: &Told) -> [u64; 8] {
    std::array::from_fn(|k| told[k].to_bits())
}

/// The step after this one, which came to these numbers. A walking body is pushed on, so that it does not come to rest.
pub fn after<'a>(c: &Call<'a>, kind: usize, b: &Told) -> Call<'a> {
    let v = if kind == 0 { DVec3::new(c.velocity.x, b[4], c.velocity.z) } else { DVec3::new(b[3], b[4], b[5]) };
    Call::new(c.cells, c.body, DVec3::new(b[0], b[1], b[2]), v, b[6] == 1.0, c.age + 1)
}

#[inline(never)]
pub fn ours(f: Step, records: &[u32], shapes: &[f32], c: &Call, out: &mut Told) -> u32 {
    let n = SIZE as u32;
    unsafe {
        f(
            records.as_ptr(), records.len(), shapes.as_ptr(), shapes.len(), c.cells.as_ptr(), c.cells.len(), LOW, LOW, LOW, n, n, n,
            WORLD.0, WORLD.1, c.numbers.as_ptr(), 19, c.words.as_ptr(), 7, c.age, out.as_mut_ptr(), out.len(),
        )
    }
}

#[inline(never)]
pub fn rusts(registry: &BlockRegistry, c: &Call, out: &mut Told) -> u32 {
    let w = Window::new(registry, c.cells, IVec3::new(LOW, LOW, LOW), IVec3::new(SIZE, SIZE, SIZE), WORLD);
    let (mut v, mut ground) = (c.velocity, c.ground);
    let (p, liquid) = step_body_sensed(&w, &c.body, c.feet, &mut v, &mut ground, c.age);
    let liquid = match liquid {
        None => 0.0,
        Some(LiquidKind::Water) => 1.0,
        Some(LiquidKind::Lava) => 2.0,
    };
    out[..8].copy_from_slice(&[p.x, p.y, p.z, v.x, v.y, v.z, f64::from(u8::from(ground)), liquid]);
    0
}
