//! Collection of block boxes, by the move that collects them: ours (`moves::move_through`, which a step calls, in the native static library of
//! crates/timed) against the original Rust's `move_aabb`, whose text bench/original takes out of its files when the bench is built. Both look
//! into the same window over the same tables, which were checked before; every answer is compared bit for bit first. No step is tried, so that a
//! move is its collection and three passes. What is handed back is the way along one axis. Passes of ours and of the Rust alternate.
use std::hint::black_box;
use std::time::Instant;

unsafe extern "C" {
    fn boltjuniper_way(
        records: *const u32, records_len: usize, shapes: *const f32, shapes_len: usize, cells: *const u32, cells_len: usize,
        ox: i32, oy: i32, oz: i32, sx: u32, sy: u32, sz: u32, lowest: i32, highest: i32, air: u32,
        x0: f64, y0: f64, z0: f64, x1: f64, y1: f64, z1: f64, dx: f64, dy: f64, dz: f64, step: f64, ground: u32, k: u32,
    ) -> f64;
}

/// The original, over stand-ins for glam's vectors, the block registry and the chunks.
#[allow(dead_code)]
mod original {
    use std::ops::{Add, Sub};

    #[derive(Debug, Clone, Copy, PartialEq)]
    pub struct DVec3 {
        pub x: f64,
        pub y: f64,
        pub z: f64,
    }
    impl DVec3 {
        pub const ZERO: Self = Self::new(0.0, 0.0, 0.0);
        pub const ONE: Self = Self::new(1.0, 1.0, 1.0);
        pub const fn new(x: f64, y: f64, z: f64) -> Self {
            Self { x, y, z }
        }
        pub fn min(self, o: Self) -> Self {
            Self::new(self.x.min(o.x), self.y.min(o.y), self.z.min(o.z))
        }
        pub fn max(self, o: Self) -> Self {
            Self::new(self.x.max(o.x), self.y.max(o.y), self.z.max(o.z))
        }
        pub fn floor(self) -> Self {
            Self::new(self.x.floor(), self.y.floor(), self.z.floor())
        }
        pub fn as_ivec3(self) -> IVec3 {
            IVec3::new(self.x as i32, self.y as i32, self.z as i32)
        }
    }
    impl Add for DVec3 {
        type Output = Self;
        fn add(self, o: Self) -> Self {
            Self::new(self.x + o.x, self.y + o.y, self.z + o.z)
        }
    }
    impl Sub for DVec3 {
        type Output = Self;
        fn sub(self, o: Self) -> Self {
            Self::new(self.x - o.x, self.y - o.y, self.z - o.z)
        }
    }
    #[derive(Debug, Clone, Copy, PartialEq)]
    pub struct IVec3 {
        pub x: i32,
        pub y: i32,
        pub z: i32,
    }
    impl IVec3 {
        pub const X: Self = Self::new(1, 0, 0);
        pub const Y: Self = Self::new(0, 1, 0);
        pub const Z: Self = Self::new(0, 0, 1);
        pub const NEG_X: Self = Self::new(-1, 0, 0);
        pub const NEG_Z: Self = Self::new(0, 0, -1);
        pub const fn new(x: i32, y: i32, z: i32) -> Self {
            Self { x, y, z }
        }
        pub fn as_dvec3(self) -> DVec3 {
            DVec3::new(self.x as f64, self.y as f64, self.z as f64)
        }
    }
    impl Add for IVec3 {
        type Output = Self;
        fn add(self, o: Self) -> Self {
            Self::new(self.x + o.x, self.y + o.y, self.z + o.z)
        }
    }

    pub type ShapeBox = [f32; 6];
    pub struct BlockRegistry {
        pub connections: ConnectionCache,
    }
    impl BlockRegistry {
        pub fn get_by_runtime_id(&self, id: u32) -> Option<()> {
            self.connections.state(id).map(|_| ())
        }
    }
    #[derive(Debug, Default)]
    pub struct ConnectionCache {
        states: Vec<Option<ConnectionState>>,
        transitions: Vec<ConnectionTransitions>,
    }
    /// So many registered states that connect as nothing.
    pub fn plain_registry(n: usize) -> BlockRegistry {
        let plain = ConnectionState { kind: None, full_faces: 0, gate_spans_x: None, wall_post: WallPost::Never, transition: usize::MAX };
        BlockRegistry { connections: ConnectionCache { states: vec![Some(plain); n], transitions: Vec::new() } }
    }
    /// The boxes of each state, which the original has in a static table.
    pub static SHAPES: std::sync::OnceLock<Vec<Vec<ShapeBox>>> = std::sync::OnceLock::new();
    pub fn block_collision_aabbs(state: u32) -> impl Iterator<Item = Aabb> {
        SHAPES.get().unwrap()[state as usize].iter().map(to_aabb)
    }
    /// As bench/standins.rs has it.
    pub struct Window<'a> {
        pub registry: &'a BlockRegistry,
        pub cells: &'a [u32],
        pub columns: &'a [u32],
        pub origin: IVec3,
        pub sizes: IVec3,
        pub lowest: i32,
        pub highest: i32,
        pub air: u32,
    }
    impl BlockSource for Window<'_> {
        fn block_at(&self, p: IVec3) -> Option<u32> {
            let (x, y, z) = (p.x - self.origin.x, p.y - self.origin.y, p.z - self.origin.z);
            let s = self.sizes;
            assert!(x >= 0 && z >= 0 && x < s.x && z < s.z, "outside the window");
            if self.columns[(z * s.x + x) as usize] == 0 {
                return None;
            }
            if p.y < self.lowest || p.y > self.highest {
                return Some(self.air);
            }
            assert!(y >= 0 && y < s.y, "outside the window");
            Some(self.cells[((y * s.z + z) * s.x + x) as usize])
        }
        fn registry(&self) -> &BlockRegistry {
            self.registry
        }
    }

    include!("../target/bench/collection.rs");
}
use original::{collect_block_boxes, move_aabb, plain_registry, Aabb, BlockRegistry, DVec3, IVec3, Window, SHAPES};

const SIZE: i32 = 8;
/// The world's lowest and highest cell: the window lies within.
const LOWEST: i32 = -64;
const HIGHEST: i32 = 319;

struct Scene {
    cells: Vec<u32>,
    mover: [f64; 6],
    delta: [f64; 3],
}
impl Scene {
    fn window<'a>(&'a self, registry: &'a BlockRegistry) -> Window<'a> {
        let (cells, columns) = self.cells.split_at((SIZE * SIZE * SIZE) as usize);
        let (origin, sizes) = (IVec3::new(-4, -4, -4), IVec3::new(SIZE, SIZE, SIZE));
        Window { registry, cells, columns, origin, sizes, lowest: LOWEST, highest: HIGHEST, air: 0 }
    }
    fn aabb(&self) -> Aabb {
        let a = self.mover;
        Aabb::new(DVec3::new(a[0], a[1], a[2]), DVec3::new(a[3], a[4], a[5]))
    }
    fn delta(&self) -> DVec3 {
        DVec3::new(self.delta[0], self.delta[1], self.delta[2])
    }
}

#[inline(never)]
fn ours(records: &[u32], shapes: &[f32], s: &Scene, k: u32) -> f64 {
    let (a, d) = (s.mover, s.delta);
    unsafe {
        boltjuniper_way(
            records.as_ptr(), records.len(), shapes.as_ptr(), shapes.len(), s.cells.as_ptr(), s.cells.len(),
            -4, -4, -4, SIZE as u32, SIZE as u32, SIZE as u32, LOWEST, HIGHEST, 0, a[0], a[1], a[2], a[3], a[4], a[5], d[0], d[1], d[2], 0.0, 0, k,
        )
    }
}

#[inline(never)]
fn rusts(registry: &BlockRegistry, s: &Scene, k: u32) -> f64 {
    let way = move_aabb(&s.window(registry), s.aabb(), s.delta(), 0.0, false).moved;
    [way.x, way.y, way.z][k as usize]
}

fn count(registry: &BlockRegistry, s: &Scene) -> usize {
    let mut out = Vec::new();
    collect_block_boxes(&s.window(registry), s.aabb().expand_towards(s.delta()), &mut out);
    out.len()
}

/// The least of many passes over the scenes, ours and the Rust's by turns.
fn time(n: usize, mut ours: impl FnMut(usize) -> f64, mut rusts: impl FnMut(usize) -> f64) -> (f64, f64) {
    let mut best = (f64::MAX, f64::MAX);
    let pass = |f: &mut dyn FnMut(usize) -> f64, best: &mut f64| {
        let begun = Instant::now();
        for i in 0..n {
            black_box(f(black_box(i)));
        }
        *best = best.min(begun.elapsed().as_nanos() as f64 / n as f64);
    };
    for _ in 0..400 {
        pass(&mut ours, &mut best.0);
        pass(&mut rusts, &mut best.1);
    }
    best
}

fn main() {
    // States: 0 air, 1 a cube, 2 a slab, 3 a stair of two boxes, 4 a pile of 16.
    let boxes: Vec<Vec<[f32; 6]>> = vec![
        vec![],
        vec![[0.0, 0.0, 0.0, 1.0, 1.0, 1.0]],
        vec![[0.0, 0.0, 0.0, 1.0, 0.5, 1.0]],
        vec![[0.0, 0.0, 0.0, 1.0, 0.5, 1.0], [0.5, 0.5, 0.0, 1.0, 1.0, 1.0]],
        (0..16u8).map(|k| [0.0, f32::from(k) / 16.0, 0.0, 1.0, f32::from(k + 1) / 16.0, 1.0]).collect(),
    ];
    let mut records = Vec::new();
    let mut shapes: Vec<f32> = Vec::new();
    for b in &boxes {
        let mut r = [0u32; 20];
        r[0] = 3;
        r[7] = (shapes.len() / 6) as u32;
        r[8] = b.len() as u32;
        records.extend(r);
        shapes.extend(b.iter().flatten());
    }
    SHAPES.set(boxes).unwrap();
    let registry = plain_registry(5);
    let mut seed = 0x9e37_79b9_7f4a_7c15u64;
    let mut next = move || {
        seed ^= seed << 13;
        seed ^= seed >> 7;
        seed ^= seed << 17;
        seed
    };
    // A move that sweeps 3 by 3 columns and, with the layer below, 4 layers: 36 cells. The lower layers are filled, so that some 15 boxes overlap; and
    // the same with more filled.
    for (what, filled) in [("36 cells, about 15 boxes", 12), ("36 cells, about 33 boxes", 27)] {
        let scenes: Vec<Scene> = (0..200)
            .map(|_| {
                let mut cells = vec![0u32; (SIZE * SIZE * SIZE) as usize];
                let (x, z) = (-1.0 + (next() % 100) as f64 / 1000.0, -1.0 + (next() % 100) as f64 / 1000.0);
                for n in 0..filled {
                    let (i, j, k) = (n % 3, n / 9, n / 3 % 3);
                    cells[(((j + 4) * SIZE + (k + 3)) * SIZE + (i + 3)) as usize] = 1 + (next() % 3) as u32;
                }
                cells.resize((SIZE * SIZE * (SIZE + 1)) as usize, 1); // every column is loaded
                Scene { cells, mover: [x, 1.2, z, x + 2.0, 2.4, z + 2.0], delta: [0.5, -1.15, 0.5] }
            })
            .collect();
        let mut boxes = 0;
        for s in &scenes {
            boxes += count(&registry, s);
            for k in 0..3 {
                assert_eq!(ours(&records, &shapes, s, k).to_bits(), rusts(&registry, s, k).to_bits());
            }
        }
        let n = scenes.len();
        let (a, b) = time(n, |i| ours(&records, &shapes, &scenes[i], 0), |i| rusts(&registry, &scenes[i], 0));
        println!("{what} ({:.1}): ours {a:7.1} ns   Rust {b:7.1} ns   ratio {:.2}", boxes as f64 / n as f64, a / b);
    }
    // 4 by 4 columns and, with the layer below, 4 layers: 64 cells, of which 8 or 32 hold a pile of 16 boxes each.
    let mut whole = Vec::new();
    for piles in [8, 32] {
        let mut cells = vec![0u32; (SIZE * SIZE * SIZE) as usize];
        for n in 0..piles {
            cells[(((n / 16 + 4) * SIZE + (n / 4 % 4 + 2)) * SIZE + (n % 4 + 2)) as usize] = 4;
        }
        cells.resize((SIZE * SIZE * (SIZE + 1)) as usize, 1);
        let s = Scene { cells, mover: [-1.75, 0.03, -1.75, 1.5, 1.97, 1.5], delta: [0.25, -0.01, 0.25] };
        for k in 0..3 {
            assert_eq!(ours(&records, &shapes, &s, k).to_bits(), rusts(&registry, &s, k).to_bits());
        }
        let (a, b) = time(20, |_| ours(&records, &shapes, &s, 0), |_| rusts(&registry, &s, 0));
        println!("64 cells, {} boxes: ours {a:7.1} ns   Rust {b:7.1} ns   ratio {:.2}", count(&registry, &s), a / b);
        whole.push(a);
    }
    println!("512 boxes, of what 128 cost: {:.2}", whole[1] / whole[0]);
}
