//! The original's text, which bench/original takes out of its files when a bench is built, over stand-ins for glam's vectors, the block registry,
//! the generated shapes and the chunks. The registry is filled from our own records and shapes, so that one table serves both sides.
use std::ops::{Add, AddAssign, Mul, Sub};

#[derive(Debug, Clone, Copy, PartialEq)]
pub struct DVec3 {
    pub x: f64,
    pub y: f64,
    pub z: f64,
}
impl DVec3 {
    pub const ZERO: Self = Self::splat(0.0);
    pub const ONE: Self = Self::splat(1.0);
    pub const Y: Self = Self::new(0.0, 1.0, 0.0);
    pub const fn new(x: f64, y: f64, z: f64) -> Self {
        Self { x, y, z }
    }
    pub const fn splat(v: f64) -> Self {
        Self::new(v, v, v)
    }
    pub fn min(self, o: Self) -> Self {
        Self::new(self.x.min(o.x), self.y.min(o.y), self.z.min(o.z))
    }
    pub fn max(self, o: Self) -> Self {
        Self::new(self.x.max(o.x), self.y.max(o.y), self.z.max(o.z))
    }
    pub fn floor(self) -> Self {
        Self::new(self.x.floor(), self.y.floor(), self.z.floor())
    }
    pub fn ceil(self) -> Self {
        Self::new(self.x.ceil(), self.y.ceil(), self.z.ceil())
    }
    pub fn as_ivec3(self) -> IVec3 {
        IVec3::new(self.x as i32, self.y as i32, self.z as i32)
    }
    pub fn dot(self, o: Self) -> f64 {
        (self.x * o.x) + (self.y * o.y) + (self.z * o.z)
    }
    pub fn length_squared(self) -> f64 {
        self.dot(self)
    }
    pub fn normalize_or_zero(self) -> Self {
        let rcp = 1.0 / self.dot(self).sqrt();
        if rcp.is_finite() && rcp > 0.0 { self * rcp } else { Self::ZERO }
    }
}
impl Add for DVec3 {
    type Output = Self;
    fn add(self, o: Self) -> Self {
        Self::new(self.x + o.x, self.y + o.y, self.z + o.z)
    }
}
impl AddAssign for DVec3 {
    fn add_assign(&mut self, o: Self) {
        *self = *self + o;
    }
}
impl Sub for DVec3 {
    type Output = Self;
    fn sub(self, o: Self) -> Self {
        Self::new(self.x - o.x, self.y - o.y, self.z - o.z)
    }
}
impl Mul<f64> for DVec3 {
    type Output = Self;
    fn mul(self, d: f64) -> Self {
        Self::new(self.x * d, self.y * d, self.z * d)
    }
}

#[derive(Debug, Clone, Copy, PartialEq)]
pub struct IVec3 {
    pub x: i32,
    pub y: i32,
    pub z: i32,
}
impl IVec3 {
    pub const X: Self = Self::new(1, 0, 0);
    pub const Y: Self = Self::new(0, 1, 0);
    pub const Z: Self = Self::new(0, 0, 1);
    pub const NEG_X: Self = Self::new(-1, 0, 0);
    pub const NEG_Z: Self = Self::new(0, 0, -1);
    pub const fn new(x: i32, y: i32, z: i32) -> Self {
        Self { x, y, z }
    }
    pub fn as_dvec3(self) -> DVec3 {
        DVec3::new(self.x as f64, self.y as f64, self.z as f64)
    }
}
impl Add for IVec3 {
    type Output = Self;
    fn add(self, o: Self) -> Self {
        Self::new(self.x + o.x, self.y + o.y, self.z + o.z)
    }
}
impl Sub for IVec3 {
    type Output = Self;
    fn sub(self, o: Self) -> Self {
        Self::new(self.x - o.x, self.y - o.y, self.z - o.z)
    }
}

pub type ShapeBox = [f32; 6];
/// The boxes of each state, which the original has in a static table.
pub static SHAPES: std::sync::OnceLock<Vec<Vec<ShapeBox>>> = std::sync::OnceLock::new();
pub fn block_collision_aabbs(state: u32) -> impl Iterator<Item = Aabb> {
    SHAPES.get().unwrap()[state as usize].iter().map(to_aabb)
}

const MISSING_INDEX: usize = usize::MAX;
pub struct BlockData {
    friction: f32,
    blocks_motion: bool,
}
pub struct BlockEntry {
    data: &'static BlockData,
}
pub struct BlockRegistry {
    entries: Vec<BlockEntry>,
    runtime_id_map: Vec<usize>,
    liquid_states: Vec<Option<LiquidState>>,
    connections: ConnectionCache,
}
#[derive(Debug, Default)]
pub struct ConnectionCache {
    states: Vec<Option<ConnectionState>>,
    transitions: Vec<ConnectionTransitions>,
}

/// The registry of our records; the shapes go to `SHAPES`.
pub fn registry_of(records: &[u32], shapes: &[f32]) -> BlockRegistry {
    let mut r = BlockRegistry { entries: vec![], runtime_id_map: vec![], liquid_states: vec![], connections: ConnectionCache::default() };
    let mut boxes = Vec::new();
    for w in records.chunks(20) {
        let known = w[0] & 1 == 1;
        r.runtime_id_map.push(if known { r.entries.len() } else { MISSING_INDEX });
        r.liquid_states.push(match w[2] {
            1 => Some(LiquidState { kind: LiquidKind::Water, depth: w[3] as u8 }),
            2 => Some(LiquidState { kind: LiquidKind::Lava, depth: w[3] as u8 }),
            _ => None,
        });
        r.connections.states.push(known.then(|| ConnectionState {
            kind: match w[4] {
                1 => Some(Connectable::Fence { nether_brick: false }),
                2 => Some(Connectable::Fence { nether_brick: true }),
                3 => Some(Connectable::Thin),
                4 => Some(Connectable::Wall),
                _ => None,
            },
            full_faces: w[19] as u8,
            gate_spans_x: [None, Some(true), Some(false)][w[5] as usize],
            wall_post: match w[6] {
                0 => WallPost::Never,
                1 => WallPost::Always,
                n => WallPost::Facing(Side::ALL[n as usize - 2]),
            },
            transition: r.connections.transitions.len(),
        }));
        r.connections.transitions.push(ConnectionTransitions {
            sides: [[w[9], w[10]], [w[11], w[12]], [w[13], w[14]], [w[15], w[16]]],
            post: [w[17], w[18]],
        });
        if known {
            let data = BlockData { friction: f32::from_bits(w[1]), blocks_motion: w[0] & 2 == 2 };
            r.entries.push(BlockEntry { data: Box::leak(Box::new(data)) });
        }
        let first = w[7] as usize;
        boxes.push((first..first + w[8] as usize).map(|b| std::array::from_fn(|k| shapes[b * 6 + k])).collect());
    }
    SHAPES.set(boxes).unwrap();
    r
}

/// A window of cells and columns in a world of so many layers, and the state of its sky and its void. What lies outside it ends the program: no scene
/// of a bench asks for that.
pub struct Window<'a> {
    pub registry: &'a BlockRegistry,
    pub cells: &'a [u32],
    pub columns: &'a [u32],
    pub origin: IVec3,
    pub sizes: IVec3,
    pub lowest: i32,
    pub highest: i32,
    pub air: u32,
}
impl<'a> Window<'a> {
    /// Over the words that ours is lent: the cells, then the columns. The air is state 0.
    pub fn new(registry: &'a BlockRegistry, words: &'a [u32], origin: IVec3, sizes: IVec3, (lowest, highest): (i32, i32)) -> Self {
        let (cells, columns) = words.split_at((sizes.x * sizes.y * sizes.z) as usize);
        Self { registry, cells, columns, origin, sizes, lowest, highest, air: 0 }
    }
}
impl BlockSource for Window<'_> {
    fn block_at(&self, p: IVec3) -> Option<u32> {
        let (x, y, z) = (p.x - self.origin.x, p.y - self.origin.y, p.z - self.origin.z);
        let s = self.sizes;
        assert!(x >= 0 && z >= 0 && x < s.x && z < s.z, "outside the window");
        if self.columns[(z * s.x + x) as usize] == 0 {
            return None;
        }
        if p.y < self.lowest || p.y > self.highest {
            return Some(self.air);
        }
        assert!(y >= 0 && y < s.y, "outside the window");
        Some(self.cells[((y * s.z + z) * s.x + x) as usize])
    }
    fn registry(&self) -> &BlockRegistry {
        self.registry
    }
}

/// What the original's text names by its path from the crate's root.
pub mod entity {
    pub mod mob {
        pub mod constants {
            include!("../target/bench/constants.rs");
        }
    }
}
pub mod world {
    pub mod chunk {
        pub mod blocks {
            pub const AIR: &u32 = &0;
        }
    }
}

include!("../target/bench/physics.rs");

/// The current of an item at these feet, as the step asks for it.
pub fn current_at(blocks: &impl BlockSource, feet: DVec3, width: f64, height: f64) -> (DVec3, bool) {
    let foot_pos = feet.floor().as_ivec3();
    let foot_state = liquid_at(blocks, foot_pos);
    item_current(blocks, Aabb::from_feet(feet, width, height), foot_pos, foot_state)
}
