//! What bench/step.rs and bench/tower.rs step over: a table of states, bodies of each model, and a body's numbers as ours is handed them.
use crate::standins::{DVec3, GravityStage, GroundFriction, PhysicsBody, PhysicsModel};

pub type Step = unsafe extern "C" fn(
    *const u32, usize, *const f32, usize, *const u32, usize, i32, i32, i32, u32, u32, u32, i32, i32, *const f64, usize, *const u32, usize, u64,
    *mut f64, usize,
) -> u32;
unsafe extern "C" {
    pub fn boltjuniper_step(
        records: *const u32, records_len: usize, shapes: *const f32, shapes_len: usize, cells: *const u32, cells_len: usize, ox: i32, oy: i32,
        oz: i32, sx: u32, sy: u32, sz: u32, lowest: i32, highest: i32, numbers: *const f64, numbers_len: usize, words: *const u32,
        words_len: usize, age: u64, out: *mut f64, out_len: usize,
    ) -> u32;
    pub fn boltjuniper_step_checked(
        records: *const u32, records_len: usize, shapes: *const f32, shapes_len: usize, cells: *const u32, cells_len: usize, ox: i32, oy: i32,
        oz: i32, sx: u32, sy: u32, sz: u32, lowest: i32, highest: i32, numbers: *const f64, numbers_len: usize, words: *const u32,
        words_len: usize, age: u64, out: *mut f64, out_len: usize,
    ) -> u32;
}

// States: air, a cube, a slab, a stair, ice; a fence's 16, a wall's 32, water's and lava's 16 depths.
pub const CUBE: u32 = 1;
pub const SLAB: u32 = 2;
pub const STAIR: u32 = 3;
pub const ICE: u32 = 4;
pub const FENCE: u32 = 5;
pub const WALL: u32 = 21;
pub const WATER: u32 = 53;
pub const LAVA: u32 = 69;

pub fn tables() -> (Vec<u32>, Vec<f32>) {
    let (mut records, mut shapes) = (Vec::new(), Vec::new());
    let mut add = |words: [u32; 20], boxes: &[[f32; 6]]| {
        let mut w = words;
        (w[7], w[8]) = (shapes.len() as u32 / 6, boxes.len() as u32);
        records.extend(w);
        shapes.extend(boxes.iter().flatten());
    };
    let plain = |friction: f32, faces: u32| {
        let mut w = [0; 20];
        (w[0], w[1], w[19]) = (3, friction.to_bits(), faces);
        w
    };
    let slab = [0.0, 0.0, 0.0, 1.0, 0.5, 1.0];
    add([1, 0, 0, 0, 0, 0, 0, 0, 0, 0, 0, 0, 0, 0, 0, 0, 0, 0, 0, 0], &[]);
    add(plain(0.6, 15), &[[0.0, 0.0, 0.0, 1.0, 1.0, 1.0]]);
    add(plain(0.6, 0), &[slab]);
    add(plain(0.6, 2), &[slab, [0.5, 0.5, 0.0, 1.0, 1.0, 1.0]]);
    add(plain(0.98, 15), &[[0.0, 0.0, 0.0, 1.0, 1.0, 1.0]]);
    // A joined side is a bit, north 1, east 2, south 4, west 8; a wall's post is 16.
    for (base, kind, count, lo) in [(FENCE, 1, 16, 0.375f32), (WALL, 4, 32, 0.25)] {
        let hi = 1.0 - lo;
        for i in 0..count {
            let mut w = plain(0.6, 0);
            w[4] = kind;
            for side in 0..4 {
                (w[9 + 2 * side], w[10 + 2 * side]) = (base + (i & !(1 << side)), base + (i | 1 << side));
            }
            (w[17], w[18]) = if kind == 1 { (base + i, base + i) } else { (base + (i & !16), base + (i | 16)) };
            let arms = [[lo, 0.0, 0.0, hi, 1.5, lo], [hi, 0.0, lo, 1.0, 1.5, hi], [lo, 0.0, hi, hi, 1.5, 1.0], [0.0, 0.0, lo, lo, 1.5, hi]];
            let mut boxes = vec![[lo, 0.0, lo, hi, 1.5, hi]];
            boxes.extend((0..4).filter(|side| i & 1 << side != 0).map(|side| arms[side]));
            add(w, &boxes);
        }
    }
    for liquid in 1..3 {
        for depth in 0..16 {
            let mut w = [0; 20];
            (w[0], w[2], w[3]) = (1, liquid, depth);
            add(w, &[]);
        }
    }
    (records, shapes)
}

/// An item, a falling block, an arrow and a living body.
pub fn bodies() -> [PhysicsBody; 4] {
    let item = PhysicsBody {
        model: PhysicsModel::Item, width: 0.25, height: 0.25, network_y_offset: 0.125, gravity: 0.04, gravity_stage: GravityStage::BeforeMove,
        vertical_drag: 0.98, horizontal_drag: 0.98, ground_friction: GroundFriction::Block, step_height: 0.0, wing_flap_drag: None,
    };
    let block = PhysicsBody {
        model: PhysicsModel::FallingBlock, width: 0.98, height: 0.98, network_y_offset: 0.49, ground_friction: GroundFriction::None, ..item
    };
    let living = PhysicsBody {
        model: PhysicsModel::Living, width: 0.6, height: 1.8, network_y_offset: 0.0, gravity: 0.08, gravity_stage: GravityStage::AfterMove,
        vertical_drag: 0.98, horizontal_drag: 0.91, ground_friction: GroundFriction::Block, step_height: 0.5625, wing_flap_drag: None,
    };
    let arrow = PhysicsBody {
        model: PhysicsModel::Generic, width: 0.25, height: 0.25, network_y_offset: 0.0, gravity: 0.05, gravity_stage: GravityStage::AfterDrag,
        vertical_drag: 0.99, horizontal_drag: 0.99, ground_friction: GroundFriction::None, ..item
    };
    [item, block, arrow, living]
}

/// One step to take: a window's cells and columns, the body, and where it is.
#[derive(Clone, Copy)]
pub struct Call<'a> {
    pub cells: &'a [u32],
    pub body: PhysicsBody,
    pub feet: DVec3,
    pub velocity: DVec3,
    pub ground: bool,
    pub age: u64,
    pub numbers: [f64; 19],
    pub words: [u32; 7],
}

impl<'a> Call<'a> {
    pub fn new(cells: &'a [u32], body: PhysicsBody, feet: DVec3, velocity: DVec3, ground: bool, age: u64) -> Self {
        let (p, v, b) = (feet, velocity, &body);
        let numbers = [
            p.x, p.y, p.z, v.x, v.y, v.z, b.width, b.height, b.network_y_offset, b.gravity, b.vertical_drag, b.horizontal_drag,
            b.wing_flap_drag.unwrap_or(0.0), b.step_height, 0.6, 0.1, 0.02, 0.8, 0.5,
        ];
        let model = match b.model {
            PhysicsModel::Item => 0,
            PhysicsModel::Living => 1,
            PhysicsModel::FallingBlock => 2,
            PhysicsModel::Generic => 3,
        };
        let stage = match b.gravity_stage {
            GravityStage::BeforeMove => 0,
            GravityStage::AfterMove => 1,
            GravityStage::AfterDrag => 2,
        };
        let friction = u32::from(b.ground_friction == GroundFriction::Block);
        let words = [u32::from(ground), model, stage, friction, u32::from(b.wing_flap_drag.is_some()), 0, 0];
        Self { cells, body, feet, velocity, ground, age, numbers, words }
    }
}
