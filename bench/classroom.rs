//! Yards of the classroom palette's blocks, ours against the original Rust, whose text bench/original takes out of its files when the bench is built:
//! what each fence, pane and wall comes to beside its neighbours (`connected_state`), and the boxes that are collected of an area, in their order. Both
//! have the tables that `boltjuniper_palette_records` and `boltjuniper_palette_boxes` hand out. It prints how much was compared, and ends with an error at
//! the first difference.
#[allow(dead_code)]
mod palette;
#[allow(dead_code)]
mod standins;
#[allow(dead_code)]
mod yards;
use standins::{Aabb, BlockRegistry, BlockSource, DVec3, IVec3, Window, collect_block_boxes, connected_state, registry_of};
#[allow(unused_imports)]
use standins::{entity, world};
use yards::numbers;

const YARDS: usize = 2_000;
const WORDS: usize = 212 * 20;
const NUMBERS: usize = 658 * 6;
/// A yard: so many cells from west to east and from north to south, four layers, and the sky above it, which is not recorded.
const SIZE: i32 = 7;
const LAYERS: i32 = 4;
const LOWEST: i32 = 0;
const HIGHEST: i32 = LAYERS - 1;
const MOST_BOXES: usize = 128;

unsafe extern "C" {
    fn boltjuniper_palette_records(out: *mut u32, out_len: usize) -> u32;
    fn boltjuniper_palette_boxes(out: *mut f32, out_len: usize) -> u32;
    fn boltjuniper_connected(
        records: *const u32, records_len: usize, shapes: *const f32, shapes_len: usize, cells: *const u32, cells_len: usize, ox: i32, oy: i32,
        oz: i32, sx: u32, sy: u32, sz: u32, lowest: i32, highest: i32, air: u32, x: f64, y: f64, z: f64, state: u32,
    ) -> u32;
    fn boltjuniper_collected(
        records: *const u32, records_len: usize, shapes: *const f32, shapes_len: usize, cells: *const u32, cells_len: usize, ox: i32, oy: i32,
        oz: i32, sx: u32, sy: u32, sz: u32, lowest: i32, highest: i32, air: u32, mover: *const f64, mover_len: usize, step: f64, cap: u32, k: u32,
        out: *mut f64, out_len: usize,
    ) -> u32;
}

/// The first states of an oak fence, a nether brick fence, a pane and a wall, and how many each has.
const JOINING: [(u32, u32); 4] = [(2, 16), (18, 16), (34, 16), (50, 162)];

/// Words of a yard: a floor of cubes, and above it air, cubes, and fences, panes and walls as any builder's hand or an older tick left them, so with any
/// sides at all; one column in twelve is not loaded, and one cell in forty has a state that is none.
fn yard(next: &mut impl FnMut(u64) -> u32) -> Vec<u32> {
    let favourite = next(4) as usize;
    let mut words: Vec<u32> = (0..SIZE * SIZE * LAYERS)
        .map(|at| match next(40) {
            _ if at < SIZE * SIZE => 1,
            0 => 212 + next(9),
            1..14 => 0,
            14..18 => 1,
            n => {
                let (first, count) = JOINING[if n < 28 { favourite } else { next(4) as usize }];
                first + next(u64::from(count))
            }
        })
        .collect();
    words.extend((0..SIZE * SIZE).map(|_| u32::from(next(12) != 0)));
    words
}

struct Ours {
    records: Vec<u32>,
    shapes: Vec<f32>,
}

macro_rules! lent {
    ($f:ident, $t:expr, $cells:expr, $($rest:expr),*) => {
        unsafe {
            $f(
                $t.records.as_ptr(), WORDS, $t.shapes.as_ptr(), NUMBERS, $cells.as_ptr(), $cells.len(), 0, 0, 0, SIZE as u32, LAYERS as u32, SIZE as u32,
                LOWEST, HIGHEST, 0, $($rest),*
            )
        }
    };
}

impl Ours {
    fn new() -> Self {
        let mut t = Self { records: vec![0; WORDS], shapes: vec![0.0; NUMBERS] };
        unsafe {
            assert_eq!(boltjuniper_palette_records(t.records.as_mut_ptr(), WORDS), 0);
            assert_eq!(boltjuniper_palette_boxes(t.shapes.as_mut_ptr(), NUMBERS), 0);
        }
        t
    }
    fn connected(&self, cells: &[u32], p: IVec3, state: u32) -> u32 {
        let middle = |n: i32| f64::from(n) + 0.5;
        lent!(boltjuniper_connected, self, cells, middle(p.x), middle(p.y), middle(p.z), state)
    }
    /// The refusal, or the boxes.
    fn collected(&self, cells: &[u32], area: &[f64; 6]) -> Result<Vec<[f64; 6]>, u32> {
        let mover: Vec<f64> = area.iter().copied().chain([0.0; 3]).collect();
        let (mut out, mut boxes) = ([1.0f64; 7], Vec::new());
        while (boxes.len() as f64) < out[0] {
            match lent!(boltjuniper_collected, self, cells, mover.as_ptr(), 9, 0.0, MOST_BOXES as u32, boxes.len() as u32, out.as_mut_ptr(), 7) {
                0 if out[0] == 0.0 => break,
                0 => boxes.push(out[1..].try_into().unwrap()),
                refusal => return Err(refusal),
            }
        }
        Ok(boxes)
    }
}

fn rusts(registry: &BlockRegistry, cells: &[u32], area: &[f64; 6]) -> Vec<[f64; 6]> {
    let mut out = Vec::new();
    let a = Aabb::new(DVec3::new(area[0], area[1], area[2]), DVec3::new(area[3], area[4], area[5]));
    collect_block_boxes(&window(registry, cells), a, &mut out);
    out.iter().map(|b| [b.min.x, b.min.y, b.min.z, b.max.x, b.max.y, b.max.z]).collect()
}

fn window<'a>(registry: &'a BlockRegistry, cells: &'a [u32]) -> Window<'a> {
    Window::new(registry, cells, IVec3::new(0, 0, 0), IVec3::new(SIZE, LAYERS, SIZE), (LOWEST, HIGHEST))
}

fn main() {
    let ours = Ours::new();
    let registry = registry_of(&ours.records, &ours.shapes);
    let mut next = numbers();
    let (mut states, mut turned, mut areas, mut boxes, mut capped) = (0, 0, 0, 0, 0);
    for k in 0..YARDS {
        let cells = yard(&mut next);
        let w = window(&registry, &cells);
        // each block that has its neighbours in the window, as it stands
        for at in 0..SIZE * SIZE * LAYERS {
            let p = IVec3::new(at % SIZE, at / SIZE / SIZE, at / SIZE % SIZE);
            let inner = p.x > 0 && p.x < SIZE - 1 && p.z > 0 && p.z < SIZE - 1;
            let state = cells[at as usize];
            if !inner || state >= 212 {
                continue;
            }
            let theirs = connected_state(&registry, p, state, |p| w.block_at(p));
            assert_eq!(ours.connected(&cells, p, state), theirs, "yard {k}, state {state} at {p:?}");
            states += 1;
            turned += usize::from(theirs != state);
        }
        // areas of a body's size and larger, and all that has its neighbours in the window
        for n in 0..4 {
            let mut from = |low: f64, high: f64| low + (high - low) * f64::from(next(4096)) / 4096.0;
            let (x, y, z) = (from(1.0, 5.0), from(1.0, 4.0), from(1.0, 5.0));
            let area = match n {
                0 => [1.0, 1.0, 1.0, 5.75, y, 5.75],
                _ => [x, y, z, x + from(0.0, 6.0 - x), y + from(0.0, 2.0), z + from(0.0, 6.0 - z)],
            };
            let theirs = rusts(&registry, &cells, &area);
            if theirs.len() > MOST_BOXES {
                assert_eq!(ours.collected(&cells, &area), Err(6), "yard {k}, {area:?}");
                capped += 1;
            } else {
                assert_eq!(ours.collected(&cells, &area), Ok(theirs.clone()), "yard {k}, {area:?}");
                boxes += theirs.len();
            }
            areas += 1;
        }
    }
    println!("{YARDS} yards: {states} blocks come to the same state beside their neighbours, {turned} of them to another than they were");
    println!("{areas} areas: the same {boxes} boxes in the same order; {capped} of more than {MOST_BOXES} boxes, which ours refuses by 6");
}
