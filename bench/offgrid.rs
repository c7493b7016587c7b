//! Random moves off the grid, and how far each ends inside a block box: the search beside the theorems of crates/off_grid and crates/off_grid_window. Of
//! every accepted move that begins with no overlap it takes, for each block box, the axis on which the final box reaches into it least, exactly, in
//! whole numbers of 2^-90; the largest of these is printed. It ends with an error where one is above three quarters of 2^-26, which is what is proved.
//!
//! Half of the moves go over a list, half through a window of cubes, columns that are not loaded, and shapes of random f32s; a good part of either lies
//! within a few blocks of 2^25, where the roundings are largest.
//!
//! target/bench/offgrid [MOVES [SEED]]: so many moves of either kind, a million where none is named.

unsafe extern "C" {
    fn boltjuniper_check_tables(records: *const u32, records_len: usize, shapes: *const f32, shapes_len: usize) -> u32;
    fn boltjuniper_move_over_list(
        boxes: *const f64, boxes_len: usize, mover: *const f64, mover_len: usize, step: f64, ground: u32, cap: u32, out: *mut f64,
        out_len: usize,
    ) -> u32;
    fn boltjuniper_move(
        records: *const u32, records_len: usize, shapes: *const f32, shapes_len: usize, cells: *const u32, cells_len: usize, ox: i32, oy: i32,
        oz: i32, sx: u32, sy: u32, sz: u32, lowest: i32, highest: i32, air: u32, mover: *const f64, mover_len: usize, step: f64, ground: u32,
        cap: u32, out: *mut f64, out_len: usize,
    ) -> u32;
}

type Box6 = [f64; 6];

struct Random(u64);
impl Random {
    fn next(&mut self) -> u64 {
        self.0 ^= self.0 << 13;
        self.0 ^= self.0 >> 7;
        self.0 ^= self.0 << 17;
        self.0
    }
    fn unit(&mut self) -> f64 {
        (self.next() >> 11) as f64 / (1u64 << 53) as f64
    }
    fn below(&mut self, n: u64) -> u64 {
        (self.next() >> 8) % n
    }
    fn of<T: Copy>(&mut self, from: &[T]) -> T {
        from[self.below(from.len() as u64) as usize]
    }
}

/// How many times 2^-90 it is; a number that is no whole number of them is none that this program makes.
fn scaled(x: f64) -> i128 {
    let bits = x.to_bits();
    let (exponent, fraction) = ((bits >> 52 & 2047) as i32, i128::from(bits & ((1 << 52) - 1)));
    assert!(exponent < 2047, "{x} is not finite");
    let (size, power) = if exponent == 0 { (fraction, -1074) } else { (fraction | 1 << 52, exponent - 1075) };
    let shift = power + 90;
    let units = if shift >= 0 {
        assert!(shift < 64, "{x} is too large");
        size << shift
    } else {
        let down = (-shift).min(126) as u32;
        assert!(size & ((1i128 << down) - 1) == 0, "{x:e} has digits below 2^-90");
        size >> down
    };
    if bits >> 63 == 1 { -units } else { units }
}

/// Three quarters of 2^-26, and 2^-26.
const PROVED: i128 = 3 << (90 - 28);
const ASKED: i128 = 1 << (90 - 26);

/// On the axis on which it is least: the smaller of a's greatest less b's least, and b's greatest less a's least.
fn reach(a: &[f64], b: &Box6) -> i128 {
    (0..3).map(|k| (scaled(a[k + 3]) - scaled(b[k])).min(scaled(b[k + 3]) - scaled(a[k]))).min().unwrap()
}

fn overlaps(a: &[f64], b: &Box6) -> bool {
    (0..3).all(|k| a[k] < b[k + 3] && b[k] < a[k + 3])
}

#[derive(Default)]
struct Seen {
    moves: u64,
    stopped: u64,
    inside: u64,
    largest: i128,
    of: String,
}
impl Seen {
    fn take(&mut self, mover: &[f64; 9], step: f64, ground: u32, out: &[f64; 10], boxes: &[Box6]) {
        self.moves += 1;
        self.stopped += u64::from((0..3).any(|k| out[6 + k].to_bits() != mover[6 + k].to_bits()));
        let (far, block) = boxes.iter().map(|b| (reach(&out[..6], b), b)).max_by_key(|r| r.0).unwrap_or((i128::MIN, &[0.0; 6]));
        self.inside += u64::from(far > 0);
        if far > self.largest {
            self.largest = far;
            self.of = format!("mover {mover:?}, step {step}, ground {ground}, to {:?}, block {block:?}", &out[..6]);
        }
        assert!(far <= PROVED, "above what is proved: {far} / 2^90: mover {mover:?}, step {step}, ground {ground}, to {out:?}, block {block:?}");
    }
    fn print(&self, what: &str) {
        println!(
            "{what}: {} moves, {} of them stopped or stepped up, {} ended inside a box; the largest reach is {:.6} of 2^-26, 2^{:.2}",
            self.moves, self.stopped, self.inside, self.largest as f64 / ASKED as f64, (self.largest as f64).log2() - 90.0
        );
        println!("  {}", self.of);
    }
}

/// A whole number: near 0, at some distance, or within a few blocks of 2^25.
fn middle(random: &mut Random) -> i32 {
    let far = random.of(&[0, 0, 100, 4000, 1 << 20, (1 << 24) - 8, (1 << 25) - 14, (1 << 25) - 14]);
    let n = far + random.below(12) as i32;
    if random.below(2) == 0 { n } else { -n }
}

/// A share of a delta: none, a body's fall or walk, up to 3 blocks, or up to `most`.
fn share(random: &mut Random, most: f64) -> f64 {
    match random.below(7) {
        0 => 0.0,
        1 => -0.08,
        2 => (random.unit() - 0.5) * 1e-6,
        3 | 4 => (random.unit() - 0.5) * 0.9,
        5 => (random.unit() - 0.5) * 6.0,
        _ => (random.unit() - 0.5) * 2.0 * most,
    }
}

/// A step height: those of real bodies, or any.
fn step(random: &mut Random) -> f64 {
    let (low, any) = (0.3 + random.unit(), 4.0 * random.unit());
    random.of(&[0.0, 0.6, 0.5625, 1.0, low, low, any])
}

/// A body around these feet: its sides are those of real bodies, or any.
fn body(random: &mut Random, feet: [f64; 3]) -> Box6 {
    let any = (0.3 + random.unit(), 0.2 + random.unit());
    let (wide, tall) = random.of(&[(0.6, 1.8), (0.6, 1.8), (0.25, 0.25), (0.25, 0.25), (0.98, 0.98), (1.4, 1.6), any]);
    let half = wide / 2.0;
    [feet[0] - half, feet[1], feet[2] - half, feet[0] + half, feet[1] + tall, feet[2] + half]
}

fn within_limits(b: &Box6) -> bool {
    b.iter().all(|x| x.abs() <= 33_554_432.0)
}

fn over_lists(random: &mut Random, moves: u64) -> Seen {
    let mut seen = Seen::default();
    let mut out = [0.0; 10];
    while seen.moves < moves {
        let feet = [0; 3].map(|_: i32| f64::from(middle(random)) + random.unit());
        let a = body(random, feet);
        let delta = [0; 3].map(|_: i32| share(random, 128.0));
        let mut boxes: Vec<Box6> = Vec::new();
        for n in 0..1 + random.below(5) {
            // the first lies in the way on one axis; of each axis of the others: ahead of the body, behind it, or across it; now and then it touches
            let stop = if n == 0 { random.below(3) as usize } else { 3 };
            let mut b = [0.0; 6];
            for k in 0..3 {
                let gap = if k == stop { delta[k].abs() } else { random.of(&[0.0, 0.05, 0.4, 2.0]) } * random.unit();
                let long = 0.05 + random.unit();
                let side = if k == stop { u64::from(delta[k] < 0.0) } else if n == 0 { 2 } else { random.below(4) };
                (b[k], b[k + 3]) = match side {
                    0 => (a[k + 3] + gap, a[k + 3] + gap + long),
                    1 => (a[k] - gap - long, a[k] - gap),
                    _ => (a[k] - gap, a[k + 3] + long),
                };
            }
            // half of them are cut at tenths, which no sum of the body's own numbers has made
            if random.below(2) == 0 {
                b = b.map(|x| (x * 10.0).round() / 10.0);
            }
            if within_limits(&b) && (0..3).all(|k| b[k] < b[k + 3]) && !overlaps(&a, &b) {
                boxes.push(b);
            }
        }
        if !within_limits(&a) || boxes.is_empty() {
            continue;
        }
        let mover = [a[0], a[1], a[2], a[3], a[4], a[5], delta[0], delta[1], delta[2]];
        let (step, ground) = (step(random), random.below(2) as u32);
        let numbers = boxes.concat();
        let refusal = unsafe { boltjuniper_move_over_list(numbers.as_ptr(), numbers.len(), mover.as_ptr(), 9, step, ground, 0, out.as_mut_ptr(), 10) };
        assert_eq!(refusal, 0, "mover {mover:?}, step {step}, boxes {boxes:?}");
        seen.take(&mover, step, ground, &out, &boxes);
    }
    seen
}

/// Tables: air, a cube, and states of one or two boxes of any f32s, inside the cell or up to half a block above it.
struct Tables {
    records: Vec<u32>,
    shapes: Vec<f32>,
    of: Vec<Vec<[f32; 6]>>,
}

fn tables(random: &mut Random) -> Tables {
    let mut of: Vec<Vec<[f32; 6]>> = vec![vec![], vec![[0.0, 0.0, 0.0, 1.0, 1.0, 1.0]]];
    for k in 0..14 {
        let side = |random: &mut Random, most: f32| {
            let (a, b) = (random.unit() as f32 * 0.97 * most, random.unit() as f32 * 0.97 * most);
            (a.min(b), a.max(b) + 0.01)
        };
        of.push(
            (0..1 + k % 2)
                .map(|_| {
                    let (x, y, z) = (side(random, 1.0), side(random, 1.5), side(random, 1.0));
                    // one in three is a slab of some height, which is stood upon and stepped on, and another a rail, which is stepped over
                    match k % 3 {
                        0 => [0.0, 0.0, 0.0, 0.99, y.1, 0.99],
                        1 => [x.0, 0.0, 0.0, x.0 + 0.02, 0.05 + y.0 / 3.0, 1.0],
                        _ => [x.0, y.0, z.0, x.1, y.1, z.1],
                    }
                })
                .collect(),
        );
    }
    // the slab of state 2 once more, with a rail on it
    let top = of[2][0][4];
    of.push(vec![of[2][0], [0.5, top, 0.0, 0.52, (top + 0.05 + 0.5 * random.unit() as f32).min(1.5), 1.0]]);
    let (mut records, mut shapes) = (Vec::new(), Vec::new());
    for (state, boxes) in of.iter().enumerate() {
        let mut row = [0u32; 20];
        (row[0], row[1]) = (if state == 0 { 1 } else { 3 }, 0.6f32.to_bits());
        (row[7], row[8]) = (shapes.len() as u32 / 6, boxes.len() as u32);
        row[19] = if state == 1 { 15 } else { 0 };
        records.extend(row);
        shapes.extend(boxes.concat());
    }
    assert_eq!(unsafe { boltjuniper_check_tables(records.as_ptr(), records.len(), shapes.as_ptr(), shapes.len()) }, 0);
    Tables { records, shapes, of }
}

const SIZE: i32 = 8;
const RAILED: u32 = 16;
/// The world's lowest and highest cell.
const WORLD: i32 = 33_554_432;

fn through_windows(random: &mut Random, moves: u64) -> (Seen, u64) {
    let (mut seen, mut refused) = (Seen::default(), 0);
    let mut out = [0.0; 10];
    let mut t = tables(random);
    while seen.moves < moves {
        if random.below(500) == 0 {
            t = tables(random);
        }
        let mut origin = [0; 3].map(|_: i32| middle(random));
        // one window in four is for a body that steps over a rail and back down to a floor whose top is a little below a power of two
        let hops = random.below(4) == 0;
        if hops {
            origin[1] = (1 << random.of(&[3, 8, 16, 24, 25, 25])) - 3;
        }
        // a floor, and above it air, cubes and shapes, now and then rails alone
        let (floor, rails) = (if hops { 2 } else { random.of(&[1, 1, 2, 5]) }, random.below(2) == 0);
        let mut cells: Vec<u32> = (0..SIZE * SIZE * SIZE)
            .map(|at| match at / SIZE / SIZE {
                2 if hops && random.below(5) == 0 => RAILED,
                0..3 => floor,
                _ if hops => 0,
                _ if random.below(5) > 0 => 0,
                _ if rails => random.of(&[3, 6, 9, 12]),
                _ => 1 + random.below(15) as u32,
            })
            .collect();
        let columns: Vec<u32> = (0..SIZE * SIZE).map(|_| u32::from(random.below(30) != 0)).collect();
        cells.extend(&columns);
        // every box that a cell near the middle comes to
        let mut blocks: Vec<Box6> = Vec::new();
        for (y, z, x) in (0..SIZE).flat_map(|y| (0..SIZE).flat_map(move |z| (0..SIZE).map(move |x| (y, z, x)))) {
            let state = match cells[((y * SIZE + z) * SIZE + x) as usize] {
                _ if columns[(z * SIZE + x) as usize] == 0 => 1,
                _ if origin[1] + y > WORLD => 0,
                state => state,
            };
            let at = [origin[0] + x, origin[1] + y, origin[2] + z].map(f64::from);
            blocks.extend(t.of[state as usize].iter().map(|b| std::array::from_fn(|k| f64::from(b[k]) + at[k % 3])));
        }
        for _ in 0..6 {
            // on top of some block, or anywhere
            let place = |random: &mut Random, k: usize| f64::from(origin[k]) + 2.5 + 3.0 * random.unit();
            let mut feet = [place(random, 0), place(random, 1) + 1.0, place(random, 2)];
            if random.below(3) > 0 {
                let b = random.of(&blocks);
                feet[1] = b[4];
                if random.below(2) == 0 {
                    feet[0] = (b[0] + b[3]) / 2.0;
                    feet[2] = (b[2] + b[5]) / 2.0;
                }
            }
            if hops {
                feet[1] = f64::from(t.of[2][0][4]) + f64::from(origin[1] + 2);
            }
            let a = body(random, feet);
            let y = if hops || random.below(2) == 0 { 0.0 } else { share(random, 3.0) };
            let mover = [a[0], a[1], a[2], a[3], a[4], a[5], share(random, 3.0), y, share(random, 3.0)];
            if !within_limits(&a) || blocks.iter().any(|b| overlaps(&a, b)) {
                continue;
            }
            let (step, ground) = (step(random), random.below(4).min(1) as u32);
            let s = SIZE as u32;
            let refusal = unsafe {
                boltjuniper_move(
                    t.records.as_ptr(), t.records.len(), t.shapes.as_ptr(), t.shapes.len(), cells.as_ptr(), cells.len(), origin[0], origin[1], origin[2],
                    s, s, s, -WORLD, WORLD, 0, mover.as_ptr(), 9, step, ground, 0, out.as_mut_ptr(), 10,
                )
            };
            match refusal {
                0 => seen.take(&mover, step, ground, &out, &blocks),
                5 | 6 => refused += 1,
                n => panic!("refused {n}: mover {mover:?}, origin {origin:?}"),
            }
        }
    }
    (seen, refused)
}

fn main() {
    let mut given = std::env::args().skip(1).map(|n| n.parse::<u64>().expect("a number"));
    let (moves, seed) = (given.next().unwrap_or(1_000_000), given.next().unwrap_or(1));
    let mut random = Random(seed.wrapping_mul(0x9e37_79b9_7f4a_7c15) | 1);
    over_lists(&mut random, moves).print("over a list");
    let (seen, refused) = through_windows(&mut random, moves);
    seen.print("through a window");
    println!("  ({refused} more left the window, or met more boxes than the cap)");
    println!("none is above three quarters of 2^-26");
}
