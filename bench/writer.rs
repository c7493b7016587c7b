//! The scene writer: what it costs to write a word of a file, for contents that were checked before, and beside it the whole call with the checks of 1 to
//! 4. The original has no writer, so there is nothing to compare with.
use std::hint::black_box;
use std::time::Instant;

unsafe extern "C" {
    fn boltjuniper_write_scene(
        records: *const u32, records_len: usize, shapes: *const f32, shapes_len: usize, cells: *const u32, cells_len: usize, ox: i32, oy: i32, oz: i32,
        sx: u32, sy: u32, sz: u32, lowest: i32, highest: i32, numbers: *const f64, numbers_len: usize, words: *const u32, words_len: usize, age: u64,
        out: *mut u8, out_len: usize,
    ) -> u64;
    fn boltjuniper_write_checked(
        records: *const u32, records_len: usize, shapes: *const f32, shapes_len: usize, cells: *const u32, cells_len: usize, ox: i32, oy: i32, oz: i32,
        sx: u32, sy: u32, sz: u32, lowest: i32, highest: i32, numbers: *const f64, numbers_len: usize, words: *const u32, words_len: usize, age: u64,
        out: *mut u8, out_len: usize,
    ) -> u64;
}

struct Scene {
    records: Vec<u32>,
    shapes: Vec<f32>,
    cells: Vec<u32>,
    sizes: [u32; 3],
}

const NUMBERS: [f64; 19] = [0.5, 1.25, 0.5, 0.25, 0.0, 0.0, 1.0, 1.0, 0.0, 0.5, 0.5, 0.5, 0.0, 0.0, 0.6, 0.1, 0.02, 0.8, 0.5];
const WORDS: [u32; 7] = [0, 3, 0, 0, 0, 0, 0];

/// States of so many boxes each, one behind the other: slabs that together are a cube.
fn scene(states: u32, boxes: u32, sizes: [u32; 3]) -> Scene {
    let record = |s: u32| [3, 0x3f19_999a, 0, 0, 0, 0, 0, s * boxes, boxes, 0, 0, 0, 0, 0, 0, 0, 0, 0, 0, if boxes == 0 { 0 } else { 15 }];
    let slab = |k: u32| [0.0, (k % boxes) as f32 / boxes as f32, 0.0, 1.0, (k % boxes + 1) as f32 / boxes as f32, 1.0];
    let [x, y, z] = sizes;
    let mut cells: Vec<u32> = (0..x * y * z).map(|k| k % states).collect();
    cells.extend(vec![1; (x * z) as usize]);
    Scene { records: (0..states).flat_map(record).collect(), shapes: (0..states * boxes).flat_map(slab).collect(), cells, sizes }
}

fn write(s: &Scene, checked: bool, out: &mut [u8]) -> u64 {
    let [x, y, z] = s.sizes;
    let f = if checked { boltjuniper_write_checked } else { boltjuniper_write_scene };
    unsafe {
        f(
            s.records.as_ptr(), s.records.len(), s.shapes.as_ptr(), s.shapes.len(), s.cells.as_ptr(), s.cells.len(), 0, 0, 0, x, y, z, -64, 319,
            NUMBERS.as_ptr(), 19, WORDS.as_ptr(), 7, 7, out.as_mut_ptr(), out.len(),
        )
    }
}

/// The least of many passes: other work on the machine can only add to one.
fn least(passes: u32, mut call: impl FnMut()) -> f64 {
    (0..passes).map(|_| { let begun = Instant::now(); call(); begun.elapsed().as_nanos() as f64 }).fold(f64::MAX, f64::min)
}

fn time(what: &str, s: &Scene, blocks: u64) {
    let mut out = vec![0u8; 65536];
    assert_eq!(write(s, false, &mut out), blocks * 512, "{what}");
    let words = (blocks * 128) as f64;
    let written = least(20000, || { black_box(write(black_box(s), true, black_box(&mut out))); });
    let whole = least(2000, || { black_box(write(black_box(s), false, black_box(&mut out))); });
    println!("{what:<44} {written:9.0} ns  {:5.2} ns a word   with 1 to 4 {whole:9.0} ns", written / words);
}

fn main() {
    time("2 states, 2 boxes, 2 x 4 x 2 cells", &scene(2, 1, [2, 4, 2]), 5);
    time("6 states, 6 boxes, 8 x 8 x 8 cells", &scene(6, 1, [8, 8, 8]), 9);
    time("128 blocks: 125 of cells", &scene(1, 0, [16, 59, 16]), 128);
    time("128 blocks: 24 of states, 101 of boxes", &scene(144, 14, [2, 4, 2]), 128);
    time("128 blocks: 120 of states", &scene(720, 0, [8, 9, 8]), 128);
}
