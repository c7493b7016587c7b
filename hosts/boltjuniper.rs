//! Boltjuniper for hosts in Rust: safe wrappers around what hosts/boltjuniper.h declares of crates/exports, crates/recorder, crates/classroom,
//! crates/servers and crates/minutes. Link target/staticlib/libexports.a, for the classroom palette target/staticlib/libclassroom.a, for the midnight
//! run of two parties target/staticlib/libservers.a, for a minute target/staticlib/libminutes.a, and a recorder target/staticlib/librecorder.a.
//! An answer is what was written, or the number of the refusal (docs/REFUSALS.md). The lengths of bodies, movers and answers, and flags, are right
//! by their types, so neither they nor 11 are ever the reason (but 11 of the midnight run, whose buffer is the host's); those of tables and windows are for the library to refuse.

mod linked {
    unsafe extern "C" {
        pub fn boltjuniper_check_tables(records: *const u32, records_len: usize, shapes: *const f32, shapes_len: usize) -> u32;
        pub fn boltjuniper_step(
            records: *const u32, records_len: usize, shapes: *const f32, shapes_len: usize, cells: *const u32, cells_len: usize, ox: i32, oy: i32,
            oz: i32, sx: u32, sy: u32, sz: u32, lowest: i32, highest: i32, numbers: *const f64, numbers_len: usize, words: *const u32,
            words_len: usize, age: u64, out: *mut f64, out_len: usize,
        ) -> u32;
        pub fn boltjuniper_step_checked(
            records: *const u32, records_len: usize, shapes: *const f32, shapes_len: usize, cells: *const u32, cells_len: usize, ox: i32, oy: i32,
            oz: i32, sx: u32, sy: u32, sz: u32, lowest: i32, highest: i32, numbers: *const f64, numbers_len: usize, words: *const u32,
            words_len: usize, age: u64, out: *mut f64, out_len: usize,
        ) -> u32;
        pub fn boltjuniper_step_falling(
            records: *const u32, records_len: usize, shapes: *const f32, shapes_len: usize, cells: *const u32, cells_len: usize, ox: i32, oy: i32,
            oz: i32, sx: u32, sy: u32, sz: u32, lowest: i32, highest: i32, numbers: *const f64, numbers_len: usize, words: *const u32,
            words_len: usize, age: u64, sum: f64, landed: f64, out: *mut f64, out_len: usize,
        ) -> u32;
        pub fn boltjuniper_build_summary(
            records: *const u32, records_len: usize, shapes: *const f32, shapes_len: usize, cells: *mut u32, cells_len: usize, ox: i32, oy: i32,
            oz: i32, sx: u32, sy: u32, sz: u32, lowest: i32, highest: i32, air: u32,
        ) -> u32;
        pub fn boltjuniper_set_block(
            records: *const u32, records_len: usize, shapes: *const f32, shapes_len: usize, cells: *mut u32, cells_len: usize, ox: i32, oy: i32,
            oz: i32, sx: u32, sy: u32, sz: u32, lowest: i32, highest: i32, air: u32, x: i32, y: i32, z: i32, state: u32,
        ) -> u32;
        pub fn boltjuniper_check_summary(
            records: *const u32, records_len: usize, shapes: *const f32, shapes_len: usize, cells: *const u32, cells_len: usize, ox: i32, oy: i32,
            oz: i32, sx: u32, sy: u32, sz: u32, lowest: i32, highest: i32, air: u32,
        ) -> u32;
        pub fn boltjuniper_move_summed(
            records: *const u32, records_len: usize, shapes: *const f32, shapes_len: usize, cells: *const u32, cells_len: usize, ox: i32, oy: i32,
            oz: i32, sx: u32, sy: u32, sz: u32, lowest: i32, highest: i32, air: u32, mover: *const f64, mover_len: usize, step: f64, ground: u32,
            cap: u32, out: *mut f64, out_len: usize,
        ) -> u32;
        pub fn boltjuniper_step_summed(
            records: *const u32, records_len: usize, shapes: *const f32, shapes_len: usize, cells: *const u32, cells_len: usize, ox: i32, oy: i32,
            oz: i32, sx: u32, sy: u32, sz: u32, lowest: i32, highest: i32, numbers: *const f64, numbers_len: usize, words: *const u32,
            words_len: usize, age: u64, out: *mut f64, out_len: usize,
        ) -> u32;
        pub fn boltjuniper_step_falling_summed(
            records: *const u32, records_len: usize, shapes: *const f32, shapes_len: usize, cells: *const u32, cells_len: usize, ox: i32, oy: i32,
            oz: i32, sx: u32, sy: u32, sz: u32, lowest: i32, highest: i32, numbers: *const f64, numbers_len: usize, words: *const u32,
            words_len: usize, age: u64, sum: f64, landed: f64, out: *mut f64, out_len: usize,
        ) -> u32;
        pub fn boltjuniper_midnight(
            records: *const u32, records_len: usize, shapes: *const f32, shapes_len: usize, windows: *const u32, windows_len: usize,
            windows_count: u32, cells: *const u32, cells_len: usize, numbers: *const f64, numbers_len: usize, words: *const u32, words_len: usize,
            bodies_count: u32, out: *mut f64, out_len: usize,
        ) -> u32;
        pub fn boltjuniper_midnight_capped(
            records: *const u32, records_len: usize, shapes: *const f32, shapes_len: usize, windows: *const u32, windows_len: usize,
            windows_count: u32, cells: *const u32, cells_len: usize, numbers: *const f64, numbers_len: usize, words: *const u32, words_len: usize,
            bodies_count: u32, out: *mut f64, out_len: usize,
        ) -> u32;
        pub fn boltjuniper_midnight_two(
            records: *const u32, records_len: usize, shapes: *const f32, shapes_len: usize, first_windows: *const u32, first_windows_len: usize,
            first_windows_count: u32, first_cells: *const u32, first_cells_len: usize, first_numbers: *const f64, first_numbers_len: usize,
            first_words: *const u32, first_words_len: usize, first_bodies_count: u32, second_windows: *const u32, second_windows_len: usize,
            second_windows_count: u32, second_cells: *const u32, second_cells_len: usize, second_numbers: *const f64, second_numbers_len: usize,
            second_words: *const u32, second_words_len: usize, second_bodies_count: u32, out: *mut f64, out_len: usize,
        ) -> u64;
        pub fn boltjuniper_tick(file: *const u8, file_len: usize, out: *mut f64, out_len: usize) -> u32;
        pub fn boltjuniper_move(
            records: *const u32, records_len: usize, shapes: *const f32, shapes_len: usize, cells: *const u32, cells_len: usize, ox: i32, oy: i32,
            oz: i32, sx: u32, sy: u32, sz: u32, lowest: i32, highest: i32, air: u32, mover: *const f64, mover_len: usize, step: f64, ground: u32,
            cap: u32, out: *mut f64, out_len: usize,
        ) -> u32;
        pub fn boltjuniper_write_scene(
            records: *const u32, records_len: usize, shapes: *const f32, shapes_len: usize, cells: *const u32, cells_len: usize, ox: i32, oy: i32,
            oz: i32, sx: u32, sy: u32, sz: u32, lowest: i32, highest: i32, numbers: *const f64, numbers_len: usize, words: *const u32,
            words_len: usize, age: u64, out: *mut u8, out_len: usize,
        ) -> u64;
        pub fn boltjuniper_write_checked(
            records: *const u32, records_len: usize, shapes: *const f32, shapes_len: usize, cells: *const u32, cells_len: usize, ox: i32, oy: i32,
            oz: i32, sx: u32, sy: u32, sz: u32, lowest: i32, highest: i32, numbers: *const f64, numbers_len: usize, words: *const u32,
            words_len: usize, age: u64, out: *mut u8, out_len: usize,
        ) -> u64;
        pub fn boltjuniper_write_log(events: *const u32, events_len: usize, out: *mut u8, out_len: usize) -> u64;
        pub fn boltjuniper_minute(
            records: *const u32, records_len: usize, shapes: *const f32, shapes_len: usize, cells: *mut u32, cells_len: usize, ox: i32, oy: i32,
            oz: i32, sx: u32, sy: u32, sz: u32, lowest: i32, highest: i32, numbers: *const f64, numbers_len: usize, words: *const u32,
            words_len: usize, age: u64, log: *const u8, log_len: usize, feet: *mut f64, feet_len: usize, out: *mut f64, out_len: usize,
        ) -> u32;
        pub fn boltjuniper_move_over_list(
            boxes: *const f64, boxes_len: usize, mover: *const f64, mover_len: usize, step: f64, ground: u32, cap: u32, out: *mut f64,
            out_len: usize,
        ) -> u32;
        pub fn boltjuniper_palette_records(out: *mut u32, out_len: usize) -> u32;
        pub fn boltjuniper_palette_boxes(out: *mut f32, out_len: usize) -> u32;
    }
}

/// The number of a refusal.
pub type Refusal = u32;

/// 20 words to a state, six numbers to a box.
#[derive(Clone, Copy)]
pub struct Tables<'a> {
    pub records: &'a [u32],
    pub shapes: &'a [f32],
}

/// The state of each cell at ((y * sizes z) + z) * sizes x + x, counted from the origin, then a word for each column at z * sizes x + x, 1 loaded
/// or 0 not, all in `cells`; and the world's lowest and highest y. A window of other than so many words is refused with 2.
#[derive(Clone, Copy)]
pub struct Window<'a> {
    pub cells: &'a [u32],
    pub origin: [i32; 3],
    pub sizes: [u32; 3],
    pub lowest: i32,
    pub highest: i32,
}

/// A body in the order of a scene file's first block, as hosts/boltjuniper.h has it. The last word is the cap: who relies on 6 at the 129th box
/// names `OLDER_CAP`.
#[derive(Clone, Copy)]
pub struct Body {
    pub numbers: [f64; 19],
    pub words: [u32; 7],
    pub age: u64,
}

#[derive(Clone, Copy, Debug, PartialEq)]
pub enum Liquid {
    None,
    Water,
    Lava,
}

/// Where a body's friction comes from: a block's, or why there is none; hosts/boltjuniper.h says when none is asked for.
#[derive(Clone, Copy, Debug, PartialEq)]
pub enum Support {
    NotAsked,
    Sampled(f64),
    Air,
    Unloaded,
    Unregistered,
}

#[derive(Clone, Copy, Debug, PartialEq)]
pub struct Tick {
    pub feet: [f64; 3],
    pub velocity: [f64; 3],
    pub ground: bool,
    pub liquid: Liquid,
    pub support: Support,
}

/// A fall record: how far a body has fallen since the last reset, and how far it fell to its last landing. The default is a fresh one.
#[derive(Clone, Copy, Debug, Default, PartialEq)]
pub struct Fall {
    pub sum: f64,
    pub landed: f64,
}

/// A window of the midnight run: its own words are `count` of those that are lent for all windows, from `first` on.
#[repr(C)]
#[derive(Clone, Copy)]
pub struct WindowRow {
    pub origin: [i32; 3],
    pub sizes: [u32; 3],
    pub lowest: i32,
    pub highest: i32,
    pub first: u32,
    pub count: u32,
}

/// A body of the midnight run: 21 numbers and ten words, as hosts/boltjuniper.h has them, or nine words of an older caller, whose cap is 128. Both are
/// lent row by row.
pub type BodyNumbers = [f64; 21];
pub type CappedWords = [u32; 10];
pub type BodyWords = [u32; 9];

/// The cap that older callers rely on.
pub const OLDER_CAP: u32 = 128;

/// What is written for a body: its refusal, then its tick with its fall record, as hosts/boltjuniper.h has them.
pub type AnswerNumbers = [f64; 13];

/// A party of the midnight run of two: its own windows over its own words, and its own bodies, which name those windows alone.
#[derive(Clone, Copy)]
pub struct Party<'a> {
    pub windows: &'a [WindowRow],
    pub cells: &'a [u32],
    pub numbers: &'a [BodyNumbers],
    pub words: &'a [CappedWords],
}

/// What each of two parties is told: Err is 1, 14 or 11, and its half is as it was.
#[derive(Clone, Copy, Debug, PartialEq)]
pub struct Refusals {
    pub first: Result<(), Refusal>,
    pub second: Result<(), Refusal>,
}

/// A box, min x y z and max x y z, with its delta, the step height, whether the body was on the ground, and how many boxes it may meet: 1 to 512, and 0
/// stands for 512.
#[derive(Clone, Copy)]
pub struct Mover {
    pub aabb: [f64; 6],
    pub delta: [f64; 3],
    pub step: f64,
    pub ground: bool,
    pub cap: u32,
}

/// The box after a move, the way that it went, and whether it came to stand on the ground.
#[derive(Clone, Copy, Debug, PartialEq)]
pub struct Moved {
    pub aabb: [f64; 6],
    pub moved: [f64; 3],
    pub ground: bool,
}

impl Mover {
    fn numbers(&self) -> [f64; 9] {
        let ([a, b, c, d, e, f], [x, y, z]) = (self.aabb, self.delta);
        [a, b, c, d, e, f, x, y, z]
    }
}

fn ticked(refusal: u32, out: [f64; 10]) -> Result<Tick, Refusal> {
    let [a, b, c, x, y, z, ground, liquid, case, friction] = out;
    let liquid = if liquid == 0.0 { Liquid::None } else if liquid == 1.0 { Liquid::Water } else { Liquid::Lava };
    let support = match case as u32 {
        0 => Support::NotAsked,
        1 => Support::Sampled(friction),
        2 => Support::Air,
        3 => Support::Unloaded,
        _ => Support::Unregistered,
    };
    if refusal == 0 { Ok(Tick { feet: [a, b, c], velocity: [x, y, z], ground: ground != 0.0, liquid, support }) } else { Err(refusal) }
}

fn fallen(refusal: u32, out: [f64; 12]) -> (Result<Tick, Refusal>, Fall) {
    let [a, b, c, x, y, z, ground, liquid, sum, landed, case, friction] = out;
    (ticked(refusal, [a, b, c, x, y, z, ground, liquid, case, friction]), Fall { sum, landed })
}

fn moved(refusal: u32, out: [f64; 10]) -> Result<Moved, Refusal> {
    let [a, b, c, d, e, f, x, y, z, ground] = out;
    if refusal == 0 { Ok(Moved { aabb: [a, b, c, d, e, f], moved: [x, y, z], ground: ground != 0.0 }) } else { Err(refusal) }
}

// Each call below hands over slices as pointer and length, and the linked function is proved to stay within them and to write to `out` alone.

/// Whether tables keep every rule: refusal 1 where they do not.
pub fn check_tables(t: Tables) -> Result<(), Refusal> {
    judged(unsafe { linked::boltjuniper_check_tables(t.records.as_ptr(), t.records.len(), t.shapes.as_ptr(), t.shapes.len()) })
}

fn judged(refusal: u32) -> Result<(), Refusal> {
    if refusal == 0 { Ok(()) } else { Err(refusal) }
}

/// One tick of a body.
pub fn step(t: Tables, w: Window, b: &Body) -> Result<Tick, Refusal> {
    let ([ox, oy, oz], [sx, sy, sz], mut out) = (w.origin, w.sizes, [0.0; 10]);
    let refusal = unsafe {
        linked::boltjuniper_step(
            t.records.as_ptr(), t.records.len(), t.shapes.as_ptr(), t.shapes.len(), w.cells.as_ptr(), w.cells.len(), ox, oy, oz, sx, sy, sz,
            w.lowest, w.highest, b.numbers.as_ptr(), b.numbers.len(), b.words.as_ptr(), b.words.len(), b.age, out.as_mut_ptr(), out.len(),
        )
    };
    ticked(refusal, out)
}

/// The same for tables and a window that were checked before: it looks for neither 1 nor 2, and is as safe. Its motion is finite where the tables pass
/// their check; of others a friction that is a NaN comes out as a velocity that is one.
pub fn step_checked(t: Tables, w: Window, b: &Body) -> Result<Tick, Refusal> {
    let ([ox, oy, oz], [sx, sy, sz], mut out) = (w.origin, w.sizes, [0.0; 10]);
    let refusal = unsafe {
        linked::boltjuniper_step_checked(
            t.records.as_ptr(), t.records.len(), t.shapes.as_ptr(), t.shapes.len(), w.cells.as_ptr(), w.cells.len(), ox, oy, oz, sx, sy, sz,
            w.lowest, w.highest, b.numbers.as_ptr(), b.numbers.len(), b.words.as_ptr(), b.words.len(), b.age, out.as_mut_ptr(), out.len(),
        )
    };
    ticked(refusal, out)
}

/// One tick of a body with its fall record, and the record after it. Where it is refused, the record that was handed in stays as it is.
pub fn step_falling(t: Tables, w: Window, b: &Body, fall: Fall) -> Result<(Tick, Fall), Refusal> {
    let ([ox, oy, oz], [sx, sy, sz], mut out) = (w.origin, w.sizes, [0.0; 12]);
    let refusal = unsafe {
        linked::boltjuniper_step_falling(
            t.records.as_ptr(), t.records.len(), t.shapes.as_ptr(), t.shapes.len(), w.cells.as_ptr(), w.cells.len(), ox, oy, oz, sx, sy, sz,
            w.lowest, w.highest, b.numbers.as_ptr(), b.numbers.len(), b.words.as_ptr(), b.words.len(), b.age, fall.sum, fall.landed,
            out.as_mut_ptr(), out.len(),
        )
    };
    let (tick, fall) = fallen(refusal, out);
    tick.map(|tick| (tick, fall))
}

impl Body {
    /// The rows of a body with its fall record in window number `window`.
    pub fn row(&self, fall: Fall, window: u32) -> (BodyNumbers, CappedWords) {
        let numbers = std::array::from_fn(|k| if k < 19 { self.numbers[k] } else { [fall.sum, fall.landed][k - 19] });
        let [a, b, c, d, e, f, cap] = self.words;
        (numbers, [window, self.age as u32, (self.age >> 32) as u32, a, b, c, d, e, f, cap])
    }
}

/// An answer's tick, or the body's own refusal; and its fall record after the tick, which a refusal hands back as it was.
pub fn answered(row: &AnswerNumbers) -> (Result<Tick, Refusal>, Fall) {
    fallen(row[0] as u32, std::array::from_fn(|k| row[k + 1]))
}

// As many as a call can be told of: more are refused all the same.
fn count(n: usize) -> u32 {
    u32::try_from(n).unwrap_or(u32::MAX)
}

/// The midnight run: one tick of each body, its answer in the row of its own number; rows of `out` beyond the bodies stay. `numbers` has a row for
/// each body, and so has `words`: a body without its words is refused with 3 in its own answer. Err is 1, 14 or 11, and nothing is written.
/// Several threads may share tables, windows and cells, each with its own part of the bodies and of `out`.
pub fn midnight_capped(
    t: Tables, windows: &[WindowRow], cells: &[u32], numbers: &[BodyNumbers], words: &[CappedWords], out: &mut [AnswerNumbers],
) -> Result<(), Refusal> {
    let (n, w, o) = (numbers.as_flattened(), words.as_flattened(), out.as_flattened_mut());
    let refusal = unsafe {
        linked::boltjuniper_midnight_capped(
            t.records.as_ptr(), t.records.len(), t.shapes.as_ptr(), t.shapes.len(), windows.as_ptr().cast(), windows.len() * 10, count(windows.len()),
            cells.as_ptr(), cells.len(), n.as_ptr(), n.len(), w.as_ptr(), w.len(), count(numbers.len()), o.as_mut_ptr(), o.len(),
        )
    };
    judged(refusal)
}

/// The same for older callers, whose rows have no cap: it is 128.
pub fn midnight(
    t: Tables, windows: &[WindowRow], cells: &[u32], numbers: &[BodyNumbers], words: &[BodyWords], out: &mut [AnswerNumbers],
) -> Result<(), Refusal> {
    let (n, w, o) = (numbers.as_flattened(), words.as_flattened(), out.as_flattened_mut());
    let refusal = unsafe {
        linked::boltjuniper_midnight(
            t.records.as_ptr(), t.records.len(), t.shapes.as_ptr(), t.shapes.len(), windows.as_ptr().cast(), windows.len() * 10, count(windows.len()),
            cells.as_ptr(), cells.len(), n.as_ptr(), n.len(), w.as_ptr(), w.len(), count(numbers.len()), o.as_mut_ptr(), o.len(),
        )
    };
    judged(refusal)
}

/// The midnight run of two parties over one table. The first party's answers go to the first half of `out`, row by row, the second's to the second; a
/// half is half the length, rounded down. Nothing that the other party hands in alters this party's refusal or its half.
pub fn midnight_two(t: Tables, first: Party, second: Party, out: &mut [f64]) -> Refusals {
    let [(n, w), (m, v)] = [first, second].map(|p| (p.numbers.as_flattened(), p.words.as_flattened()));
    let told = unsafe {
        linked::boltjuniper_midnight_two(
            t.records.as_ptr(), t.records.len(), t.shapes.as_ptr(), t.shapes.len(), first.windows.as_ptr().cast(), first.windows.len() * 10,
            count(first.windows.len()), first.cells.as_ptr(), first.cells.len(), n.as_ptr(), n.len(), w.as_ptr(), w.len(), count(first.numbers.len()),
            second.windows.as_ptr().cast(), second.windows.len() * 10, count(second.windows.len()), second.cells.as_ptr(), second.cells.len(), m.as_ptr(),
            m.len(), v.as_ptr(), v.len(), count(second.numbers.len()), out.as_mut_ptr(), out.len(),
        )
    };
    Refusals { first: judged(told as u32), second: judged((told >> 32) as u32) }
}

/// How many words the summary of a window of these sizes has: they stand behind those of its cells and columns.
pub fn summary_words(sizes: [u32; 3]) -> usize {
    sizes.iter().map(|s| s.div_ceil(4) as usize).product()
}

/// Writes the summary of a window, for this air state, behind cells and columns; `w.cells` is not looked at.
pub fn build_summary(t: Tables, words: &mut [u32], w: Window, air: u32) -> Result<(), Refusal> {
    let ([ox, oy, oz], [sx, sy, sz]) = (w.origin, w.sizes);
    judged(unsafe {
        linked::boltjuniper_build_summary(
            t.records.as_ptr(), t.records.len(), t.shapes.as_ptr(), t.shapes.len(), words.as_mut_ptr(), words.len(), ox, oy, oz, sx, sy, sz,
            w.lowest, w.highest, air,
        )
    })
}

/// Sets one cell of such words, and mends the word of its group.
pub fn set_block(t: Tables, words: &mut [u32], w: Window, air: u32, cell: [i32; 3], state: u32) -> Result<(), Refusal> {
    let ([ox, oy, oz], [sx, sy, sz], [x, y, z]) = (w.origin, w.sizes, cell);
    judged(unsafe {
        linked::boltjuniper_set_block(
            t.records.as_ptr(), t.records.len(), t.shapes.as_ptr(), t.shapes.len(), words.as_mut_ptr(), words.len(), ox, oy, oz, sx, sy, sz,
            w.lowest, w.highest, air, x, y, z, state,
        )
    })
}

/// The check of a window whose cells have a summary behind them. Where it is fine, `step_checked` may be called over it.
pub fn check_summary(t: Tables, w: Window, air: u32) -> Result<(), Refusal> {
    let ([ox, oy, oz], [sx, sy, sz]) = (w.origin, w.sizes);
    judged(unsafe {
        linked::boltjuniper_check_summary(
            t.records.as_ptr(), t.records.len(), t.shapes.as_ptr(), t.shapes.len(), w.cells.as_ptr(), w.cells.len(), ox, oy, oz, sx, sy, sz,
            w.lowest, w.highest, air,
        )
    })
}

/// The move through a window whose cells have a summary behind them.
pub fn move_summed(t: Tables, w: Window, air: u32, m: Mover) -> Result<Moved, Refusal> {
    let ([ox, oy, oz], [sx, sy, sz], mover, mut out) = (w.origin, w.sizes, m.numbers(), [0.0; 10]);
    let refusal = unsafe {
        linked::boltjuniper_move_summed(
            t.records.as_ptr(), t.records.len(), t.shapes.as_ptr(), t.shapes.len(), w.cells.as_ptr(), w.cells.len(), ox, oy, oz, sx, sy, sz,
            w.lowest, w.highest, air, mover.as_ptr(), mover.len(), m.step, m.ground as u32, m.cap, out.as_mut_ptr(), out.len(),
        )
    };
    moved(refusal, out)
}

/// One tick of a body over a window whose cells have a summary of its air state behind them.
pub fn step_summed(t: Tables, w: Window, b: &Body) -> Result<Tick, Refusal> {
    let ([ox, oy, oz], [sx, sy, sz], mut out) = (w.origin, w.sizes, [0.0; 10]);
    let refusal = unsafe {
        linked::boltjuniper_step_summed(
            t.records.as_ptr(), t.records.len(), t.shapes.as_ptr(), t.shapes.len(), w.cells.as_ptr(), w.cells.len(), ox, oy, oz, sx, sy, sz,
            w.lowest, w.highest, b.numbers.as_ptr(), b.numbers.len(), b.words.as_ptr(), b.words.len(), b.age, out.as_mut_ptr(), out.len(),
        )
    };
    ticked(refusal, out)
}

/// The same with its fall record.
pub fn step_falling_summed(t: Tables, w: Window, b: &Body, fall: Fall) -> Result<(Tick, Fall), Refusal> {
    let ([ox, oy, oz], [sx, sy, sz], mut out) = (w.origin, w.sizes, [0.0; 12]);
    let refusal = unsafe {
        linked::boltjuniper_step_falling_summed(
            t.records.as_ptr(), t.records.len(), t.shapes.as_ptr(), t.shapes.len(), w.cells.as_ptr(), w.cells.len(), ox, oy, oz, sx, sy, sz,
            w.lowest, w.highest, b.numbers.as_ptr(), b.numbers.len(), b.words.as_ptr(), b.words.len(), b.age, fall.sum, fall.landed,
            out.as_mut_ptr(), out.len(),
        )
    };
    let (tick, fall) = fallen(refusal, out);
    tick.map(|tick| (tick, fall))
}

/// The tick of a scene file. It reaches 165,472 bytes below its caller, with the words of the file: call it from a thread that has more.
pub fn tick(file: &[u8]) -> Result<Tick, Refusal> {
    let mut out = [0.0; 10];
    let refusal = unsafe { linked::boltjuniper_tick(file.as_ptr(), file.len(), out.as_mut_ptr(), out.len()) };
    ticked(refusal, out)
}

/// The move of a box through a window, whose sky and void are of the air state.
pub fn move_through(t: Tables, w: Window, air: u32, m: Mover) -> Result<Moved, Refusal> {
    let ([ox, oy, oz], [sx, sy, sz], mover, mut out) = (w.origin, w.sizes, m.numbers(), [0.0; 10]);
    let refusal = unsafe {
        linked::boltjuniper_move(
            t.records.as_ptr(), t.records.len(), t.shapes.as_ptr(), t.shapes.len(), w.cells.as_ptr(), w.cells.len(), ox, oy, oz, sx, sy, sz,
            w.lowest, w.highest, air, mover.as_ptr(), mover.len(), m.step, m.ground as u32, m.cap, out.as_mut_ptr(), out.len(),
        )
    };
    moved(refusal, out)
}

/// The move of a box over boxes of the host's own.
pub fn move_over_list(boxes: &[[f64; 6]], m: Mover) -> Result<Moved, Refusal> {
    let (boxes, mover, mut out) = (boxes.as_flattened(), m.numbers(), [0.0; 10]);
    let refusal = unsafe {
        linked::boltjuniper_move_over_list(
            boxes.as_ptr(), boxes.len(), mover.as_ptr(), mover.len(), m.step, m.ground as u32, m.cap, out.as_mut_ptr(), out.len(),
        )
    };
    moved(refusal, out)
}

/// How many events a log has at most.
pub const MOST_EVENTS: usize = 3719;

/// A body after so many ticks of a log.
#[derive(Clone, Copy, Debug, PartialEq)]
pub struct Minute {
    pub feet: [f64; 3],
    pub velocity: [f64; 3],
    pub ground: bool,
    pub fall: Fall,
    pub ticks: u32,
    pub age: u64,
}

/// A minute of a body: run through the events of a log, from a fresh fall record on. `words` are the cells and columns of the window, whose own are not
/// looked at, with room for a summary behind them (`summary_words`); the log's sets write to them. The feet after each tick go to `feet`, as far as
/// it reaches. It hands back the refusal that ended the run, 0 where none did, and the body then; none where it had made no tick.
pub fn minute(t: Tables, words: &mut [u32], w: Window, b: &Body, log: &[u8], feet: &mut [[f64; 3]]) -> (Refusal, Option<Minute>) {
    let ([ox, oy, oz], [sx, sy, sz], mut out) = (w.origin, w.sizes, [-1.0; 12]);
    let feet = feet.as_flattened_mut();
    let refusal = unsafe {
        linked::boltjuniper_minute(
            t.records.as_ptr(), t.records.len(), t.shapes.as_ptr(), t.shapes.len(), words.as_mut_ptr(), words.len(), ox, oy, oz, sx, sy, sz,
            w.lowest, w.highest, b.numbers.as_ptr(), b.numbers.len(), b.words.as_ptr(), b.words.len(), b.age, log.as_ptr(), log.len(),
            feet.as_mut_ptr(), feet.len(), out.as_mut_ptr(), out.len(),
        )
    };
    let [x, y, z, u, v, q, ground, sum, landed, ticks, low, high] = out;
    let after = Minute {
        feet: [x, y, z], velocity: [u, v, q], ground: ground == 1.0, fall: Fall { sum, landed }, ticks: ticks as u32,
        age: low as u64 | (high as u64) << 32,
    };
    (refusal, (ticks >= 0.0).then_some(after))
}

/// How many words the records of the classroom palette have, and its boxes numbers; its states are in hosts/boltjuniper.h.
pub const PALETTE_WORDS: usize = 4240;
pub const PALETTE_NUMBERS: usize = 3948;

/// Writes the records of the classroom palette; 11 where there is not the room, and then nothing is written.
pub fn palette_records(out: &mut [u32]) -> Result<(), Refusal> {
    judged(unsafe { linked::boltjuniper_palette_records(out.as_mut_ptr(), out.len()) })
}

/// Writes its boxes; likewise.
pub fn palette_boxes(out: &mut [f32]) -> Result<(), Refusal> {
    judged(unsafe { linked::boltjuniper_palette_boxes(out.as_mut_ptr(), out.len()) })
}

// ---- for recorders: link target/staticlib/librecorder.a. Nothing is allocated, and nothing panics.

/// 128 blocks: every scene has room in it.
pub const SCENE_BYTES: usize = 65536;

fn written(n: u64) -> Result<usize, Refusal> {
    if n < 512 { Err(n as Refusal) } else { Ok(n as usize) }
}

/// The scene file of a body, its tables and its window, of the new mark, into `out`: how many bytes it has. Bytes past it keep their values, and a refusal writes nothing:
/// 1 to 4 as `step` has them, then 12 for more than 128 blocks, then 11 for an `out` too short. Where no flap is present its number is written as zero.
pub fn write_scene(t: Tables, w: Window, b: &Body, out: &mut [u8]) -> Result<usize, Refusal> {
    let ([ox, oy, oz], [sx, sy, sz]) = (w.origin, w.sizes);
    written(unsafe {
        linked::boltjuniper_write_scene(
            t.records.as_ptr(), t.records.len(), t.shapes.as_ptr(), t.shapes.len(), w.cells.as_ptr(), w.cells.len(), ox, oy, oz, sx, sy, sz,
            w.lowest, w.highest, b.numbers.as_ptr(), b.numbers.len(), b.words.as_ptr(), b.words.len(), b.age, out.as_mut_ptr(), out.len(),
        )
    })
}

/// The same for what was checked before, as by `step`: it looks for none of 1 to 4, and is as safe.
pub fn write_checked(t: Tables, w: Window, b: &Body, out: &mut [u8]) -> Result<usize, Refusal> {
    let ([ox, oy, oz], [sx, sy, sz]) = (w.origin, w.sizes);
    written(unsafe {
        linked::boltjuniper_write_checked(
            t.records.as_ptr(), t.records.len(), t.shapes.as_ptr(), t.shapes.len(), w.cells.as_ptr(), w.cells.len(), ox, oy, oz, sx, sy, sz,
            w.lowest, w.highest, b.numbers.as_ptr(), b.numbers.len(), b.words.as_ptr(), b.words.len(), b.age, out.as_mut_ptr(), out.len(),
        )
    })
}

/// An event of a minute: a tick, or a cell that became a state, counted from the window's origin.
#[derive(Clone, Copy, Debug, PartialEq)]
pub enum Event {
    Tick,
    Set([u8; 3], u32),
}

/// Its four words, as `write_log` takes them one behind the other.
pub fn event_words(e: Event) -> [u32; 4] {
    match e {
        Event::Tick => [1, 0, 0, 0],
        Event::Set([x, y, z], state) => [2, u32::from_le_bytes([x, y, z, 0]), state, 0],
    }
}

/// The log of a minute behind the scene that `out` begins with, as one of the two above wrote it: how many bytes both have together. A refusal writes
/// nothing: 8 where there is no such scene or an event's words are none, then 12 for more than 128 blocks together, then 11 for an `out` too short.
pub fn write_log(events: &[u32], out: &mut [u8]) -> Result<usize, Refusal> {
    written(unsafe { linked::boltjuniper_write_log(events.as_ptr(), events.len(), out.as_mut_ptr(), out.len()) })
}
