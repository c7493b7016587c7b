//! Holds the functions of hosts/boltjuniper.rs to the stored answers of the original Rust (docs/VECTORS.md). Run by hosts/run.
mod boltjuniper;
use boltjuniper::*;

struct Scene {
    body: Body,
    records: Vec<u32>,
    shapes: Vec<f32>,
    cells: Vec<u32>,
    origin: [i32; 3],
    sizes: [u32; 3],
    lowest: i32,
    highest: i32,
}

// The parts of a file that is a scene, so that every block is there.
fn scene(file: &[u8]) -> Scene {
    let words: Vec<u32> = file.chunks_exact(4).map(|b| u32::from_le_bytes(b.try_into().unwrap())).collect();
    let mut blocks = words.chunks_exact(128);
    let mut part = |per: usize, words: u32| -> Vec<u32> {
        let count = (words as usize).div_ceil(per);
        let mut out: Vec<u32> = blocks.by_ref().take(count).flat_map(|w| w[3..3 + per].to_vec()).collect();
        out.truncate(words as usize);
        out
    };
    let b = part(49, 49);
    let records = part(120, 20 * b[46]);
    let shapes = part(120, 6 * b[47]).into_iter().map(f32::from_bits).collect();
    let w = part(8, 8);
    let sizes = [w[3], w[4], w[5]];
    let cells = part(123, w[3] * w[4] * w[5] + w[3] * w[5]);
    let wide = |k: usize| b[2 * k] as u64 | (b[2 * k + 1] as u64) << 32;
    let body = Body { numbers: std::array::from_fn(|k| f64::from_bits(wide(k))), words: std::array::from_fn(|k| if k < 6 { b[40 + k] } else { b[48] }), age: wide(19) };
    let origin = [w[0] as i32, w[1] as i32, w[2] as i32];
    Scene { body, records, shapes, cells, origin, sizes, lowest: w[6] as i32, highest: w[7] as i32 }
}

fn bits(numbers: &[f64]) -> String {
    numbers.iter().map(|x| format!(" {:016x}", x.to_bits())).collect()
}

// As the stored line has it: the original's answers have the case of its sample for some scenes and not for others.
fn tick_text(a: Result<Tick, Refusal>, theirs: &str) -> String {
    match a {
        Err(n) => format!("refused {n}"),
        Ok(t) => {
            let liquid = format!("{:?}", t.liquid).to_lowercase();
            let case = match t.support {
                Support::NotAsked => "not asked".to_string(),
                Support::Sampled(friction) => format!("sampled{}", bits(&[friction])),
                other => format!("{other:?}").to_lowercase(),
            };
            let case = if theirs.contains("; friction") { format!("; friction {case}") } else { String::new() };
            format!("feet{}; velocity{}; ground {}; liquid {liquid}{case}", bits(&t.feet), bits(&t.velocity), t.ground as u32)
        }
    }
}

// A refused move returns its box, moved zero, ground false.
fn move_text(m: Mover, a: Result<Moved, Refusal>) -> String {
    let refusal = a.err().map_or(String::new(), |n| format!("refused {n} "));
    let r = a.unwrap_or(Moved { aabb: m.aabb, moved: [0.0; 3], ground: false });
    format!("{refusal}box{} moved{} ground {}", bits(&r.aabb), bits(&r.moved), r.ground as u32)
}

// A file under the new mark with its two checks, as a writer makes it of a scene of either mark.
fn renewed(file: &[u8]) -> Vec<u8> {
    let mut words: Vec<u32> = file.chunks_exact(4).map(|b| u32::from_le_bytes(b.try_into().unwrap())).collect();
    for w in words.chunks_exact_mut(128) {
        w[0] = u32::from_le_bytes(*b"SCN2");
        w[126] = w[..126].iter().zip(1u32..).fold(0, |sum, (x, k)| sum.wrapping_add(x.wrapping_mul(k)));
        w[127] = w[..127].iter().fold(0, |sum, &x| sum.wrapping_add(x));
    }
    words.iter().flat_map(|w| w.to_le_bytes()).collect()
}

// A scene written anew, into a buffer that was full of 170: bytes past the scene are kept, and a refusal keeps them all.
fn written_text(a: Result<usize, Refusal>, out: &[u8], file: &[u8]) -> String {
    let (n, text) = a.map_or_else(|n| (0, format!("refused {n}")), |n| (n, String::from(if out[..n] == *file { "same" } else { "another file" })));
    if out[n..].iter().all(|&b| b == 170) { text } else { format!("{text}, and something past it written") }
}

#[derive(Default)]
struct Count(usize, usize);

impl Count {
    fn add(&mut self, what: &str, ours: &str, theirs: &str) {
        if ours == theirs {
            self.0 += 1;
        } else {
            self.1 += 1;
            println!("{what}: {ours}, and the vectors have {theirs}");
        }
    }
    fn tell(self, what: &str) -> bool {
        println!("Rust, {what}: {} agree, {} differ", self.0, self.1);
        self.1 == 0 && self.0 > 0
    }
}

fn fall_text(a: Result<(Tick, Fall), Refusal>) -> String {
    a.map_or_else(|n| format!("refused {n}"), |(_, f)| format!("fall{}", bits(&[f.sum, f.landed])))
}

// Case A's step with a record: what is refused, and what the record is after a landing and after a fall through the sky.
fn fall_records(falls: &mut Count) {
    let mut records = [0; 40];
    (records[0], records[20], records[28], records[39]) = (1, 3, 1, 15);
    let t = Tables { records: &records, shapes: &[0.0, 0.0, 0.0, 1.0, 1.0, 1.0] };
    let cells: [u32; 20] = std::array::from_fn(|k| !(8..16).contains(&k) as u32);
    let w = Window { cells: &cells, origin: [0, -1, 0], sizes: [2, 4, 2], lowest: -64, highest: 319 };
    let mut after = |y: f64, gravity: f64, sum: f64, landed: f64, theirs: Result<(f64, f64), Refusal>| {
        let mut numbers = [0.0; 19];
        numbers[..12].copy_from_slice(&[0.5, y, 0.5, 0.25, 0.0, 0.0, 1.0, 1.0, 0.0, gravity, 0.5, 0.5]);
        let body = Body { numbers, words: [0, 3, 0, 0, 0, 0, 0], age: 0 };
        let theirs = theirs.map_or_else(|n| format!("refused {n}"), |(s, l)| format!("fall{}", bits(&[s, l])));
        falls.add("fall record", &fall_text(step_falling(t, w, &body, Fall { sum, landed })), &theirs);
    };
    let most = 1_073_741_824.0_f64;
    let more = f64::from_bits(most.to_bits() + 1);
    for bad in [more, -5e-324, -1.0, f64::NAN, f64::INFINITY, f64::NEG_INFINITY] {
        after(1.25, 0.5, bad, 0.0, Err(3));
        after(1.25, 0.5, 0.0, bad, Err(3));
        after(f64::NAN, 0.5, bad, 0.0, Err(3));
    }
    after(f64::NAN, 0.5, 0.0, 0.0, Err(4));
    after(1.25, 17.0, 0.0, 0.0, Err(3));
    for (y, (sum, landed), theirs) in [
        (1.25, (2.0, 9.0), (0.0, 2.25)), // a drop of 0.25 to the ground
        (1.25, (most, 0.0), (0.0, most)),
        (400.25, (1.5, 9.0), (2.0, 9.0)), // a drop of 0.5 in the sky
        (400.25, (most, 9.0), (most, 9.0)),
        (400.25, (-0.0, -0.0), (0.5, -0.0)),
    ] {
        after(y, 0.5, sum, landed, Ok(theirs));
    }
}

// The scene's body three times, the second time in a window that is not there: the others' answers are as alone, and a refusal hands back.
fn nights(count: &mut Count, name: &str, t: Tables, w: Window, body: &Body, theirs: &str) {
    let row = WindowRow { origin: w.origin, sizes: w.sizes, lowest: w.lowest, highest: w.highest, first: 0, count: w.cells.len() as u32 };
    let fall = Fall { sum: 1.5, landed: 2.5 };
    let (numbers, words): (Vec<_>, Vec<_>) = [0, 1, 0].iter().map(|&k| body.row(fall, k)).unzip();
    let mut out = [[7.0; 13]; 4];
    let told = midnight_capped(t, &[row], w.cells, &numbers, &words, &mut out);
    // the first party has all three, the second the last two: both halves are as the call alone answered, and what lies beyond is kept
    let mut both = [7.0; 105];
    let party = |from: usize| Party { windows: std::slice::from_ref(&row), cells: w.cells, numbers: &numbers[from..], words: &words[from..] };
    let pair = midnight_two(t, party(0), party(1), &mut both);
    let mut rest = out;
    rest.copy_within(1..3, 0);
    rest[2] = [7.0; 13];
    let alone = [out.as_flattened(), rest.as_flattened(), &[7.0]].concat();
    count.add(name, &format!("{pair:?} {}", bits(&both)), &format!("{:?} {}", Refusals { first: told, second: told }, bits(&alone)));
    if theirs == "refused 1" {
        count.add(name, &format!("{told:?} {}", out == [[7.0; 13]; 4]), "Err(1) true");
        return;
    }
    count.add(name, &format!("{told:?} {}", out[3] == [7.0; 13]), "Ok(()) true");
    for (k, row) in out[..3].iter().enumerate() {
        let (tick, after) = answered(row);
        count.add(name, &tick_text(tick, theirs), if k == 1 { "refused 10" } else { theirs });
        if tick.is_err() {
            let given = [&body.numbers[..6], &[f64::from(body.words[0]), 0.0, 1.5, 2.5, 0.0, 0.0]].concat();
            count.add(name, &bits(&row[1..]), &bits(&given));
        } else {
            let alone = step_falling(t, w, body, fall).map(|(_, fall)| fall);
            count.add(name, &format!("{alone:?}"), &format!("{:?}", Ok::<Fall, Refusal>(after)));
        }
    }
}

// An older caller's row, without the cap: its answer is that of the step under 128.
fn older_night(count: &mut Count, name: &str, t: Tables, w: Window, body: &Body) {
    let row = WindowRow { origin: w.origin, sizes: w.sizes, lowest: w.lowest, highest: w.highest, first: 0, count: w.cells.len() as u32 };
    let (numbers, words) = body.row(Fall::default(), 0);
    let older: BodyWords = words[..9].try_into().unwrap();
    let mut named = *body;
    named.words[6] = OLDER_CAP;
    let mut out = [[7.0; 13]];
    let told = midnight(t, &[row], w.cells, &[numbers], &[older], &mut out).and_then(|()| answered(&out[0]).0);
    count.add(name, &format!("{told:?}"), &format!("{:?}", step(t, w, &named)));
}

// Calls that are refused whole: nothing is written.
fn whole_nights(count: &mut Count) {
    let mut records = [0; 40];
    (records[0], records[20], records[28], records[39]) = (1, 3, 1, 15);
    let mut wrong = records;
    wrong[39] = 14;
    let shapes = [0.0, 0.0, 0.0, 1.0, 1.0, 1.0];
    let cells: [u32; 20] = std::array::from_fn(|k| !(8..16).contains(&k) as u32);
    let row = WindowRow { origin: [0, -1, 0], sizes: [2, 4, 2], lowest: -64, highest: 319, first: 0, count: 20 };
    let mut numbers = [0.0; 19];
    numbers[..12].copy_from_slice(&[0.5, 1.25, 0.5, 0.25, 0.0, 0.0, 1.0, 1.0, 0.0, 0.5, 0.5, 0.5]);
    let (numbers, words) = Body { numbers, words: [0, 3, 0, 0, 0, 0, 0], age: 0 }.row(Fall::default(), 0);
    let mut refused = |what: &str, records: &[u32], windows: usize, bodies: usize, room: usize, theirs: Result<(), Refusal>| {
        let mut out = vec![[7.0; 13]; room];
        let t = Tables { records, shapes: &shapes };
        let told = midnight_capped(t, &vec![row; windows], &cells, &vec![numbers; bodies], &vec![words; bodies], &mut out);
        let kept = out.iter().all(|r| *r == [7.0; 13]);
        count.add(what, &format!("{told:?} {kept}"), &format!("{theirs:?} {}", theirs.is_err() || bodies == 0));
    };
    refused("4,096 bodies", &records, 16, 4096, 4096, Ok(()));
    refused("4,097 bodies", &records, 16, 4097, 4097, Err(14));
    refused("17 windows", &records, 17, 4096, 4096, Err(14));
    refused("a row short", &records, 16, 4096, 4095, Err(11));
    refused("14 before 11", &records, 17, 4096, 0, Err(14));
    refused("a wrong word", &wrong, 16, 4096, 4096, Err(1));
    refused("1 before 14", &wrong, 17, 4097, 0, Err(1));
    refused("nothing at all", &records, 0, 0, 1, Ok(()));

    // two parties, each with so many windows and bodies: a party that is not refused has the answer of the body alone in each of its rows
    let mut alone = [[7.0; 13]];
    let t = Tables { records: &records, shapes: &shapes };
    count.add("alone", &format!("{:?}", midnight_capped(t, &[row], &cells, &[numbers], &[words], &mut alone)), "Ok(())");
    let mut pair = |what: &str, records: &[u32], sides: [(usize, usize, Result<(), Refusal>); 2], room: usize| {
        let (mut out, mut theirs) = (vec![7.0; room], vec![7.0; room]);
        for (k, (_, bodies, told)) in sides.iter().enumerate() {
            if told.is_ok() {
                theirs[k * (room / 2)..][..bodies * 13].copy_from_slice(alone.repeat(*bodies).as_flattened());
            }
        }
        let rows = sides.map(|(windows, bodies, _)| (vec![row; windows], vec![numbers; bodies], vec![words; bodies]));
        let [a, b] = [0, 1].map(|k| Party { windows: &rows[k].0, cells: &cells, numbers: &rows[k].1, words: &rows[k].2 });
        let told = midnight_two(Tables { records, shapes: &shapes }, a, b, &mut out);
        let fine = Refusals { first: sides[0].2, second: sides[1].2 };
        count.add(what, &format!("{told:?} {}", out == theirs), &format!("{fine:?} true"));
    };
    let (full, none) = ((16, 2048, Ok(())), (0, 0, Ok(())));
    pair("2,048 bodies each", &records, [full, full], 4096 * 13 + 1);
    pair("2,049 bodies and 2,048", &records, [(16, 2049, Err(14)), full], 4096 * 13);
    pair("2,048 bodies and 17 windows", &records, [full, (17, 1, Err(14))], 4096 * 13 + 1);
    pair("a half that is short for one", &records, [(16, 4, Err(11)), (16, 3, Ok(()))], 7 * 13);
    pair("14 before 11", &records, [(1, 3, Ok(())), (17, 2049, Err(14))], 7 * 13);
    pair("nothing and three bodies", &records, [none, (1, 3, Ok(()))], 7 * 13);
    pair("a wrong word, for both", &wrong, [(17, 1, Err(1)), (0, 0, Err(1))], 7 * 13);
}

// Case A of the requirements: what its step does to the box; its window with other words, sizes, heights and air; and its body beyond the world.
/// Numbers that look random, the same at each run.
struct Random(u64);
impl Random {
    fn below(&mut self, n: u64) -> u64 {
        self.0 ^= self.0 << 13;
        self.0 ^= self.0 >> 7;
        self.0 ^= self.0 << 17;
        self.0 % n
    }
}

// With a summary every answer is that of the plain call: over the scene as it is, and after each of some sets at random cells. Where tables, window or air
// state are refused, so is all of it, and nothing is written.
fn summaries(c: &mut Count, name: &str, t: Tables, w: Window, body: &Body, random: &mut Random) {
    let air = body.words[5];
    let mut words = w.cells.to_vec();
    words.extend(std::iter::repeat_n(7, summary_words(w.sizes)));
    let before = words.clone();
    let none = Mover { aabb: [0.0; 6], delta: [0.0; 3], step: 5.0, ground: false, cap: 0 };
    let first = move_through(t, w, air, none).err().filter(|n| *n < 3).or_else(|| move_through(t, w, air, Mover { step: 0.0, ..none }).err().filter(|n| *n == 3));
    let built = build_summary(t, &mut words, w, air);
    if let Some(n) = first {
        c.add(name, &format!("{built:?} {}", words == before), &format!("{:?} true", Err::<(), u32>(n)));
        return;
    }
    c.add(name, &format!("{built:?}"), "Ok(())");
    let feet = [body.numbers[0], body.numbers[1], body.numbers[2]];
    let m = Mover { aabb: [feet[0] - 0.4, feet[1], feet[2] - 0.4, feet[0] + 0.4, feet[1] + 1.5, feet[2] + 0.4], delta: [0.5, -0.75, 0.25], step: 0.5, ground: true, cap: body.words[6] };
    let count = (w.sizes[0] * w.sizes[1] * w.sizes[2]) as usize;
    let plain = w.cells.len();
    for turn in 0..6 {
        let (with, without) = (Window { cells: &words, ..w }, Window { cells: &words[..plain], ..w });
        let same = |a: String, b: String, c: &mut Count| c.add(name, &a, &b);
        same(format!("{:?}", step_summed(t, with, body)), format!("{:?}", step(t, without, body)), c);
        same(format!("{:?}", step_checked(t, with, body)), format!("{:?}", step_checked(t, without, body)), c);
        same(format!("{:?}", step_falling_summed(t, with, body, Fall::default())), format!("{:?}", step_falling(t, without, body, Fall::default())), c);
        same(format!("{:?}", move_summed(t, with, air, m)), format!("{:?}", move_through(t, without, air, m)), c);
        // a row of the midnight run, with the summary and its air state behind its words, and with a body of another air state
        let mut row: Vec<u32> = words.clone();
        row.push(air);
        let rows = [WindowRow { origin: w.origin, sizes: w.sizes, lowest: w.lowest, highest: w.highest, first: 0, count: row.len() as u32 }];
        for other in [air, air ^ 1] {
            let mut b = *body;
            b.words[5] = other;
            let (numbers, own) = b.row(Fall::default(), 0);
            let mut out = [[0.0; 13]];
            let run = midnight_capped(t, &rows, &row, &[numbers], &[own], &mut out);
            let theirs = step_falling(t, without, &b, Fall::default());
            let ours = answered(&out[0]);
            same(format!("{run:?} {:?}", ours.0.map(|tick| (tick, ours.1))), format!("Ok(()) {theirs:?}"), c);
        }
        // the words are those built afresh
        let mut afresh = words.clone();
        build_summary(t, &mut afresh, w, air).unwrap();
        same(format!("{}", words == afresh), "true".to_string(), c);
        same(format!("{:?}", check_summary(t, with, air)), "Ok(())".to_string(), c);
        // a wrong word is 13, and a summary of the wrong length 11, unless the step has a refusal before that
        let early = step(t, without, body).err().filter(|n| *n < 5);
        let mut wrong = words.clone();
        let place = plain + random.below((wrong.len() - plain) as u64) as usize;
        wrong[place] ^= 1;
        same(format!("{:?}", step_summed(t, Window { cells: &wrong, ..w }, body).err()), format!("{:?}", early.or(Some(13))), c);
        same(format!("{:?}", step_summed(t, Window { cells: &words[..words.len() - 1], ..w }, body).err()), format!("{:?}", early.or(Some(11))), c);
        let mut row = wrong.clone();
        row.push(air);
        let (numbers, own) = body.row(Fall::default(), 0);
        let mut out = [[0.0; 13]];
        midnight_capped(t, &rows, &row, &[numbers], &[own], &mut out).unwrap();
        same(format!("{:?}", answered(&out[0]).0.err()), format!("{:?}", early.or(Some(13))), c);
        let kept = wrong.clone();
        let told = set_block(t, &mut wrong, w, air, w.origin, 0);
        same(format!("{told:?} {}", wrong == kept), "Err(13) true".to_string(), c);
        // outside the window
        let kept = words.clone();
        let beyond = [w.origin[0], w.origin[1] + w.sizes[1] as i32, w.origin[2]];
        let told = set_block(t, &mut words, w, air, beyond, 0);
        same(format!("{told:?} {}", words == kept), "Err(5) true".to_string(), c);
        // another cell
        let place = random.below(count as u64) as usize;
        let (x, y, z) = (place as u32 % w.sizes[0], place as u32 / w.sizes[0] / w.sizes[2], place as u32 / w.sizes[0] % w.sizes[2]);
        let state = if turn % 2 == 0 { air } else { random.below(t.records.len() as u64 / 20 + 1) as u32 };
        let cell = [w.origin[0] + x as i32, w.origin[1] + y as i32, w.origin[2] + z as i32];
        same(format!("{:?} {}", set_block(t, &mut words, w, air, cell, state), words[place]), format!("Ok(()) {state}"), c);
    }
}

fn case_a(moves: &mut Count, windows: &mut Count) {
    let mut records = [0; 40];
    (records[0], records[20], records[28], records[39]) = (1, 3, 1, 15);
    let t = Tables { records: &records, shapes: &[0.0, 0.0, 0.0, 1.0, 1.0, 1.0] };
    // 16 cells and four columns, with one more word behind them
    let cells: [u32; 21] = std::array::from_fn(|k| !(8..16).contains(&k) as u32);
    let w = Window { cells: &cells[..20], origin: [0, -1, 0], sizes: [2, 4, 2], lowest: -64, highest: 319 };
    let m = Mover { aabb: [0.0, 1.25, 0.0, 1.0, 2.25, 1.0], delta: [0.25, -0.5, 0.0], step: 0.0, ground: false, cap: 0 };
    let theirs = Moved { aabb: [0.25, 1.0, 0.0, 1.25, 2.0, 1.0], moved: [0.25, -0.25, 0.0], ground: true };
    moves.add("case A", &move_text(m, move_through(t, w, 0, m)), &move_text(m, Ok(theirs)));

    let body = |y: f64, air: u32| {
        let mut numbers = [0.0; 19];
        numbers[..12].copy_from_slice(&[0.5, y, 0.5, 0.25, 0.0, 0.0, 1.0, 1.0, 0.0, 0.5, 0.5, 0.5]);
        Body { numbers, words: [0, 3, 0, 0, 0, air, 0], age: 0 }
    };
    let changed = |at: usize, to: u32| -> Vec<u32> { cells[..20].iter().enumerate().map(|(k, &c)| if k == at { to } else { c }).collect() };
    let (two, strange) = (changed(19, 2), changed(0, u32::MAX));
    let refusals = [
        ("as it is", w, 0, 0),
        ("lowest over highest", Window { lowest: 320, ..w }, 0, 2),
        ("lowest beyond its limit", Window { lowest: -33_554_433, ..w }, 0, 2),
        ("highest beyond its limit", Window { highest: 33_554_433, ..w }, 0, 2),
        ("a column of 2", Window { cells: &two, ..w }, 0, 2),
        ("a column too few", Window { cells: &cells[..19], ..w }, 0, 2),
        ("a column too many", Window { cells: &cells, ..w }, 0, 2),
        ("no columns", Window { cells: &cells[..16], ..w }, 0, 2),
        ("no words", Window { cells: &[], ..w }, 0, 2),
        ("an unregistered cell", Window { cells: &strange, ..w }, 0, 0),
        ("air without a record", w, 2, 3),
        ("air without a record, and a column of 2", Window { cells: &two, ..w }, 2, 2),
        ("a column is not there", Window { cells: &cells[..10], sizes: [1, 4, 2], ..w }, 0, 5),
        ("begins above what is asked for", Window { origin: [0, 0, 0], ..w }, 0, 5),
        ("unless that is below the world", Window { origin: [0, 0, 0], lowest: 0, ..w }, 0, 0),
    ];
    for (what, w, air, theirs) in refusals {
        windows.add(what, &step(t, w, &body(1.25, air)).err().unwrap_or(0).to_string(), &theirs.to_string());
        windows.add(what, &move_through(t, w, air, m).err().unwrap_or(0).to_string(), &theirs.to_string());
    }
    // It falls as through a window that holds air there; columns that are not loaded, to the east, stop it at every height.
    let air: Vec<u32> = (0..20).map(|k| (k > 15) as u32).collect();
    let half: Vec<u32> = (0..20).map(|k| (k == 16 || k == 18) as u32).collect();
    for (y, low) in [(400.25, 398), (-100.75, -103)] {
        let falls = Tick { feet: [0.75, y - 0.5, 0.5], velocity: [0.125, -0.25, 0.0], ground: false, liquid: Liquid::None, support: Support::NotAsked };
        let stopped = Tick { feet: [0.5, y - 0.5, 0.5], velocity: [0.0, -0.25, 0.0], ..falls };
        let told = |w: Window| format!("{:?}", step(t, w, &body(y, 0)));
        windows.add("beyond the world", &told(w), &format!("{:?}", Ok::<Tick, Refusal>(falls)));
        windows.add("held as air", &told(Window { cells: &air, origin: [0, low, 0], lowest: -999, highest: 999, ..w }), &format!("{:?}", Ok::<Tick, Refusal>(falls)));
        windows.add("beside columns that are not loaded", &told(Window { cells: &half, ..w }), &format!("{:?}", Ok::<Tick, Refusal>(stopped)));
    }
}

/// The numbers added up, and the first sum after each of them, wrapping, as crates/palette_runs has them.
fn sums(numbers: impl Iterator<Item = u64>) -> String {
    let (mut each, mut after) = (0u64, 0u64);
    for n in numbers {
        each = each.wrapping_add(n);
        after = after.wrapping_add(each);
    }
    format!("{each} {after}")
}

// A scene with a log of random events behind it: a minute leaves what the same ticks and sets leave that are made one by one, over cells and columns; and
// where the log is no log, or a word is missing, nothing is written.
fn minutes(c: &mut Count, name: &str, t: Tables, w: Window, body: &Body, random: &mut Random) {
    let [x, y, z] = w.sizes;
    let cell = |random: &mut Random| {
        let beside = u64::from(random.below(20) == 0);
        [x, y, z].map(|n| random.below(u64::from(n) + beside) as u8)
    };
    let events: Vec<Event> = (0..random.below(80))
        .map(|_| if random.below(3) > 0 { Event::Tick } else { Event::Set(cell(random), random.below(t.records.len() as u64 / 20) as u32) })
        .collect();
    let words: Vec<u32> = events.iter().flat_map(|e| event_words(*e)).collect();
    let mut log = vec![170; SCENE_BYTES];
    let scene = write_scene(t, w, body, &mut log).unwrap();
    let bytes = scene + 512 * (words.len() / 120 + 1);
    let told = write_log(&words, &mut log);
    c.add(name, &format!("{told:?}"), &format!("{:?}", if bytes > SCENE_BYTES { Err(12) } else { Ok(bytes) }));
    if told.is_err() {
        return;
    }
    let mut cells = w.cells.to_vec();
    let (mut b, mut fall, mut feet, mut refusal) = (*body, Fall::default(), vec![], 0);
    for e in &events {
        match *e {
            Event::Set([i, j, k], state) if u32::from(i) < x && u32::from(j) < y && u32::from(k) < z => {
                cells[((u32::from(j) * z + u32::from(k)) * x + u32::from(i)) as usize] = state;
            }
            Event::Set(..) => refusal = 5,
            Event::Tick => match step_falling(t, Window { cells: &cells, ..w }, &b, fall) {
                Err(n) => refusal = n,
                Ok((tick, after)) => {
                    b.numbers[..3].copy_from_slice(&tick.feet);
                    b.numbers[3..6].copy_from_slice(&tick.velocity);
                    b.words[0] = u32::from(tick.ground);
                    b.age = b.age.wrapping_add(1);
                    fall = after;
                    feet.push(tick.feet);
                }
            },
        }
        if refusal != 0 {
            break;
        }
    }
    let vec = |k: usize| [b.numbers[k], b.numbers[k + 1], b.numbers[k + 2]];
    let after = Minute { feet: vec(0), velocity: vec(3), ground: b.words[0] == 1, fall, ticks: feet.len() as u32, age: b.age };
    let after = (refusal == 0 || !feet.is_empty()).then_some(after);
    cells.extend(std::iter::repeat_n(7, summary_words(w.sizes)));
    build_summary(t, &mut cells, w, body.words[5]).unwrap();
    let mut roomy = w.cells.to_vec();
    roomy.extend(std::iter::repeat_n(7, summary_words(w.sizes)));
    let (mut ours, mut lines) = (roomy.clone(), vec![[7.0; 3]; MOST_EVENTS]);
    let left = minute(t, &mut ours, w, body, &log[..bytes], &mut lines);
    feet.resize(MOST_EVENTS, [7.0; 3]);
    c.add(name, &format!("{left:?} {} {}", lines == feet, ours == cells), &format!("{:?} true true", (refusal, after)));
    for (theirs, end, words) in [(8, bytes - 1, roomy.len()), (8, scene, roomy.len()), (11, bytes, roomy.len() - 1), (2, bytes, w.cells.len() - 1)] {
        let (mut ours, mut lines) = (roomy.clone(), vec![[7.0; 3]; MOST_EVENTS]);
        let left = minute(t, &mut ours[..words], w, body, &log[..end], &mut lines);
        c.add(name, &format!("{left:?} {} {}", lines == vec![[7.0; 3]; MOST_EVENTS], ours == roomy), &format!("{:?} true true", (theirs, None::<Minute>)));
    }
}

/// The tables of the classroom palette, in buffers that are one too short and one too long, against what crates/palette_runs must write.
fn classroom(c: &mut Count) {
    let stored = std::fs::read_to_string("crates/palette_runs/stdout").unwrap();
    let theirs = |what: &str| stored.lines().find_map(|l| l.strip_prefix(what)?.strip_prefix(": ")).unwrap().to_owned();
    let (mut words, mut numbers) = (vec![7u32; PALETTE_WORDS + 1], vec![7f32; PALETTE_NUMBERS + 1]);
    for (room, what) in [(PALETTE_WORDS - 1, "records, a word short"), (PALETTE_WORDS + 1, "records")] {
        let refusal = palette_records(&mut words[..room]).err().unwrap_or(0);
        c.add(what, &format!("{refusal} {}", sums(words[..room].iter().map(|w| u64::from(*w)))), &theirs(what));
    }
    for (room, what) in [(PALETTE_NUMBERS - 1, "boxes, a number short"), (PALETTE_NUMBERS + 1, "boxes")] {
        let refusal = palette_boxes(&mut numbers[..room]).err().unwrap_or(0);
        c.add(what, &format!("{refusal} {}", sums(numbers[..room].iter().map(|x| f64::from(*x).to_bits()))), &theirs(what));
    }
    let t = Tables { records: &words[..PALETTE_WORDS], shapes: &numbers[..PALETTE_NUMBERS] };
    c.add("the table check", &format!("{} 0 0", check_tables(t).err().unwrap_or(0)), &theirs("the table check"));
}

fn main() {
    let stored = std::fs::read_to_string("crates/replay/stdout").unwrap();
    let (scenes, calls): (Vec<&str>, Vec<&str>) = stored.lines().partition(|l| l.starts_with(|c: char| c.is_ascii_digit()));
    let [mut ticks, mut steps, mut checked, mut tables, mut moves, mut lists, mut windows, mut falls, mut night, mut writes, mut palette, mut summed, mut minute_runs] = std::array::from_fn(|_| Count::default());
    // after NUMBER fall SUM LANDED: the record after the scene's tick, from a fresh one
    let after: std::collections::HashMap<&str, &str> = calls.iter().filter_map(|l| l.strip_prefix("after ")?.split_once(' ')).collect();
    let mut random = Random(0x9e37_79b9_7f4a_7c15);
    for line in scenes {
        let (name, theirs) = line.split_once(' ').unwrap();
        let file = std::fs::read(format!("crates/replay/data/{name}.scn")).unwrap();
        ticks.add(name, &tick_text(tick(&file), theirs), theirs);
        if theirs == "refused 8" {
            continue;
        }
        let s = scene(&file);
        let t = Tables { records: &s.records, shapes: &s.shapes };
        let w = Window { cells: &s.cells, origin: s.origin, sizes: s.sizes, lowest: s.lowest, highest: s.highest };
        steps.add(name, &tick_text(step(t, w, &s.body), theirs), theirs);
        let fallen = step_falling(t, w, &s.body, Fall::default());
        falls.add(name, &tick_text(fallen.map(|(tick, _)| tick), theirs), theirs);
        if let Some(record) = after.get(name) {
            falls.add(name, &fall_text(fallen), record);
        }
        nights(&mut night, name, t, w, &s.body, theirs);
        older_night(&mut night, name, t, w, &s.body);
        summaries(&mut summed, name, t, w, &s.body, &mut random);
        let early = theirs == "refused 1" || theirs == "refused 2";
        tables.add(name, &check_tables(t).err().unwrap_or(0).to_string(), if theirs == "refused 1" { "1" } else { "0" });
        let first = early || theirs == "refused 3" || theirs == "refused 4";
        let file = renewed(&file);
        let mut out = [170; SCENE_BYTES + 1];
        writes.add(name, &written_text(write_scene(t, w, &s.body, &mut out), &out, &file), if first { theirs } else { "same" });
        let mut short = vec![170; file.len() - 1];
        writes.add(name, &written_text(write_scene(t, w, &s.body, &mut short), &short, &file), if first { theirs } else { "refused 11" });
        if !first {
            out = [170; SCENE_BYTES + 1];
            writes.add(name, &written_text(write_checked(t, w, &s.body, &mut out), &out, &file), "same");
            minutes(&mut minute_runs, name, t, w, &s.body, &mut random);
        }
        // A move through the window meets 1 and 2 as the step does; its step height is then 3.
        let none = Mover { aabb: [0.0; 6], delta: [0.0; 3], step: 5.0, ground: false, cap: 0 };
        let refused = format!("refused {}", move_through(t, w, s.body.words[5], none).err().unwrap_or(0));
        moves.add(name, &refused, if early { theirs } else { "refused 3" });
        if !early {
            checked.add(name, &tick_text(step_checked(t, w, &s.body), theirs), theirs);
        }
    }
    // minute NUMBER lines: a stored log, run over its own scene's parts; one that is no log, over no tables
    for (name, theirs) in calls.iter().filter_map(|l| l.strip_prefix("minute ")?.split_once(' ')) {
        let log = std::fs::read(format!("crates/replay/data/{name}.log")).unwrap();
        let s = (theirs != "refused 8").then(|| scene(&log));
        let none = Body { numbers: [0.0; 19], words: [0; 7], age: 0 };
        let (t, w, body) = s.as_ref().map_or((Tables { records: &[], shapes: &[] }, Window { cells: &[], origin: [0; 3], sizes: [0; 3], lowest: 0, highest: 0 }, none), |s| {
            let w = Window { cells: &s.cells, origin: s.origin, sizes: s.sizes, lowest: s.lowest, highest: s.highest };
            (Tables { records: &s.records, shapes: &s.shapes }, w, s.body)
        });
        let mut words = w.cells.to_vec();
        words.extend(std::iter::repeat_n(7, summary_words(w.sizes)));
        let mut feet = vec![[7.0; 3]; MOST_EVENTS];
        let (refusal, after) = minute(t, &mut words, w, &body, &log, &mut feet);
        let mut ours: Vec<String> = feet[..after.map_or(0, |m| m.ticks as usize)].iter().map(|v| format!("feet{}", bits(v))).collect();
        ours.extend((refusal != 0).then(|| format!("refused {refusal}")));
        minute_runs.add(name, &ours.join("; "), theirs);
    }
    for line in calls.iter().filter(|l| l.starts_with("movelist ")) {
        let (call, theirs) = line.split_once("=> ").unwrap();
        let words: Vec<&str> = call.split_whitespace().collect();
        let numbers: Vec<f64> = words.iter().map(|w| f64::from_bits(u64::from_str_radix(w, 16).unwrap_or(0))).collect();
        let boxes: Vec<[f64; 6]> = numbers[13..].chunks_exact(6).map(|b| b.try_into().unwrap()).collect();
        let m = Mover {
            aabb: numbers[1..7].try_into().unwrap(),
            delta: numbers[7..10].try_into().unwrap(),
            step: numbers[10],
            ground: words[11] == "1",
            cap: OLDER_CAP,
        };
        lists.add(call, &move_text(m, move_over_list(&boxes, m)), theirs);
    }
    case_a(&mut moves, &mut windows);
    fall_records(&mut falls);
    whole_nights(&mut night);
    classroom(&mut palette);

    let fine = [
        ticks.tell("tick"),
        steps.tell("step"),
        checked.tell("step_checked"),
        tables.tell("check_tables"),
        moves.tell("move"),
        lists.tell("move_over_list"),
        windows.tell("heights, columns and air"),
        falls.tell("step_falling"),
        night.tell("midnight"),
        writes.tell("write_scene, write_checked"),
        palette.tell("classroom palette"),
        summed.tell("summaries"),
        minute_runs.tell("minute, write_log"),
    ];
    std::process::exit(fine.contains(&false) as i32);
}
