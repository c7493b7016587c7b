//! Floor, ceiling, the cell of a coordinate and the square root: ours (the native static library of crates/exports) against Rust's own f64 methods,
//! on the same inputs, in one run. Both sides are called through a function that is not inlined.
use std::hint::black_box;
use std::time::Instant;

unsafe extern "C" {
    fn boltjuniper_floor(x: f64) -> f64;
    fn boltjuniper_ceil(x: f64) -> f64;
    fn boltjuniper_cell(x: f64) -> i32;
    fn boltjuniper_root(x: f64) -> f64;
}

#[inline(never)]
extern "C" fn rust_floor(x: f64) -> f64 {
    x.floor()
}
#[inline(never)]
extern "C" fn rust_ceil(x: f64) -> f64 {
    x.ceil()
}
#[inline(never)]
extern "C" fn rust_cell(x: f64) -> i32 {
    x.floor() as i32
}
#[inline(never)]
extern "C" fn rust_root(x: f64) -> f64 {
    x.sqrt()
}

struct Random(u64);
impl Random {
    fn next(&mut self) -> u64 {
        self.0 ^= self.0 << 13;
        self.0 ^= self.0 >> 7;
        self.0 ^= self.0 << 17;
        self.0
    }
    fn unit(&mut self) -> f64 {
        (self.next() >> 11) as f64 / (1u64 << 53) as f64
    }
}

/// Nanoseconds for one call over all inputs, in one pass.
fn pass<R>(inputs: &[f64], f: impl Fn(f64) -> R) -> f64 {
    let begun = Instant::now();
    for &x in inputs {
        black_box(f(black_box(x)));
    }
    begun.elapsed().as_nanos() as f64 / inputs.len() as f64
}

/// The least of 200 passes of ours and of Rust's, one after the other in turn: other work on the machine can only add to a pass, and what lasts
/// longer than a pass adds to both.
fn line<R, S>(what: &str, inputs: &[f64], ours: impl Fn(f64) -> R, rusts: impl Fn(f64) -> S) {
    let (mut a, mut b) = (f64::MAX, f64::MAX);
    for _ in 0..200 {
        a = a.min(pass(inputs, &ours));
        b = b.min(pass(inputs, &rusts));
    }
    println!("{what:<34} ours {a:6.2} ns   Rust {b:6.2} ns   ratio {:5.2}", a / b);
}

/// The processor's name, as Linux has it.
fn machine() -> String {
    let text = std::fs::read_to_string("/proc/cpuinfo").unwrap_or_default();
    let name = text.lines().find_map(|l| l.strip_prefix("model name")?.split_once(": "));
    name.map_or(String::from("a machine that tells no name"), |(_, n)| n.to_string())
}

fn main() {
    let mut random = Random(0x9e37_79b9_7f4a_7c15);
    let coordinates: Vec<f64> = (0..20_000).map(|_| (random.unit() - 0.5) * 60_000.0).collect();
    let squares: Vec<f64> = (0..20_000).map(|_| random.unit() * 128.0).collect();
    let any: Vec<f64> = (0..20_000).map(|_| f64::from_bits(random.next() % (2047 << 52))).collect();

    // The answers first: a fast wrong number is worth nothing.
    let mut compared = 0u64;
    for &x in coordinates.iter().chain(&squares).chain(&any) {
        unsafe {
            assert_eq!(boltjuniper_floor(x).to_bits(), x.floor().to_bits(), "floor {x:e}");
            assert_eq!(boltjuniper_floor(-x).to_bits(), (-x).floor().to_bits(), "floor -{x:e}");
            assert_eq!(boltjuniper_ceil(x).to_bits(), x.ceil().to_bits(), "ceil {x:e}");
            assert_eq!(boltjuniper_ceil(-x).to_bits(), (-x).ceil().to_bits(), "ceil -{x:e}");
            if x.abs() < 67_108_864.0 {
                assert_eq!(boltjuniper_cell(x), x.floor() as i32, "cell {x:e}");
                assert_eq!(boltjuniper_cell(-x), (-x).floor() as i32, "cell -{x:e}");
            }
            if x >= 0.0 {
                assert_eq!(boltjuniper_root(x).to_bits(), x.sqrt().to_bits(), "root {x:e}");
            }
        }
        compared += 1;
    }
    println!("{compared} inputs: every answer has Rust's bits");
    println!("machine: {}", machine());
    line("floor, coordinates", &coordinates, |x| unsafe { boltjuniper_floor(x) }, |x| rust_floor(x));
    line("ceil, coordinates", &coordinates, |x| unsafe { boltjuniper_ceil(x) }, |x| rust_ceil(x));
    line("cell of a coordinate", &coordinates, |x| unsafe { boltjuniper_cell(x) }, |x| rust_cell(x));
    line("root, 0 to 128", &squares, |x| unsafe { boltjuniper_root(x) }, |x| rust_root(x));
    line("root, any f64 above zero", &any, |x| unsafe { boltjuniper_root(x) }, |x| rust_root(x));
}
