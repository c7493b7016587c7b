//! Random steps at the ends of windows and worlds: ours (the native static library of crates/exports) against the original Rust, every bit and every
//! refusal by 5 or 7. Windows of few layers and columns, some of them not loaded, in worlds that end within them, at them or beyond; cells that no
//! record has; air that is nothing, and, in a second run, air that is a slab. Nothing is timed.
use std::panic::{AssertUnwindSafe, catch_unwind};

#[allow(dead_code)]
mod palette;
#[allow(dead_code)]
mod standins;
use palette::{CUBE, Call, FENCE, ICE, LAVA, SLAB, STAIR, WALL, WATER, bodies, boltjuniper_step, tables};
#[allow(unused_imports)]
use standins::{entity, world};
use standins::{BlockRegistry, DVec3, IVec3, LiquidKind, Window, registry_of, step_body_sensed};

const TRIES: usize = 200_000;

struct World {
    words: Vec<u32>,
    origin: IVec3,
    sizes: IVec3,
    ends: (i32, i32),
}

fn ours(records: &[u32], shapes: &[f32], w: &World, c: &Call, out: &mut [f64; 10]) -> u32 {
    let (o, s) = (w.origin, w.sizes);
    unsafe {
        boltjuniper_step(
            records.as_ptr(), records.len(), shapes.as_ptr(), shapes.len(), c.cells.as_ptr(), c.cells.len(), o.x, o.y, o.z, s.x as u32, s.y as u32,
            s.z as u32, w.ends.0, w.ends.1, c.numbers.as_ptr(), 19, c.words.as_ptr(), 7, c.age, out.as_mut_ptr(), out.len(),
        )
    }
}

/// The Rust's answer, or the number of the refusal that stands for its end: 5 where the window's stand-in ended it, 7 where its own text did.
fn rusts(registry: &BlockRegistry, w: &World, c: &Call) -> Result<[f64; 8], u32> {
    let window = Window::new(registry, c.cells, w.origin, w.sizes, w.ends);
    catch_unwind(AssertUnwindSafe(|| {
        let (mut v, mut ground) = (c.velocity, c.ground);
        let (p, liquid) = step_body_sensed(&window, &c.body, c.feet, &mut v, &mut ground, c.age);
        let liquid = match liquid {
            None => 0.0,
            Some(LiquidKind::Water) => 1.0,
            Some(LiquidKind::Lava) => 2.0,
        };
        [p.x, p.y, p.z, v.x, v.y, v.z, f64::from(u8::from(ground)), liquid]
    }))
    .map_err(|e| if e.downcast_ref::<&str>().is_some_and(|m| m.contains("outside the window")) { 5 } else { 7 })
}

fn main() {
    let odd = std::env::args().nth(1).is_some();
    std::panic::set_hook(Box::new(|_| ()));
    let (mut records, shapes) = tables();
    if odd {
        let slab: [u32; 20] = std::array::from_fn(|k| records[20 * SLAB as usize + k]);
        records[..20].copy_from_slice(&slab);
    }
    let registry = registry_of(&records, &shapes);
    let mut seed = if odd { 0x2545_f491_4f6c_dd1du64 } else { 0x9e37_79b9_7f4a_7c15 };
    let mut next = move |n: u64| {
        seed ^= seed << 13;
        seed ^= seed >> 7;
        seed ^= seed << 17;
        ((seed >> 11) % n) as u32
    };
    let models = bodies();
    let mut seen = [0usize; 10];
    let (mut differ, mut beyond) = (0, 0);
    for _ in 0..TRIES {
        let sizes = IVec3::new(3 + next(4) as i32, 1 + next(6) as i32, 3 + next(4) as i32);
        let origin = IVec3::new(next(5) as i32 - 6, next(9) as i32 - 5, next(5) as i32 - 6);
        let lowest = origin.y + next(6) as i32 - 3;
        let highest = lowest + next(9) as i32;
        let (rare, wet, gone) = (next(5), next(3), next(12));
        let liquid = if next(4) == 0 { LAVA } else { WATER };
        let mut words: Vec<u32> = (0..sizes.x * sizes.y * sizes.z)
            .map(|_| match next(10) {
                0 if rare == 0 => [100, u32::MAX][next(2) as usize],
                0 | 1 => [CUBE, SLAB, STAIR, ICE][next(4) as usize],
                2 => [FENCE, WALL][next(2) as usize],
                3..8 if wet == 0 => liquid + if next(8) == 0 { next(16) } else { next(4) },
                _ => 0,
            })
            .collect();
        words.extend((0..sizes.x * sizes.z).map(|_| u32::from(gone > 3 || next(4) > 0)));
        let w = World { words, origin, sizes, ends: (lowest, highest) };
        let part = |n: u32| f64::from(n) / 1000.0;
        let at = |n: u32, o: i32, s: i32| f64::from(o) + part(n) * f64::from(s);
        let feet = DVec3::new(
            at(200 + next(600), origin.x, sizes.x), at(next(1000), lowest - 2, highest - lowest + 5), at(200 + next(600), origin.z, sizes.z),
        );
        let speed = [0.05, 0.3, 1.5][next(3) as usize];
        let mut way = || (part(next(2000)) - 1.0) * speed;
        let velocity = DVec3::new(way(), way(), way());
        let c = Call::new(&w.words, models[next(4) as usize], feet, velocity, next(2) == 0, u64::from(next(100)));
        let mut out = [9.0; 10];
        let refusal = ours(&records, &shapes, &w, &c, &mut out);
        let theirs = rusts(&registry, &w, &c);
        seen[refusal as usize] += 1;
        let agrees = match theirs {
            // the last two of ours are the case of its sample, which the Rust does not tell
            Ok(b) => refusal == 0 && (0..8).all(|k| out[k].to_bits() == b[k].to_bits()),
            Err(n) => refusal == n,
        };
        if refusal == 0 && (feet.y < f64::from(lowest) || feet.y > f64::from(highest)) {
            beyond += 1;
        }
        if !agrees {
            differ += 1;
            if differ < 4 {
                println!("differs: ours {refusal} {out:?}, the Rust {theirs:?}, feet {:?} {:?} {:?}, window {:?}", feet.x, feet.y, feet.z, w.ends);
            }
        }
    }
    let air = if odd { "a slab for air" } else { "nothing for air" };
    println!("{air}: {TRIES} steps, {} not refused ({beyond} from beyond the world's ends), {} by 5, {} by 6, {} by 7; {differ} differ", seen[0], seen[5], seen[6], seen[7]);
    assert_eq!(differ, 0);
    if !odd {
        let again = std::process::Command::new(std::env::current_exe().unwrap()).arg("odd").status().unwrap();
        assert!(again.success());
    }
}
