//! The whole part of every product: the library's routine against the rule that it had before and against Rust's cast.
//!
//! A product is an f32 from +0 up and below 255: 1,132,396,544 bit patterns, one after another. The routine's contract speaks of no other.
//! Exit status 1 at a difference, which is printed.

use std::ops::Range;
use std::sync::atomic::{AtomicU64, Ordering};

#[link(name = "whole", kind = "static")]
extern "C" {
    fn whole_part(p: f32) -> usize;
}

/// The rule before: how many grid lines from 1 up the product reaches.
fn lines_in_turn(p: f32) -> usize {
    let mut k: u16 = 0;
    while f32::from(k + 1) <= p {
        k += 1;
    }
    usize::from(k)
}

/// Two threads take stretches of a million patterns until none is left, and hold the routine to both right answers.
fn hold(name: &str, patterns: Range<u64>, right: impl Fn(f32) -> [usize; 2] + Copy + Sync) {
    const STRETCH: u64 = 1 << 20;
    let (next, began) = (AtomicU64::new(patterns.start), std::time::Instant::now());
    let work = || loop {
        let start = next.fetch_add(STRETCH, Ordering::Relaxed);
        if start >= patterns.end {
            return;
        }
        for bits in start..patterns.end.min(start + STRETCH) {
            let p = f32::from_bits(bits as u32);
            let got = unsafe { whole_part(p) };
            if right(p) != [got, got] {
                println!("whole: DIFFERENT at {bits:08X} ({p:e}): {got}, not {:?}", right(p));
                std::process::exit(1);
            }
        }
    };
    std::thread::scope(|scope| {
        scope.spawn(work);
        work();
    });
    println!("{:>10}  {name}, none different ({:.1} s)", patterns.end - patterns.start, began.elapsed().as_secs_f64());
}

fn main() {
    hold("products from 0 to below 255, against grid lines in turn and the cast", 0..0x437F_0000, |p| [lines_in_turn(p), p as usize]);
}
