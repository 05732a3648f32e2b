//! Probes around measured calls: a timer, and the functions that callgrind collects and dumps at.
use std::time::Instant;

pub trait Probe {
    fn call(&mut self, f: &mut dyn FnMut());
}

/// The nanoseconds of each call.
#[derive(Default)]
pub struct Timer {
    pub times: Vec<u64>,
}

impl Probe for Timer {
    fn call(&mut self, f: &mut dyn FnMut()) {
        let start = Instant::now();
        f();
        self.times.push(start.elapsed().as_nanos() as u64);
    }
}

/// Collects instructions where callgrind runs this process.
pub struct Collector;

impl Probe for Collector {
    fn call(&mut self, f: &mut dyn FnMut()) {
        bench_collected(f);
    }
}

/// Callgrind collects what happens in here.
#[no_mangle]
#[inline(never)]
pub fn bench_collected(f: &mut dyn FnMut()) {
    f();
}

/// Callgrind writes what it collected, and starts anew, when this is left.
#[no_mangle]
#[inline(never)]
pub fn bench_dump() {
    std::hint::black_box(());
}
