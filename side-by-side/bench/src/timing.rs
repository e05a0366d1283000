//! Times by the thread's own clock, the medians of sides that take turns, and the depth of the stack.

use std::hint::black_box;
use std::sync::atomic::{AtomicBool, AtomicU64, AtomicUsize, Ordering::Relaxed};
use std::time::Duration;

extern "C" {
    fn mallopt(which: i32, value: i32) -> i32;
    fn clock_gettime(clock: i32, now: *mut [i64; 2]) -> i32;
}

/// Lets the heap keep what is freed (glibc), so that the Rust text does not wait for the system in each run.
pub fn keep_heap() {
    const TRIM_THRESHOLD: i32 = -1;
    const MMAP_THRESHOLD: i32 = -3;
    for which in [TRIM_THRESHOLD, MMAP_THRESHOLD] {
        let set = unsafe { mallopt(which, 1 << 30) };
        assert_eq!(set, 1, "the heap takes no such setting");
    }
}

/// The time that this thread has had on a processor, in nanoseconds.
fn thread_time() -> u64 {
    const CLOCK_THREAD_CPUTIME_ID: i32 = 3;
    let mut now = [0; 2];
    let got = unsafe { clock_gettime(CLOCK_THREAD_CPUTIME_ID, &raw mut now) };
    assert_eq!(got, 0, "the thread has no clock");
    (now[0] * 1_000_000_000 + now[1]) as u64
}

/// What two readings of the clock take by themselves, in nanoseconds; no time holds it.
static READING: AtomicU64 = AtomicU64::new(0);

/// Measures the reading of the clock: the median of many.
pub fn set_reading() {
    let mut times: Vec<_> = (0..10_001).map(|_| timed(|| ()).0).collect();
    let reading = median(&mut times).expect("many");
    READING.store(reading.as_nanos() as u64, Relaxed);
}

/// Whether the next timed call has its stack painted, and the depth of the last that had.
static PAINTED: AtomicBool = AtomicBool::new(false);
static DEPTH: AtomicUsize = AtomicUsize::new(0);

/// The time of a call by the thread's clock.
pub fn timed<T>(call: impl FnOnce() -> T) -> (Duration, T) {
    let painted = PAINTED.load(Relaxed);
    let top = stack_pointer();
    if painted {
        paint(top);
    }
    let begin = thread_time();
    let answer = black_box(call());
    let spent = thread_time() - begin;
    if painted {
        DEPTH.store(unpainted(top), Relaxed);
    }
    let spent = spent.saturating_sub(READING.load(Relaxed)).max(1);
    (Duration::from_nanos(spent), answer)
}

/// No call that is measured is as deep as this, in bytes.
const DEEPEST: usize = 1 << 18;
const PAINT: u64 = 0x5a17_c3e9_0b6d_84f2;

#[inline(always)]
fn stack_pointer() -> usize {
    let pointer: usize;
    unsafe {
        #[cfg(target_arch = "aarch64")]
        std::arch::asm!("mov {}, sp", out(reg) pointer, options(nomem, nostack));
        #[cfg(target_arch = "x86_64")]
        std::arch::asm!("mov {}, rsp", out(reg) pointer, options(nomem, nostack));
    }
    pointer & !7
}

/// Paints the stack below `top`, where nothing lives until the next call: so it must stand in its caller.
#[inline(always)]
fn paint(top: usize) {
    for place in (top - DEEPEST..top).step_by(8) {
        unsafe { (place as *mut u64).write_volatile(PAINT) };
    }
}

/// How far below `top` the paint is gone.
#[inline(always)]
fn unpainted(top: usize) -> usize {
    let mut place = top - DEEPEST;
    while place < top && unsafe { (place as *const u64).read_volatile() } == PAINT {
        place += 8;
    }
    assert!(
        place > top - DEEPEST,
        "a call is deeper than the painted stack"
    );
    top - place
}

/// One side of a call: a run of it gives its time.
pub type Side = Box<dyn FnMut() -> Duration>;

/// What takes turns: the port, and where there are such the Rust and the least that a call could take.
pub struct Sides {
    pub rust: Option<Side>,
    pub port: Side,
    pub floor: Option<Side>,
}

/// The times of each side, and the depth of the port.
#[derive(Default)]
pub struct Runs {
    pub rust: Vec<Duration>,
    pub port: Vec<Duration>,
    pub floor: Vec<Duration>,
    pub depth: usize,
}

/// The most runs of a side in one measurement, and the least, of a call that is not slow and of one that is.
const MOST: usize = 1_000;
const LEAST: usize = 20;
const LEAST_SLOW: usize = 3;

/// A call is slow whose sides have taken this many budgets together; one that has taken so long by itself is run once.
const SLOW: u32 = 20;
const TOO_LONG: Duration = Duration::from_secs(3);

impl Sides {
    /// Runs the sides one after the other, again and again, until each has had the budget. The first run of the port has its
    /// stack painted.
    pub fn in_turn(&mut self, budget: Duration) -> Runs {
        let mut runs = Runs::default();
        while !runs.enough(budget) {
            if let Some(rust) = &mut self.rust {
                runs.rust.push(rust());
            }
            PAINTED.store(runs.port.is_empty(), Relaxed);
            runs.port.push((self.port)());
            if PAINTED.swap(false, Relaxed) {
                runs.depth = DEPTH.load(Relaxed);
            }
            if let Some(floor) = &mut self.floor {
                runs.floor.push(floor());
            }
        }
        runs
    }
}

impl Runs {
    fn enough(&self, budget: Duration) -> bool {
        let had = |times: &[Duration]| times.is_empty() || times.iter().sum::<Duration>() >= budget;
        let sides = [&self.rust, &self.port, &self.floor];
        match self.port.len() {
            0 => false,
            1..LEAST_SLOW => self.spent() >= TOO_LONG,
            LEAST_SLOW..LEAST => self.slow(budget),
            LEAST..MOST => self.slow(budget) || sides.iter().all(|times| had(times)),
            _ => true,
        }
    }

    fn spent(&self) -> Duration {
        let all = self.rust.iter().chain(&self.port).chain(&self.floor);
        all.sum()
    }

    /// Whether the sides have taken so long that few runs must do.
    pub fn slow(&self, budget: Duration) -> bool {
        self.spent() >= SLOW * budget
    }

    /// The runs of two measurements of one field.
    pub fn and(mut self, other: Self) -> Self {
        self.rust.extend(other.rust);
        self.port.extend(other.port);
        self.floor.extend(other.floor);
        self.depth = self.depth.max(other.depth);
        self
    }
}

/// The median of times; none of none.
pub fn median(times: &mut [Duration]) -> Option<Duration> {
    times.sort_unstable();
    times.get(times.len() / 2).copied()
}
