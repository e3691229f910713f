//! Compares the proved reckoning with a plain one on random fields, and times both.

mod plain;

use std::hint::black_box;
use std::time::{Duration, Instant};

#[repr(C)]
#[derive(Clone, Copy)]
struct Outcome {
    count: usize,
    refusal: u8,
}

#[repr(C)]
#[derive(Clone, Copy)]
struct Span {
    first: i64,
    last: i64,
}

#[repr(C)]
#[derive(Clone, Copy)]
struct Start {
    place: usize,
    number: u16,
    start: i64,
}

unsafe extern "C" {
    fn starter_spans(strip: *const u8, bytes: usize, pace: u16, list: *mut Span, room: usize) -> Outcome;
    fn starter_order(strip: *const u8, bytes: usize, pace: u16, list: *mut Start, room: usize) -> Outcome;
}

const NO_SPAN: Span = Span { first: 0, last: 0 };
const NO_START: Start = Start { place: 0, number: 0, start: 0 };
const NO_ORDER: u8 = 13;

fn proved_spans(strip: &[u8], pace: u16, list: &mut [Span; 64]) -> Outcome {
    unsafe { starter_spans(strip.as_ptr(), strip.len(), pace, list.as_mut_ptr(), 64) }
}

fn proved_order(strip: &[u8], pace: u16, list: &mut [Start; 64]) -> Outcome {
    unsafe { starter_order(strip.as_ptr(), strip.len(), pace, list.as_mut_ptr(), 64) }
}

/// xorshift64*: the same numbers on every run.
struct Random(u64);

impl Random {
    fn below(&mut self, n: i64) -> i64 {
        self.0 ^= self.0 >> 12;
        self.0 ^= self.0 << 25;
        self.0 ^= self.0 >> 27;
        (self.0.wrapping_mul(0x2545F4914F6CDD1D) >> 33) as i64 % n
    }
}

struct Case {
    strip: Vec<u8>,
    pace: u16,
}

/// A field of n groups: `share` tenths of the time that n starts need lie open for the earlies, and
/// windows are up to `width` paces wide.
fn field(random: &mut Random, n: usize, pace: i64, share: i64, width: i64) -> Case {
    let span = (n as i64 * pace * share / 10).clamp(1, 150_000);
    let origin = random.below(160_000 - span.min(150_000)) - 80_000;
    let mut strip = Vec::new();
    for i in 0..n {
        let early = (origin + random.below(span)).clamp(-86_400, 86_400);
        let late = (early + random.below(width * pace + 1)).min(86_400);
        strip.extend((i as u16 + 1).to_be_bytes());
        strip.extend((early as i32).to_be_bytes());
        strip.extend((late as i32).to_be_bytes());
    }
    Case { strip, pace: pace as u16 }
}

fn any_field(random: &mut Random, n: usize) -> Case {
    let pace = [1, 6, 60, 480, 480, 480, 600, 1200][random.below(8) as usize];
    let share = [5, 10, 12, 15, 20, 40][random.below(6) as usize];
    let width = [1, 2, 5, 20, 80][random.below(5) as usize];
    field(random, n, pace, share, width)
}

/// Whether both tell the same, and whether there was an order.
fn agree(case: &Case) -> (bool, bool) {
    let windows = plain::read(&case.strip);
    let expected = plain::spans(&windows, i64::from(case.pace));
    let mut spans = [NO_SPAN; 64];
    let mut starts = [NO_START; 64];
    let told = proved_spans(&case.strip, case.pace, &mut spans);
    let played = proved_order(&case.strip, case.pace, &mut starts);
    let Some(found) = expected else {
        return (told.refusal == NO_ORDER && played.refusal == NO_ORDER, false);
    };
    let order = plain::order(&windows, i64::from(case.pace), &found);
    let same_spans = told.refusal == 0
        && found.iter().copied().eq(spans[..told.count].iter().map(|s| (s.first, s.last)));
    let same_order = played.refusal == 0
        && order.iter().copied().eq(starts[..played.count].iter().map(|s| (s.place, s.number, s.start)));
    (same_spans && same_order, true)
}

fn compare(fields: usize) -> bool {
    let mut random = Random(0x5EED);
    let (mut differences, mut possible) = (0, 0);
    for _ in 0..fields {
        let n = random.below(65) as usize;
        let case = any_field(&mut random, n);
        let (same, has_order) = agree(&case);
        differences += usize::from(!same);
        possible += usize::from(has_order);
    }
    println!("{fields} random fields of 0 to 64 groups, {possible} with an order: {differences} differences");
    differences == 0
}

fn time(rounds: usize, cases: &[Case], mut each: impl FnMut(&Case)) -> Duration {
    let start = Instant::now();
    for _ in 0..rounds {
        for case in cases {
            each(case);
        }
    }
    start.elapsed()
}

/// Fields of n groups that have an order, so that a reckoning goes to its end.
fn timed_cases(n: usize, count: usize) -> Vec<Case> {
    let mut random = Random(0xBEEF + n as u64);
    let mut cases = Vec::new();
    while cases.len() < count {
        let case = any_field(&mut random, n);
        if agree(&case).1 {
            cases.push(case);
        }
    }
    cases
}

fn measure() {
    println!("reckoning of the closed spans, microseconds each:");
    println!("{:>4} {:>9} {:>9} {:>7} {:>7}", "n", "proved", "plain", "ratio", "growth");
    let mut before = None;
    for n in [8, 16, 32, 64] {
        let cases = timed_cases(n, 400);
        let rounds = 51_200 / (n * n) + 1;
        let mut list = [NO_SPAN; 64];
        // the lesser of several runs, in turn, so that other work on the machine counts little
        let (mut proved, mut plain) = (Duration::MAX, Duration::MAX);
        for _ in 0..7 {
            proved = proved.min(time(rounds, &cases, |c| {
                black_box(proved_spans(black_box(&c.strip), c.pace, &mut list).count);
            }));
            plain = plain.min(time(rounds, &cases, |c| {
                black_box(plain::spans(&plain::read(black_box(&c.strip)), i64::from(c.pace)));
            }));
        }
        let each = |d: Duration| d.as_secs_f64() * 1e6 / (rounds * cases.len()) as f64;
        let growth = before.map_or(String::from("-"), |b: f64| format!("{:.2}", each(proved) / b));
        println!("{n:>4} {:>9.2} {:>9.2} {:>7.2} {growth:>7}", each(proved), each(plain), each(proved) / each(plain));
        before = Some(each(proved));
    }
}

fn main() {
    let same = compare(100_000);
    measure();
    std::process::exit(i32::from(!same));
}
