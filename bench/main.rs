//! Runs the proved watch and the tuned one on the same entries, holds their counts to each other, and prints what an entry
//! costs.
mod tuned;

use tuned::{Line, Point, Watch};

#[repr(C)]
#[derive(Clone, Copy, Default, PartialEq, Debug)]
struct Counts {
    trues: u64,
    falses: u64,
    joins: u64,
    drawn: u32,
    accepted: u32,
    turned: u32,
    held: u32,
}

unsafe extern "C" {
    fn speed_judge(
        bytes: *const u8,
        bytes_len: usize,
        slots: usize,
        first: u32,
        per: u32,
        words: *const u16,
        words_len: usize,
        count: u32,
        counts: *mut Counts,
    ) -> u8;
    fn speed_watch_bytes() -> usize;
    fn clock_gettime(clock: i32, time: *mut Time) -> i32;
}

#[repr(C)]
struct Time {
    seconds: i64,
    nanoseconds: i64,
}

/// The clock of the processor time that this thread has had.
const THREAD_TIME: i32 = 3;

/// Nanoseconds of processor time so far.
fn spent() -> i64 {
    let mut time = Time { seconds: 0, nanoseconds: 0 };
    let answer = unsafe { clock_gettime(THREAD_TIME, &mut time) };
    assert_eq!(answer, 0, "there is no clock");
    time.seconds * 1_000_000_000 + time.nanoseconds
}

const SLOTS: usize = 128;
const FIRST: u32 = 5;
const WORDS: [u16; 8] = [0b001, 0b101, 0b001, 0b100, 0b100, 0b110, 0b010, 0b101];

fn proved(rule: &[u8], per: u32, count: u32) -> Counts {
    let mut counts = Counts::default();
    let answer = unsafe {
        speed_judge(rule.as_ptr(), rule.len(), SLOTS, FIRST, per, WORDS.as_ptr(), WORDS.len(), count, &mut counts)
    };
    assert_eq!(answer, 0, "the run is refused");
    counts
}

fn tuned(rule: &[u8], per: u32, count: u32) -> Counts {
    let mut counts = Counts::default();
    let mut watch = Watch::new(rule, SLOTS);
    let mut tray = [Line::True(Point { stamp: 0, offset: 0 }); 129];
    // The tray is the caller's: its lines have to be written.
    let tray = std::hint::black_box(&mut tray);
    for k in 0..count {
        let stamp = FIRST + k / per;
        let letters = WORDS[k as usize % WORDS.len()];
        if let Ok(given) = watch.judge(stamp, letters, tray) {
            for line in &tray[..given] {
                match line {
                    Line::True(_) => counts.trues += 1,
                    Line::False(_) => counts.falses += 1,
                    Line::Joined { .. } => counts.joins += 1,
                }
            }
        }
    }
    counts.drawn = watch.drawn;
    counts.accepted = watch.accepted;
    counts.turned = watch.turned_away;
    counts.held = watch.count as u32;
    counts
}

/// Nanoseconds per entry of one run.
fn timed(run: fn(&[u8], u32, u32) -> Counts, rule: &[u8], per: u32, count: u32) -> (f64, Counts) {
    let start = spent();
    let counts = run(rule, per, count);
    ((spent() - start) as f64 / f64::from(count), counts)
}

/// The best of some rounds of both, in turn.
fn measure(rule: &[u8], per: u32, entries: u32, rounds: u32) -> (f64, f64, Counts) {
    let mut best = (f64::INFINITY, f64::INFINITY);
    let mut last = Counts::default();
    for _ in 0..rounds {
        let (a, proved_counts) = timed(proved, rule, per, entries);
        let (b, tuned_counts) = timed(tuned, rule, per, entries);
        assert_eq!(proved_counts, tuned_counts, "the counts differ");
        best = (best.0.min(a), best.1.min(b));
        last = proved_counts;
    }
    (best.0, best.1, last)
}

const RULES: [(&str, &[u8]); 6] = [
    ("true U[0,3] p", &[0, 0, 0, 0, 0, 1, 0, 0, 0, 0, 8, 0, 1, 0, 3]),
    ("p U[0,5] q", &[1, 0, 0, 0, 0, 1, 1, 0, 0, 0, 8, 0, 1, 0, 5]),
    (
        "p U[0,5] (q S[2,6] r)",
        &[1, 0, 0, 0, 0, 1, 1, 0, 0, 0, 1, 2, 0, 0, 0, 6, 1, 2, 2, 6, 8, 0, 3, 0, 5],
    ),
    (
        "p U[0,3] (q U[2,4] r)",
        &[1, 0, 0, 0, 0, 1, 1, 0, 0, 0, 1, 2, 0, 0, 0, 8, 1, 2, 2, 4, 8, 0, 3, 0, 3],
    ),
    ("p U[0,9] q", &[1, 0, 0, 0, 0, 1, 1, 0, 0, 0, 8, 0, 1, 0, 9]),
    ("p S[2,6] q", &[1, 0, 0, 0, 0, 1, 1, 0, 0, 0, 6, 0, 1, 2, 6]),
];

fn main() {
    let arguments: Vec<u32> = std::env::args().skip(1).map(|a| a.parse().expect("a number")).collect();
    let entries = arguments.first().copied().unwrap_or(200_000);
    let rounds = arguments.get(1).copied().unwrap_or(20);
    println!("a watch has {} bytes; {entries} entries, best of {rounds} rounds", unsafe { speed_watch_bytes() });
    println!("| rule | samples a stamp | proved ns | tuned ns | ratio | true | false | joined | turned away | held |");
    println!("|---|---|---|---|---|---|---|---|---|---|");
    let mut worst: f64 = 0.0;
    let mut worst_growth: f64 = 0.0;
    for (name, rule) in RULES {
        let mut at_hundred = 0.0;
        for per in [1, 100, 10_000] {
            let (a, b, counts) = measure(rule, per, entries, rounds);
            let ratio = a / b;
            worst = worst.max(ratio);
            if per == 100 {
                at_hundred = a;
            } else if per == 10_000 {
                worst_growth = worst_growth.max(a / at_hundred);
            }
            println!(
                "| `{name}` | {per} | {a:.1} | {b:.1} | {ratio:.2} | {} | {} | {} | {} | {} |",
                counts.trues, counts.falses, counts.joins, counts.turned, counts.held
            );
        }
    }
    println!("largest ratio {worst:.2}; largest growth from 100 to 10,000 samples a stamp {worst_growth:.2}");
}
