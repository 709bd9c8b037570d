//! The same search over the same rows, three times: by the proved library, by a plain Rust program, and by the fastest one that I could write
//! without proofs. `bench/run` builds and runs it.
mod automata;
mod automaton;
mod cases;
mod packed;
mod plain;

use automaton::Told;
use cases::Case;
use std::hint::black_box;

#[derive(Clone, Copy, PartialEq, Eq)]
enum Way {
    Proved,
    Plain,
    Packed,
}

const WAYS: [Way; 3] = [Way::Proved, Way::Plain, Way::Packed];

/// So many words as the proved search needs for the rows.
fn words_for(rows: &[(Vec<u32>, usize)]) -> Vec<u32> {
    let most = rows
        .iter()
        .map(|(row, kinds)| pushkhami::words_needed(row.len(), *kinds as u32))
        .max()
        .flatten();
    vec![0; most.expect("too many kinds")]
}

fn proved(row: &[u32], kinds: usize, work: &mut [u32]) -> Told {
    let explored =
        pushkhami::explore_all(row, kinds as u32, work).expect("the proved search refuses");
    Told {
        answers: explored.answers,
        kinds: explored.kinds,
        turns: 0,
    }
}

/// What a search tells of a row, where so many kinds are allowed: the answers, and how many kinds there are. The proved one is lent words,
/// and the others take memory for themselves.
fn search(way: Way, row: &[u32], kinds: usize, work: &mut [u32]) -> Told {
    match way {
        Way::Proved => proved(row, kinds, work),
        Way::Plain => plain::explore(row, kinds).expect("the plain search finds too many"),
        Way::Packed => packed::explore(row, kinds).expect("the packed search finds too many"),
    }
}

/// The rows of a case, each with its number of kinds.
struct Sized {
    name: String,
    rows: Vec<(Vec<u32>, usize)>,
    kinds: usize,
    turns: usize,
    /// The words that are lent to the proved search, the same ones each time: it asks for nothing of what they hold.
    work: Vec<u32>,
}

/// Finds how many kinds each row has, and checks that all three searches find as many and give the same answers.
fn checked(case: Case) -> Sized {
    let mut sized = Sized {
        name: case.name,
        rows: Vec::new(),
        kinds: 0,
        turns: 0,
        work: Vec::new(),
    };
    for row in case.rows {
        let told = packed::explore(&row, 5_000_000).expect("a case with too many kinds");
        sized.kinds += told.kinds;
        sized.turns += told.turns;
        sized.rows.push((row, told.kinds));
        sized.work = words_for(&sized.rows);
        let row = &sized.rows[sized.rows.len() - 1].0;
        for way in WAYS {
            let other = search(way, row, told.kinds, &mut sized.work);
            assert_eq!(other.kinds, told.kinds, "{}: kinds", sized.name);
            assert_eq!(other.answers, told.answers, "{}: answers", sized.name);
        }
    }
    sized
}

unsafe extern "C" {
    fn clock_gettime(clock: i32, time: *mut [i64; 2]) -> i32;
}

/// The seconds that this thread has had a processor, so that other programs on the machine count less.
fn processor_seconds() -> f64 {
    const THREAD: i32 = 3;
    let mut time = [0; 2];
    // SAFETY: on 64-bit Linux a `timespec` is two numbers of 64 bits, and there is room for them
    let failed = unsafe { clock_gettime(THREAD, &mut time) } != 0;
    assert!(!failed, "no clock for the time of a thread");
    time[0] as f64 + time[1] as f64 * 1e-9
}

/// How many seconds the rows take, once.
fn time(way: Way, case: &mut Sized, times: u32) -> f64 {
    let start = processor_seconds();
    for _ in 0..times {
        for (row, kinds) in &case.rows {
            black_box(search(way, black_box(row), *kinds, &mut case.work));
        }
    }
    (processor_seconds() - start) / f64::from(times)
}

fn median(values: &mut [f64]) -> f64 {
    values.sort_by(f64::total_cmp);
    values[values.len() / 2]
}

struct Measured {
    /// The median of the seconds of each way.
    seconds: [f64; 3],
    /// The medians of the ratios within a round: proved to plain, and proved to packed, in time.
    to_plain: f64,
    to_packed: f64,
    /// How far apart a way's times are: the middle half of them, to the median; the largest of the three ways.
    noise: f64,
}

/// Rounds of all three, one after the other, so that what slows the machine down slows all.
fn measure(case: &mut Sized, rounds: usize) -> Measured {
    // a way is run so often that a round takes 20 ms at least
    let times = WAYS.map(|way| {
        let once = time(way, case, 1);
        (0.02 / once).ceil().clamp(1.0, 10_000.0) as u32
    });
    let mut all: [Vec<f64>; 3] = Default::default();
    for _ in 0..rounds {
        for (i, way) in WAYS.into_iter().enumerate() {
            all[i].push(time(way, case, times[i]));
        }
    }
    let ratio = |other: usize| {
        let mut ratios: Vec<_> = (0..rounds).map(|i| all[0][i] / all[other][i]).collect();
        median(&mut ratios)
    };
    let (to_plain, to_packed) = (ratio(1), ratio(2));
    let mut noise: f64 = 0.0;
    let seconds = std::array::from_fn(|i| {
        let middle = median(&mut all[i]);
        let (low, high) = (all[i][rounds / 4], all[i][rounds - 1 - rounds / 4]);
        noise = noise.max((high - low) / middle);
        middle
    });
    Measured {
        seconds,
        to_plain,
        to_packed,
        noise,
    }
}

fn print_shapes(rounds: usize) {
    println!(
        "Thousands of kinds of states a second. (a) the proved search, (b) plain Rust, (c) packed. a/b and a/c: the speed of (a) as a share"
    );
    println!(
        "of theirs, so above 1 it is faster. turns: how many turns an entry has. noise: the middle half of the times, to the median."
    );
    println!();
    println!("| automaton | kinds | turns | (a) | (b) | (c) | a/b | a/c | noise |");
    println!("|---|---:|---:|---:|---:|---:|---:|---:|---:|");
    for case in cases::shapes() {
        let mut case = checked(case);
        let measured = measure(&mut case, rounds);
        let speed = measured
            .seconds
            .map(|seconds| case.kinds as f64 / seconds / 1000.0);
        println!(
            "| {} | {} | {:.2} | {:.0} | {:.0} | {:.0} | {:.2} | {:.2} | {:.0}% |",
            case.name,
            case.kinds,
            case.turns as f64 / case.kinds as f64,
            speed[0],
            speed[1],
            speed[2],
            1.0 / measured.to_plain,
            1.0 / measured.to_packed,
            100.0 * measured.noise
        );
    }
}

fn print_growing(rounds: usize) {
    println!();
    println!(
        "Nanoseconds for each kind as their number grows. memory: what so many reads at places that the hash picks cost alone, in tables of"
    );
    println!("these sizes.");
    for (name, cases) in cases::growing() {
        println!();
        println!("| {name}: kinds | (a) | (b) | (c) | a/b | a/c | memory | noise |");
        println!("|---:|---:|---:|---:|---:|---:|---:|---:|");
        for case in cases {
            let mut case = checked(case);
            let measured = measure(&mut case, rounds);
            let each = measured
                .seconds
                .map(|seconds| seconds * 1e9 / case.kinds as f64);
            println!(
                "| {} | {:.0} | {:.0} | {:.0} | {:.2} | {:.2} | {:.0} | {:.0}% |",
                case.kinds,
                each[0],
                each[1],
                each[2],
                1.0 / measured.to_plain,
                1.0 / measured.to_packed,
                memory(case.kinds),
                100.0 * measured.noise
            );
        }
    }
}

/// Nanoseconds for one look-up of each kind's key as the proved table lays it out, with nothing computed: a head, and the key's 17 words, at
/// places that look random; the next place is known only after the key was read, as in a chain.
fn memory(kinds: usize) -> f64 {
    let heads: Vec<u32> = (0..=kinds as u32).collect();
    let keys = vec![1u32; 17 * kinds];
    let mut rounds: Vec<_> = (0..5)
        .map(|_| {
            let start = processor_seconds();
            let mut at = 1u64;
            for _ in 0..kinds {
                at = at.wrapping_mul(6_364_136_223_846_793_005).wrapping_add(1);
                let place = (at >> 32) as usize % kinds;
                let entry = heads[place] as usize % kinds;
                let key = &keys[17 * entry..17 * entry + 17];
                at = at.wrapping_add(u64::from(key.iter().sum::<u32>()));
            }
            black_box(at);
            (processor_seconds() - start) * 1e9 / kinds as f64
        })
        .collect();
    median(&mut rounds)
}

/// What a line of /proc/self/status says, in bytes.
fn status(word: &str) -> usize {
    let text = std::fs::read_to_string("/proc/self/status").unwrap_or_default();
    text.lines()
        .find(|line| line.starts_with(word))
        .and_then(|line| line.split_whitespace().nth(1)?.parse::<usize>().ok())
        .unwrap_or(0)
        * 1024
}

fn way_of(name: &str) -> Way {
    match name {
        "proved" => Way::Proved,
        "plain" => Way::Plain,
        "packed" => Way::Packed,
        _ => panic!("no search is named {name}"),
    }
}

/// Runs one case once, in a process of its own, and prints its kinds and by how much the memory of the process rose at most.
fn once(way: Way, name: &str, kinds: Option<usize>) {
    let case = cases::by_name(name).unwrap_or_else(|| panic!("no case is named {name}"));
    let kinds = kinds.unwrap_or(2_500_000);
    let before = status("VmRSS:");
    let mut all = 0;
    for row in case.rows {
        let mut work = match way {
            Way::Proved => words_for(&[(row.clone(), kinds)]),
            _ => Vec::new(),
        };
        all += search(way, &row, kinds, &mut work).kinds;
    }
    let rose = status("VmHWM:").saturating_sub(before);
    println!("{all} {:.1}", rose as f64 / 4.0 / all as f64);
}

fn main() {
    let args: Vec<String> = std::env::args().skip(1).collect();
    let args: Vec<&str> = args.iter().map(String::as_str).collect();
    match args[..] {
        ["shapes", rounds] => print_shapes(rounds.parse().expect("a number of rounds")),
        ["growing", rounds] => print_growing(rounds.parse().expect("a number of rounds")),
        ["once", way, name] => once(way_of(way), name, None),
        ["once", way, name, kinds] => once(way_of(way), name, kinds.parse().ok()),
        ["counted"] => println!("{}", cases::counted().name),
        _ => panic!("give shapes N, growing N, once WAY CASE [KINDS] or counted"),
    }
}

#[cfg(test)]
mod tests {
    use super::*;

    /// All three searches find as many kinds, and give the same answers; `checked` fails where they do not.
    #[test]
    fn searches_agree() {
        let small = [
            automata::one_clock(50, 3),
            automata::mill(20),
            automata::beat(200),
            automata::turns(3, 5),
            automata::turns(8, 1),
            automata::free(3, 4),
            automata::many_steps(2, 9, 250),
            automata::ring(8, 256),
            automata::ring_after(3, 3, 20),
            // the widest key
            automata::together(8, 10_000),
        ];
        let rows = small.into_iter().chain(automata::random()).collect();
        let case = checked(Case {
            name: "small ones".into(),
            rows,
        });
        assert!(case.kinds > 20_000, "{} kinds", case.kinds);
    }
}
