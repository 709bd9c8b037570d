//! The safe wrapper: the worked examples of `drawings` as rows, clockworks whose answers are known, refusals, and lent words that hold anything.
use pushkhami::Answer::{self, After, At, Never};
use pushkhami::{Explored, Refusal, ask, explore_all, words_needed};

const BELL: [u32; 15] = [1, 2, 1, 0, 0, 3, 0, 0, 1, 1, 0, 3, 2, 1, 0];

/// A drawing's name, its row, and the answer for each position, which stand in the drawing.
const EXAMPLES: [(&str, &[u32], &[Answer]); 9] = [
    (
        "apart-again",
        &[
            2, 4, 0, 0, 0, 0, 0, 1, 0, 2, 0, 1, 1, 2, 0, 1, 1, 2, 3, 2, 0, 3, 1, 1, 1, 1, 0,
        ],
        &[At(0), At(0), At(0), After(1)],
    ),
    (
        "apart",
        &[
            2, 3, 0, 0, 0, 0, 1, 0, 2, 0, 1, 1, 2, 2, 0, 3, 1, 1, 1, 1, 0,
        ],
        &[At(0), At(0), Never],
    ),
    (
        "bell-at",
        &[1, 2, 1, 0, 0, 3, 0, 0, 1, 1, 0, 2, 2, 1, 0],
        &[At(0), At(2)],
    ),
    (
        "bell-never",
        &[1, 2, 1, 0, 0, 3, 0, 0, 1, 1, 0, 2, 4, 1, 0],
        &[At(0), Never],
    ),
    ("bell", &BELL, &[At(0), After(2)]),
    (
        "flag-never",
        &[
            2, 3, 0, 0, 0, 0, 1, 0, 1, 1, 1, 2, 3, 1, 3, 0, 1, 0, 0, 0, 2, 8, 0,
        ],
        &[At(0), At(0), Never],
    ),
    (
        "flag",
        &[2, 3, 0, 0, 0, 0, 1, 0, 1, 1, 1, 2, 2, 1, 3, 0, 0, 2, 8, 0],
        &[At(0), At(0), At(8)],
    ),
    (
        "ghent",
        &[
            2, 5, 0, 0, 0, 1, 1, 0, 0, 0, 0, 2, 2, 0, 2, 8, 0, 1, 9, 0, 0, 1, 1, 0, 3, 8, 1, 1, 1,
            3, 2, 1, 3, 0, 0, 1, 9, 1, 1, 3, 4, 0, 0, 2, 4, 1, 0, 2, 9, 0,
        ],
        &[At(0), After(8), At(8), After(8), After(8)],
    ),
    (
        "jammed",
        &[1, 2, 1, 0, 1, 0, 0, 0, 1, 0, 0],
        &[Never, Never],
    ),
];

/// More kinds of states than places for 3,000.
const MILL: [u32; 14] = [2, 1, 1, 0, 0, 10_000, 0, 0, 1, 1, 2, 1, 1, 1];

/// Words that hold a pattern.
fn lent(row: &[u32], kinds: u32, pattern: u32) -> Vec<u32> {
    let words = words_needed(row.len(), kinds).expect("the number has a place");
    (0..words as u32).map(|i| pattern ^ (i & pattern)).collect()
}

fn ask_each(row: &[u32], kinds: u32, work: &mut [u32], positions: usize) -> Vec<Answer> {
    (0..positions)
        .map(|position| ask(row, position, kinds, work).expect("there is an answer"))
        .collect()
}

#[test]
fn worked_examples() {
    for (name, row, answers) in EXAMPLES {
        for pattern in [0, u32::MAX, 0xDEAD_BEEF] {
            let mut work = lent(row, 1_000, pattern);
            assert_eq!(
                ask_each(row, 1_000, &mut work, answers.len()),
                answers,
                "{name}"
            );
            let explored = explore_all(row, 1_000, &mut work).expect("there are answers");
            assert_eq!(explored.answers, answers, "{name}");
            assert!(explored.kinds <= 1_000, "{name}");
        }
    }
}

#[test]
fn ring_of_a_hundred() {
    let figures = 101;
    let mut row = vec![1, figures];
    row.extend((0..figures).flat_map(|_| [1, 0, 0, 0]));
    row.extend((0..figures).flat_map(|figure| [figure, (figure + 1) % figures, 0, 0]));
    let mut work = lent(&row, 101, 7);
    let all = Explored {
        answers: vec![At(0); 101],
        kinds: 101,
    };
    assert_eq!(explore_all(&row, 101, &mut work), Ok(all));
    assert_eq!(explore_all(&row, 100, &mut work), Err(Refusal::Many));
}

#[test]
fn refusals() {
    let mut work = lent(&MILL, 3_000, u32::MAX);
    assert_eq!(ask(&MILL, 0, 3_000, &mut work), Err(Refusal::Many));
    assert_eq!(explore_all(&MILL, 3_000, &mut work), Err(Refusal::Many));
    assert_eq!(ask(&MILL, 1, 3_000, &mut work), Err(Refusal::NoPosition));
    assert_eq!(
        ask(&MILL, usize::MAX, 3_000, &mut work),
        Err(Refusal::NoPosition)
    );
    assert_eq!(ask(&MILL, 0, 3_001, &mut work), Err(Refusal::FewWords));
    assert_eq!(
        explore_all(&MILL, u32::MAX, &mut work),
        Err(Refusal::FewWords)
    );
    assert_eq!(ask(&BELL, 0, 0, &mut work), Err(Refusal::Many));
    for end in 0..BELL.len() {
        let broken = &BELL[..end];
        let told = ask(broken, 0, 10, &mut work);
        // the first seven words are a clockwork with no steps
        let expected = if end == 7 {
            Ok(At(0))
        } else {
            Err(Refusal::NoClockwork)
        };
        assert_eq!(told, expected, "the first {end} words");
        assert_eq!(explore_all(broken, 10, &mut work).is_ok(), end == 7);
    }
    let too_long = vec![1; 20_000];
    let mut more = lent(&too_long, 1, 0);
    assert_eq!(ask(&too_long, 0, 1, &mut more), Err(Refusal::NoClockwork));
}

#[test]
fn words_to_lend() {
    assert_eq!(words_needed(15, 10), Some(65_536 + 8 * 15 + 256 * 10));
    assert_eq!(words_needed(0, 0), Some(65_536));
    assert_eq!(words_needed(usize::MAX, 0), None);
    let needed = words_needed(BELL.len(), 16).expect("the number has a place");
    let mut work = vec![3; needed];
    assert_eq!(ask(&BELL, 1, 16, &mut work), Ok(After(2)));
    assert_eq!(ask(&BELL, 1, 16, &mut work[1..]), Err(Refusal::FewWords));
    assert_eq!(
        explore_all(&BELL, 16, &mut work[1..]),
        Err(Refusal::FewWords)
    );
    assert_eq!(ask(&BELL, 1, 16, &mut []), Err(Refusal::FewWords));
}

/// What was left in the words by one call is nothing to the next.
#[test]
fn words_used_again() {
    let mut work = lent(&MILL, 3_000, 0x5555_5555);
    for _ in 0..3 {
        for (name, row, answers) in EXAMPLES {
            let explored = explore_all(row, 1_000, &mut work).expect("there are answers");
            assert_eq!(explored.answers, answers, "{name}");
        }
        assert_eq!(explore_all(&MILL, 3_000, &mut work), Err(Refusal::Many));
    }
}

fn answer_of(text: &str) -> Answer {
    let number = |n: &str| n.parse().expect("a number");
    match text.split_once(' ') {
        Some(("at", n)) => At(number(n)),
        Some(("after", n)) => After(number(n)),
        _ => Never,
    }
}

/// The 120 clockworks of the test `examples`: at just the number of kinds, and at one less.
#[test]
fn known_answers() {
    let file = concat!(
        env!("CARGO_MANIFEST_DIR"),
        "/../crates/examples/data/cases.txt"
    );
    let text = std::fs::read_to_string(file).expect("the cases are there");
    let mut lines = text.lines().filter(|line| !line.starts_with('#'));
    let mut count = 0;
    while let Some(rows) = lines.next() {
        let part = |line: Option<&str>, name: &str| {
            line.and_then(|line| line.strip_prefix(name))
                .expect("a line of a case")
                .to_owned()
        };
        let row: Vec<u32> = part(Some(rows), "rows: ")
            .split_whitespace()
            .map(|word| word.parse().expect("a number"))
            .collect();
        let kinds: u32 = part(lines.next(), "kinds: ").parse().expect("a number");
        let answers: Vec<_> = part(lines.next(), "answers: ")
            .split(" | ")
            .map(answer_of)
            .collect();
        let mut work = lent(&row, kinds, 0x0F0F_F0F0);
        let all = Explored {
            answers: answers.clone(),
            kinds: kinds as usize,
        };
        assert_eq!(explore_all(&row, kinds, &mut work), Ok(all));
        assert_eq!(ask_each(&row, kinds, &mut work, answers.len()), answers);
        assert_eq!(explore_all(&row, kinds - 1, &mut work), Err(Refusal::Many));
        count += 1;
    }
    assert_eq!(count, 120);
}
