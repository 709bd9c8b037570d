//! The cases of the benchmark.
use crate::automata;

pub struct Case {
    pub name: String,
    /// One automaton, or many that are gone through one after the other.
    pub rows: Vec<Vec<u32>>,
}

fn case(name: impl Into<String>, row: Vec<u32>) -> Case {
    Case {
        name: name.into(),
        rows: vec![row],
    }
}

/// Automata of all sorts: one to eight clocks, tops from 2 to 10,000.
pub fn shapes() -> Vec<Case> {
    vec![
        case("1 clock, top 500", automata::one_clock(500, 1)),
        case(
            "1 clock, top 10000, 50 positions",
            automata::one_clock(10_000, 50),
        ),
        case("2 clocks, top 100", automata::mill(100)),
        case("2 clocks, top 500", automata::mill(500)),
        case("2 clocks, top 10000", automata::beat(10_000)),
        case("3 clocks in turn, top 20", automata::turns(3, 20)),
        case("4 clocks in turn, top 8", automata::turns(4, 8)),
        case("5 clocks in turn, top 4", automata::turns(5, 4)),
        case("6 clocks in turn, top 3", automata::turns(6, 3)),
        case("7 clocks in turn, top 2", automata::turns(7, 2)),
        case("8 clocks in turn, top 2", automata::turns(8, 2)),
        case(
            "8 clocks together, top 10000",
            automata::together(8, 10_000),
        ),
        case("3 free clocks, top 20", automata::free(3, 20)),
        case("4 free clocks, top 5", automata::free(4, 5)),
        case(
            "250 steps, 1 clock, top 10000",
            automata::many_steps(1, 10_000, 250),
        ),
        case(
            "250 steps, 3 clocks, top 8",
            automata::many_steps(3, 8, 250),
        ),
        case("ring of 256 without time, 1 clock", automata::ring(1, 256)),
        case("ring of 256 without time, 8 clocks", automata::ring(8, 256)),
        case(
            "ring of 100 without time, after a wait",
            automata::ring_after(3, 8, 100),
        ),
        Case {
            name: "300 random ones, 2 clocks, top 4".into(),
            rows: automata::random(),
        },
    ]
}

/// The same two automata with larger and larger tops.
pub fn growing() -> Vec<(&'static str, Vec<Case>)> {
    let mills = [58, 82, 130, 183, 258, 408, 577, 816];
    let turns = [4, 5, 6, 8, 9, 11, 14, 16];
    vec![
        (
            "2 clocks",
            mills
                .iter()
                .map(|top| case(format!("2 clocks, top {top}"), automata::mill(*top)))
                .collect(),
        ),
        (
            "4 clocks in turn",
            turns
                .iter()
                .map(|top| {
                    case(
                        format!("4 clocks in turn, top {top}"),
                        automata::turns(4, *top),
                    )
                })
                .collect(),
        ),
    ]
}

/// The case whose instructions are counted.
pub fn counted() -> Case {
    case("3 clocks in turn, top 20", automata::turns(3, 20))
}

pub fn by_name(name: &str) -> Option<Case> {
    shapes()
        .into_iter()
        .chain(growing().into_iter().flat_map(|(_, cases)| cases))
        .find(|case| case.name == name)
}
