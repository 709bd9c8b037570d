//! A row read as an automaton: what both unproved searches work on.
use pushkhami::Answer;

pub const MOST_CLOCKS: usize = 8;

#[derive(Clone, Copy, Debug)]
pub enum Relation {
    AtMost,
    Below,
    AtLeast,
    Above,
}

#[derive(Clone, Copy, Debug)]
pub struct Constraint {
    pub clock: usize,
    pub relation: Relation,
    pub bound: u32,
}

#[derive(Clone, Debug)]
pub struct Edge {
    pub source: u32,
    pub target: u32,
    pub guard: Vec<Constraint>,
    pub resets: Vec<usize>,
}

#[derive(Clone, Debug)]
pub struct Automaton {
    pub clocks: usize,
    pub invariants: Vec<Vec<Constraint>>,
    pub edges: Vec<Edge>,
    /// The greatest number that a clock is compared with.
    pub top: u32,
}

/// What a search tells: the answers, how many kinds of states there are, and how many turns entries had (each entry has one, and one more
/// whenever its label got earlier behind its turn).
#[derive(Clone, Debug, PartialEq, Eq)]
pub struct Told {
    pub answers: Vec<Answer>,
    pub kinds: usize,
    pub turns: usize,
}

struct Words<'a>(std::slice::Iter<'a, u32>);

impl Words<'_> {
    fn next(&mut self) -> u32 {
        *self.0.next().expect("the row ends too soon")
    }

    fn constraint(&mut self) -> Constraint {
        let clock = self.next() as usize;
        let relation = match self.next() {
            0 => Relation::AtMost,
            1 => Relation::Below,
            2 => Relation::AtLeast,
            _ => Relation::Above,
        };
        Constraint {
            clock,
            relation,
            bound: self.next(),
        }
    }

    fn conjunction(&mut self) -> Vec<Constraint> {
        (0..self.next()).map(|_| self.constraint()).collect()
    }

    fn edge(&mut self) -> Edge {
        Edge {
            source: self.next(),
            target: self.next(),
            guard: self.conjunction(),
            resets: (0..self.next()).map(|_| self.next() as usize).collect(),
        }
    }
}

impl Automaton {
    /// Reads a row that is known to be an automaton's.
    pub fn read(row: &[u32]) -> Self {
        let mut words = Words(row.iter());
        let clocks = words.next() as usize;
        let locations = words.next();
        let invariants: Vec<_> = (0..locations).map(|_| words.conjunction()).collect();
        let mut edges = Vec::new();
        while !words.0.as_slice().is_empty() {
            edges.push(words.edge());
        }
        let top = invariants
            .iter()
            .flatten()
            .chain(edges.iter().flat_map(|edge| &edge.guard))
            .map(|constraint| constraint.bound)
            .max()
            .unwrap_or(0);
        Automaton {
            clocks,
            invariants,
            edges,
            top,
        }
    }
}
