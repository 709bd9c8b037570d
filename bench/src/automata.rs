//! Automata whose number of kinds of states grows with their parameters, as rows.

const AT_MOST: u32 = 0;
const AT_LEAST: u32 = 2;
const ABOVE: u32 = 3;

type Test = (u32, u32, u32);

/// A row in the making.
pub struct Builder {
    clocks: u32,
    invariants: Vec<Vec<Test>>,
    edges: Vec<u32>,
}

impl Builder {
    pub fn new(clocks: u32, locations: u32) -> Self {
        Builder {
            clocks,
            invariants: vec![Vec::new(); locations as usize],
            edges: Vec::new(),
        }
    }

    fn invariant(&mut self, location: u32, test: Test) {
        self.invariants[location as usize].push(test);
    }

    fn edge(&mut self, source: u32, target: u32, guard: &[Test], resets: &[u32]) {
        self.edges.extend([source, target, guard.len() as u32]);
        for (clock, relation, bound) in guard {
            self.edges.extend([*clock, *relation, *bound]);
        }
        self.edges.push(resets.len() as u32);
        self.edges.extend(resets);
    }

    fn row(self) -> Vec<u32> {
        let mut row = vec![self.clocks, self.invariants.len() as u32];
        for tests in &self.invariants {
            row.push(tests.len() as u32);
            row.extend(tests.iter().flat_map(|test| [test.0, test.1, test.2]));
        }
        row.extend(self.edges);
        row
    }
}

/// One clock that goes up to a large top at each of many positions: no steps but to the next position, and back to the first.
pub fn one_clock(top: u32, locations: u32) -> Vec<u32> {
    let mut all = Builder::new(1, locations);
    for location in 0..locations {
        all.edge(
            location,
            (location + 1) % locations,
            &[(0, AT_LEAST, top)],
            &[0],
        );
    }
    all.row()
}

/// A wheel that may come round whenever a tick or more has passed, until a second clock is at the top.
pub fn mill(top: u32) -> Vec<u32> {
    let mut all = Builder::new(2, 1);
    all.invariant(0, (0, AT_MOST, top));
    all.edge(0, 0, &[(1, AT_LEAST, 1)], &[1]);
    all.row()
}

/// A clock that goes up to a large top, and one that is set back after one to two ticks each time.
pub fn beat(top: u32) -> Vec<u32> {
    let mut all = Builder::new(2, 1);
    all.invariant(0, (0, AT_MOST, top));
    all.invariant(0, (1, AT_MOST, 2));
    all.edge(0, 0, &[(1, AT_LEAST, 1)], &[1]);
    all.row()
}

/// So many clocks that go up to a large top together, and are set back together.
pub fn together(clocks: u32, top: u32) -> Vec<u32> {
    let mut all = Builder::new(clocks, 1);
    let resets: Vec<_> = (0..clocks).collect();
    all.invariant(0, (0, AT_MOST, top));
    all.edge(0, 0, &[(clocks - 1, AT_LEAST, top)], &resets);
    all.row()
}

/// So many clocks that are set back in turn, a position for each; the clock that is set back next is not above the top.
pub fn turns(clocks: u32, top: u32) -> Vec<u32> {
    let mut all = Builder::new(clocks, clocks);
    for clock in 0..clocks {
        all.invariant(clock, (clock, AT_MOST, top));
        all.edge(clock, (clock + 1) % clocks, &[(clock, ABOVE, 0)], &[clock]);
    }
    all.row()
}

/// So many clocks, each of which may be set back at any time.
pub fn free(clocks: u32, top: u32) -> Vec<u32> {
    let mut all = Builder::new(clocks, 2);
    for clock in 0..clocks {
        all.edge(0, 0, &[(clock, AT_LEAST, 1)], &[clock]);
    }
    all.edge(0, 1, &[(0, AT_LEAST, top)], &[]);
    all.row()
}

/// Many steps at one position, with guards of all sorts, most of which lead back to it.
pub fn many_steps(clocks: u32, top: u32, steps: u32) -> Vec<u32> {
    let mut all = Builder::new(clocks, 2);
    for step in 0..steps {
        let clock = step % clocks;
        let bound = 1 + step * (top - 1) / steps;
        let other = (step + 1) % clocks;
        let target = u32::from(step % 50 == 49);
        all.edge(
            0,
            target,
            &[(clock, AT_LEAST, bound), (other, AT_MOST, top)],
            &[clock],
        );
    }
    all.edge(1, 0, &[], &[0]);
    all.row()
}

/// A ring of positions in which no time passes.
pub fn ring(clocks: u32, locations: u32) -> Vec<u32> {
    let mut all = Builder::new(clocks, locations);
    for location in 0..locations {
        all.invariant(location, (0, AT_MOST, 0));
        all.edge(location, (location + 1) % locations, &[], &[clocks - 1]);
    }
    all.row()
}

/// Clocks run freely at the first position; then a ring of positions in which no time passes.
pub fn ring_after(clocks: u32, top: u32, locations: u32) -> Vec<u32> {
    let mut all = Builder::new(clocks, locations + 1);
    for clock in 1..clocks {
        all.edge(0, 0, &[(clock, AT_LEAST, 1)], &[clock]);
    }
    all.edge(0, 1, &[(1, AT_MOST, top)], &[0]);
    for location in 1..=locations {
        all.invariant(location, (0, AT_MOST, 0));
        all.edge(location, location % locations + 1, &[], &[0]);
    }
    all.row()
}

/// Numbers that look random: the generator of the test `sixtieths`.
pub struct Generator(u64);

impl Generator {
    pub fn new(seed: u64) -> Self {
        Generator(seed)
    }

    fn next(&mut self) -> u32 {
        self.0 = self
            .0
            .wrapping_mul(6_364_136_223_846_793_005)
            .wrapping_add(1_442_695_040_888_963_407);
        (self.0 >> 32) as u32
    }

    fn below(&mut self, count: u32) -> u32 {
        self.next() % count
    }

    fn constraint(&mut self, clocks: u32, relations: u32, bounds: u32) -> Test {
        (
            self.below(clocks),
            self.below(relations),
            self.below(bounds),
        )
    }

    /// The automata of `sixtieths`, number for number: 3 to 5 locations, two clocks, bounds from 0 to 4.
    pub fn invent(&mut self) -> Vec<u32> {
        let locations = 3 + self.below(3);
        let mut all = Builder::new(2, locations);
        for location in 0..locations {
            if self.below(3) == 0 {
                let test = self.constraint(2, 2, 5);
                all.invariant(location, test);
            }
        }
        for target in 1..locations {
            let source = match self.below(6) {
                0 => target,
                _ => self.below(target),
            };
            self.invent_edge(&mut all, source, target);
        }
        for _ in 0..2 + self.below(3) {
            let source = self.below(locations);
            let target = self.below(locations);
            self.invent_edge(&mut all, source, target);
        }
        all.row()
    }

    fn invent_edge(&mut self, all: &mut Builder, source: u32, target: u32) {
        let count = 1 + self.below(2);
        let guard: Vec<_> = (0..count).map(|_| self.constraint(2, 4, 5)).collect();
        let resets = match self.below(4) {
            0 => vec![],
            1 => vec![0, 1],
            _ => vec![self.below(2)],
        };
        all.edge(source, target, &guard, &resets);
    }
}

/// The 300 automata that `sixtieths` makes from its seed.
pub fn random() -> Vec<Vec<u32>> {
    let mut numbers = Generator::new(60);
    (0..300).map(|_| numbers.invent()).collect()
}
