//! The exploration: every state reachable from a fresh release, nearest first, and every due step
//! between two states.

use std::collections::HashMap;
use std::hash::{BuildHasherDefault, Hasher};
use std::ops::Range;

use crate::model::state::{State, Taken};
use crate::model::{Figures, Rules, Violation};
use crate::schedule::{Header, Record};

/// The clause that a step breaks, if it breaks one.
pub type StepCheck = fn(&Taken) -> Result<(), &'static str>;

/// Stands at the fresh state, which no step leads to.
const NO_PLACE: u32 = u32::MAX;

/// The reachable states, each at its place in the order in which they were found.
pub struct Graph {
    pub header: Header,
    steps: Vec<Record>,
    places: HashMap<u64, u32, BuildHasherDefault<PackedHasher>>,
    states: Vec<u64>,
    /// For each state the one that it was found from, and the number of the step that led to it.
    found_from: Vec<u32>,
    found_by: Vec<u8>,
    depths: Vec<u16>,
    /// For each state the end of its due steps; for each due step its number and where it leads.
    due_ends: Vec<usize>,
    due_numbers: Vec<u8>,
    due_targets: Vec<u32>,
}

impl Graph {
    /// Explores from the fresh release and checks every step, due or not, of every state found.
    pub fn explore(
        header: Header,
        steps: Vec<Record>,
        rules: Rules,
        check: StepCheck,
    ) -> Result<Graph, Violation> {
        let mut graph = Graph {
            header,
            steps,
            places: HashMap::default(),
            states: Vec::new(),
            found_from: Vec::new(),
            found_by: Vec::new(),
            depths: Vec::new(),
            due_ends: Vec::new(),
            due_numbers: Vec::new(),
            due_targets: Vec::new(),
        };
        graph.find(&State::fresh(header), NO_PLACE, 0);
        let mut place = 0;
        while place < graph.states.len() {
            graph.take_all_steps(place, rules, check)?;
            place += 1;
        }
        Ok(graph)
    }

    fn take_all_steps(
        &mut self,
        place: usize,
        rules: Rules,
        check: StepCheck,
    ) -> Result<(), Violation> {
        let before = self.state(place);
        for number in 0..self.steps.len() {
            let taken = before.take(self.steps[number], rules);
            if let Err(clause) = check(&taken) {
                return Err(self.violation(clause, place, &[taken.step]));
            }
            if taken.report.is_some() {
                let target = self.find(&taken.after, place as u32, number as u8);
                self.due_numbers.push(number as u8);
                self.due_targets.push(target);
            }
        }
        self.due_ends.push(self.due_numbers.len());
        Ok(())
    }

    /// The place of this state, which is a new one if the state was not found before.
    fn find(&mut self, state: &State, from: u32, by: u8) -> u32 {
        let packed = state.pack();
        let new_place = self.states.len() as u32;
        let place = *self.places.entry(packed).or_insert(new_place);
        if place == new_place {
            let depth = match from {
                NO_PLACE => 0,
                _ => self.depths[from as usize] + 1,
            };
            self.states.push(packed);
            self.found_from.push(from);
            self.found_by.push(by);
            self.depths.push(depth);
        }
        place
    }

    pub fn number_of_states(&self) -> usize {
        self.states.len()
    }

    pub fn state(&self, place: usize) -> State {
        State::unpack(self.header, self.states[place])
    }

    pub fn is_reachable(&self, state: &State) -> bool {
        self.places.contains_key(&state.pack())
    }

    /// The due steps of the state at this place, each with the place that it leads to.
    pub fn due_steps(&self, place: usize) -> impl Iterator<Item = (Record, usize)> + '_ {
        let start = match place {
            0 => 0,
            _ => self.due_ends[place - 1],
        };
        let due = start..self.due_ends[place];
        let targets = &self.due_targets[due.clone()];
        let steps = self.due_numbers[due].iter();
        steps
            .map(|&number| self.steps[usize::from(number)])
            .zip(targets.iter().map(|&target| target as usize))
    }

    /// The places of the states whose shortest list has that many steps; there are none beyond the
    /// longest.
    pub fn level(&self, depth: usize) -> Range<usize> {
        let start = self.depths.partition_point(|&d| usize::from(d) < depth);
        let end = self.depths.partition_point(|&d| usize::from(d) <= depth);
        start..end
    }

    /// A shortest list of steps from the fresh release to the state at this place.
    pub fn steps_to(&self, place: usize) -> Vec<Record> {
        let mut steps = Vec::new();
        let mut place = place;
        while self.found_from[place] != NO_PLACE {
            steps.push(self.steps[usize::from(self.found_by[place])]);
            place = self.found_from[place] as usize;
        }
        steps.reverse();
        steps
    }

    /// This clause does not hold at that place after those further steps.
    pub fn violation(&self, clause: &str, place: usize, further: &[Record]) -> Violation {
        let mut steps = self.steps_to(place);
        steps.extend(further);
        Violation::new(clause, self.header, &steps)
    }

    pub fn figures(&self) -> Figures {
        Figures {
            states: self.states.len(),
            steps: self.states.len() * self.steps.len(),
            due_steps: self.due_numbers.len(),
            ..Figures::default()
        }
    }
}

/// A short hash of one packed state: the standard one takes most of the exploration's time.
#[derive(Default)]
pub struct PackedHasher(u64);

impl Hasher for PackedHasher {
    fn finish(&self) -> u64 {
        self.0
    }

    fn write(&mut self, bytes: &[u8]) {
        for byte in bytes {
            self.write_u64(u64::from(*byte));
        }
    }

    fn write_u64(&mut self, packed: u64) {
        // An odd number without a pattern in its bits spreads the fields over the high half.
        let product = (self.0 ^ packed).wrapping_mul(0x9E37_79B9_7F4A_7C15);
        self.0 = product ^ (product >> 32);
    }
}
