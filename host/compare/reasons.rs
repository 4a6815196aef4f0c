//! Why WRITEs were refused (request E6): which rules barred each, by the state and the store that it met, and which one was told.

use crate::frames::WRITE;
use crate::table::Table;
use rust_tag::tag::State;

/// The rules by their places, which begin with 1.
const RULES: [&str; 6] = ["AUTH0", "Random ID bit", "own lock bit", "pair lock bit", "key lock", "configuration lock"];
/// What can bar a WRITE at once: a page has one lock at most, and page 29h has the Random ID bit beside it.
const TOGETHER: [&[usize]; 13] =
    [&[1], &[2], &[3], &[4], &[5], &[6], &[1, 2], &[1, 3], &[1, 4], &[1, 5], &[1, 6], &[2, 6], &[1, 2, 6]];
/// Places that can be told, and one for any byte above them.
const TOLD: usize = RULES.len() + 2;

/// The state and the store that a frame met.
pub struct Met<'a> {
    pub state: State,
    pub store: &'a [u8],
}

/// Counts by the rules that barred a WRITE, a bit for each place, and by the place that was told.
pub struct Reasons([[u64; TOLD]; 1 << (RULES.len() + 1)]);

impl Reasons {
    pub fn new() -> Reasons {
        Reasons([[0; TOLD]; 1 << (RULES.len() + 1)])
    }

    /// A frame as it was sent, its number and the place that was told. Only 0, 6 and 7 say that no check before the rules refused it.
    pub fn note(&mut self, met: &Met, frame: &[u8], number: u8, told: u8) {
        let barring = match (number, frame) {
            (0 | 6 | 7, &[WRITE, page, first, _, _, _, _, _]) => bars(met, page, first),
            _ => 0,
        };
        self.0[barring][usize::from(told).min(TOLD - 1)] += 1;
    }

    pub fn table(&self) -> Table {
        let mut table = Table::new("Rules that barred a WRITE at once, and the place told");
        for places in TOGETHER {
            table.line(names(set_of(places)), [(places[0].to_string(), self.0[set_of(places)][places[0]])]);
        }
        table.line("none, or another command", [("0".to_string(), self.0[0][0])]);
        table
    }

    /// What was met and stands in no cell: a place that is not the first, one at an answer that has none, or rules that can't meet.
    pub fn surprises(&self) -> Vec<String> {
        let first = |set: usize, told: usize| TOGETHER.iter().any(|places| set_of(places) == set && places[0] == told);
        let cells = (0..self.0.len()).flat_map(|set| (0..TOLD).map(move |told| (set, told)));
        let found = cells.filter(|&(set, told)| self.0[set][told] > 0 && (set, told) != (0, 0) && !first(set, told));
        found.map(|(set, told)| format!("frame barred by {}, place {told} told", names(set))).collect()
    }
}

fn set_of(places: &[usize]) -> usize {
    places.iter().map(|place| 1 << place).sum()
}

fn names(set: usize) -> String {
    let barring: Vec<&str> = (1..=RULES.len()).filter(|place| set >> place & 1 != 0).map(|place| RULES[place - 1]).collect();
    if barring.is_empty() { "no rule".to_string() } else { barring.join(" and ") }
}

/// All rules that bar a WRITE to a page, each judged by itself, where the tag stops at the first.
fn bars(met: &Met, page: u8, first: u8) -> usize {
    let byte = |page: usize, at: usize| met.store[4 * page + at];
    let rules = [
        met.state != State::Authenticated && page >= byte(0x29, 3) & 0x7F,
        met.state == State::Active && page == 0x29 && (byte(0x29, 0) ^ first) & 1 != 0,
        match page {
            0x03..=0x07 => byte(0x02, 2) >> page & 1 != 0,
            0x08..=0x0F => byte(0x02, 3) >> (page - 0x08) & 1 != 0,
            _ => false,
        },
        match page {
            0x10..=0x1F => byte(0x28, 0) >> ((page - 0x10) / 2) & 1 != 0,
            0x20..=0x27 => byte(0x28, 1) >> ((page - 0x20) / 2) & 1 != 0,
            _ => false,
        },
        match page {
            0x2D => byte(0x2D, 0) & 0x20 != 0,
            0x30..=0x33 => byte(0x2D, 0) & 0x40 != 0,
            0x34..=0x37 => byte(0x2D, 0) & 0x80 != 0,
            _ => false,
        },
        matches!(page, 0x29 | 0x2A) && byte(0x2A, 0) & 0x40 != 0,
    ];
    (1..=RULES.len()).filter(|place| rules[place - 1]).map(|place| 1 << place).sum()
}
