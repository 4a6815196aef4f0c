//! What was met: numbers, commands in states, and rules, for the library's calls and for bench scripts.

use crate::frames::{AUTHENTICATE, FAST_READ, HLTA, INCR_CNT, PROOF, READ, READ_CNT, WRITE};
use crate::table::Table;
use rust_tag::rules::Rule;
use rust_tag::tag::State;

#[derive(Clone, Copy, Debug, PartialEq, Eq)]
pub enum Call {
    Power,
    Select,
    Load,
    Save,
    Frame,
}

const CALLS: [Call; 5] = [Call::Power, Call::Select, Call::Load, Call::Save, Call::Frame];
const NUMBERS: usize = 13;

/// The rows of commands; AUTHENTICATE has one for each key number and one for all others.
const COMMANDS: [&str; 13] = [
    "READ", "FAST_READ", "WRITE", "READ_CNT", "INCR_CNT", "AUTHENTICATE 0", "AUTHENTICATE 1", "AUTHENTICATE 2", "AUTHENTICATE 3-FFh", "AFh", "HLTA",
    "another code", "empty frame",
];
pub const STATES: [&str; 8] =
    ["WAITING", "ACTIVE", "TRACEABLE", "AUTHENTICATED", "CHALLENGED 0", "CHALLENGED 1", "CHALLENGED 2", "no such state or key"];
const OTHER_KEY: usize = 8;
const EMPTY: usize = 12;

fn command_row(frame: &[u8]) -> usize {
    match *frame {
        [] => EMPTY,
        [READ, ..] => 0,
        [FAST_READ, ..] => 1,
        [WRITE, ..] => 2,
        [READ_CNT, ..] => 3,
        [INCR_CNT, ..] => 4,
        // the two last bytes are the CRC
        [AUTHENTICATE, key @ 0..=2, _, _, ..] => 5 + usize::from(key),
        [AUTHENTICATE, ..] => OTHER_KEY,
        [PROOF, ..] => 9,
        [HLTA, ..] => 10,
        _ => 11,
    }
}

pub fn state_row(state: State) -> usize {
    match state {
        State::Waiting => 0,
        State::Active => 1,
        State::Traceable => 2,
        State::Authenticated => 3,
        State::Challenged(key @ 0..=2) => 4 + usize::from(key),
        _ => 7,
    }
}

/// The numbers that a command of this row can have in ACTIVE, TRACEABLE and AUTHENTICATED, 6 for the first two only.
fn selected_numbers(command: usize) -> &'static [u8] {
    match command {
        0 | 1 | 3 => &[0, 2, 4, 5, 6, 10],
        2 => &[0, 2, 4, 5, 6, 7, 10],
        4 => &[0, 2, 4, 5, 6, 9, 10],
        5..=7 => &[0, 2, 4, 10, 11],
        8 => &[2, 4, 5, 10],
        10 => &[0, 2, 4, 5, 10],
        EMPTY => &[2, 10],
        _ => &[2, 3, 10],
    }
}

fn possible_numbers(command: usize, state: usize) -> Vec<u8> {
    let numbers: &[u8] = match (state, command) {
        (0, _) => &[1, 10],
        (7, _) => &[10],
        (4..=6, 9) => &[0, 2, 4, 8, 10, 11],
        (4..=6, EMPTY) => &[2, 10],
        (4..=6, _) => &[2, 3, 10],
        _ => selected_numbers(command),
    };
    numbers.iter().copied().filter(|&n| n != 6 || state != 3).collect()
}

/// Whether a call can be answered by this rule.
fn possible_rule(call: Call, rule: Rule) -> bool {
    match (rule.number(), call) {
        (0, _) => true,
        (10, Call::Power | Call::Select) => rule == Rule::RecordLength,
        (10, Call::Load) => matches!(rule, Rule::RecordLength | Rule::StoreLength),
        (10, Call::Save) => !matches!(rule, Rule::ReplyLength | Rule::RandomLength),
        (10, Call::Frame) => rule != Rule::ImageBufferLength,
        (12, _) => call == Call::Load,
        _ => call == Call::Frame,
    }
}

/// The bench program makes its own CRC and its own buffers, and no record that a tag can't have. What a script can't bring about: 2 and 10,
/// and a limit that is reached only at part 2.
fn in_scripts(rule: Rule) -> bool {
    !matches!(rule.number(), 2 | 10) && rule != Rule::LimitAtPart2
}

pub struct Coverage {
    scripts: bool,
    rules: [Vec<u64>; CALLS.len()],
    commands: [[[u64; NUMBERS]; STATES.len()]; COMMANDS.len()],
}

impl Coverage {
    /// Counts for bench scripts, or else for the library's calls.
    pub fn new(scripts: bool) -> Coverage {
        let rules = std::array::from_fn(|_| vec![0; Rule::ALL.len()]);
        Coverage { scripts, rules, commands: [[[0; NUMBERS]; STATES.len()]; COMMANDS.len()] }
    }

    pub fn note(&mut self, call: Call, rule: Rule) {
        self.rules[call as usize][rule as usize] += 1;
    }

    pub fn note_frame(&mut self, state: State, frame: &[u8], rule: Rule) {
        self.note(Call::Frame, rule);
        self.commands[command_row(frame)][state_row(state)][usize::from(rule.number())] += 1;
    }

    fn possible(&self, call: Call, rule: Rule) -> bool {
        possible_rule(call, rule) && (!self.scripts || call != Call::Save && in_scripts(rule))
    }

    fn numbers(&self) -> Table {
        let mut table = Table::new("Numbers, by call");
        for call in CALLS {
            let rules = || Rule::ALL.iter().filter(|&&rule| self.possible(call, rule));
            let count = |n: u8| rules().filter(|rule| rule.number() == n).map(|&rule| self.rules[call as usize][rule as usize]).sum();
            let numbers = (0..NUMBERS as u8).filter(|&n| rules().any(|rule| rule.number() == n));
            table.line(format!("{call:?}"), numbers.map(|n| (n.to_string(), count(n))));
        }
        table
    }

    fn rules(&self) -> Table {
        let mut table = Table::new("Rules, by call");
        for &rule in Rule::ALL {
            let calls = CALLS.into_iter().filter(|&call| self.possible(call, rule));
            let label = format!("{:2} {}", rule.number(), rule.words());
            table.line(label, calls.map(|call| (format!("{call:?}"), self.rules[call as usize][rule as usize])));
        }
        table
    }

    fn commands(&self) -> Table {
        let mut table = Table::new("Commands in states, by number");
        for (c, command) in COMMANDS.iter().enumerate() {
            for (s, state) in STATES.iter().enumerate() {
                let numbers = (0..NUMBERS as u8).filter(|&n| self.possible_number(c, s, n));
                let cells = numbers.map(|n| (n.to_string(), self.commands[c][s][usize::from(n)]));
                table.line(format!("{command}, {state}"), cells);
            }
        }
        table
    }

    pub fn tables(&self) -> Vec<Table> {
        vec![self.numbers(), self.rules(), self.commands()]
    }

    /// What was met and stands in no table: then the tables are wrong about what can be.
    pub fn surprises(&self) -> Vec<String> {
        let mut found = Vec::new();
        for call in CALLS {
            let rules = Rule::ALL.iter().filter(|&&rule| self.rules[call as usize][rule as usize] > 0 && !self.possible(call, rule));
            found.extend(rules.map(|rule| format!("{call:?}: {} {}", rule.number(), rule.words())));
        }
        for (c, command) in COMMANDS.iter().enumerate() {
            for (s, state) in STATES.iter().enumerate() {
                let numbers = (0..NUMBERS as u8).filter(|&n| self.commands[c][s][usize::from(n)] > 0 && !self.possible_number(c, s, n));
                found.extend(numbers.map(|n| format!("{command}, {state}: {n}")));
            }
        }
        found
    }

    fn possible_number(&self, command: usize, state: usize, number: u8) -> bool {
        possible_numbers(command, state).contains(&number) && (!self.scripts || script_number(command, number))
    }
}

/// Whether a script can bring about this number for a command of this row.
fn script_number(command: usize, number: u8) -> bool {
    !matches!(number, 2 | 10) && command != EMPTY && (number, command) != (11, 9)
}
