//! The rules that need more than one row, and what a run needs of an accepted document: numbers in place of names, budgets, the tables of
//! the modes with their monitoring points, and the arrivals in their order.
use crate::document::{self as form, AtKind, Document, Name, Op, TermOp, NONE};

/// The broken rule with the least number, and its line.
pub struct Broken {
    pub rule: usize,
    pub line: u32,
}

pub const AT_CHECK: u8 = 0;
pub const AT_ENABLE: u8 = 1;
pub const AT_ACTIVATE: u8 = 2;

/// One thing that the dispatcher does at an offset, in the order of an instant: checks, enables, the activation.
#[derive(Clone, Copy)]
pub struct Due {
    pub offset: u32,
    pub kind: u8,
    /// The number of the task or of the ISR.
    pub who: u8,
    /// The activation's place in its mode.
    pub entry: u16,
}

#[derive(Clone, Copy)]
pub struct Activation {
    pub offset: u32,
    pub deadline: u32,
    /// Where it is monitored, or NONE for the round's end.
    pub point: u32,
    pub task: u8,
    pub stringent: bool,
}

#[derive(Default)]
pub struct Mode {
    pub activations: Vec<Activation>,
    /// Offset and ISR.
    pub enables: Vec<(u32, u8)>,
    /// In ascending order, with one past all offsets at the end.
    pub dues: Vec<Due>,
    /// Tasks that are checked at the round's end, by offset of activation.
    pub ends: Vec<u8>,
}

pub struct Config {
    pub document: Document,
    pub round: u64,
    pub adjust: u64,
    pub rounds: u64,
    pub start: usize,
    pub modes: Vec<Mode>,
    pub task_budgets: Vec<u64>,
    pub isr_budgets: Vec<u64>,
    pub values: Vec<Vec<u32>>,
    /// Tick times 64 and the source: ISRs from 0, OSEK ISRs from 16.
    pub arrivals: Vec<u64>,
    pub bounds_kept: bool,
}

const MOST_TICKS: u64 = 1_000_000_000_000;

fn first_broken(document: &Document, rules: std::ops::RangeInclusive<usize>) -> Result<(), Broken> {
    for rule in rules {
        if document.broken[rule] != NONE {
            return Err(Broken { rule, line: document.broken[rule] });
        }
    }
    Ok(())
}

fn kind_of(names: &[Name], id: u32) -> u8 {
    names[id as usize].kind
}

fn number_of(names: &[Name], id: u32) -> u32 {
    u32::from(names[id as usize].number)
}

/// Rule 14 for the bodies, whose names become numbers.
fn resolve_code(document: &mut Document) {
    let mut broken = NONE;
    let Document { code, terms, names, .. } = document;
    for instr in code.iter_mut() {
        let wanted = match instr.op {
            Op::Take => form::DEMAND,
            Op::Set => form::VAR,
            Op::Switch => form::MODE,
            Op::Activate | Op::Chain => form::OSEK,
            _ => form::UNDECLARED,
        };
        let mut sound = true;
        if wanted != form::UNDECLARED {
            sound = kind_of(names, instr.b) == wanted;
            instr.b = number_of(names, instr.b);
        }
        if matches!(instr.op, Op::Set | Op::If | Op::Out) {
            let first = instr.c as usize;
            for term in &mut terms[first..first + usize::from(instr.a)] {
                if term.op == TermOp::Var {
                    sound &= kind_of(names, term.v as u32) == form::VAR;
                    term.v = number_of(names, term.v as u32) as i32;
                }
            }
        }
        if !sound && broken == NONE {
            broken = instr.line;
        }
    }
    document.note(14, broken);
}

/// Rule 14 for the other rows.
fn resolve_rows(document: &mut Document) {
    let mut broken = NONE;
    let names = &document.names;
    let mut ask = |sound: bool, line: u32| {
        if !sound {
            broken = broken.min(line);
        }
    };
    for at in &mut document.ats {
        let wanted = if at.kind == AtKind::Enable { form::ISR } else { form::TASK };
        ask(kind_of(names, at.mode) == form::MODE && kind_of(names, at.other) == wanted, at.line);
        at.mode = number_of(names, at.mode);
        at.other = number_of(names, at.other);
    }
    for &(mode, line) in &document.starts {
        ask(kind_of(names, mode) == form::MODE, line);
    }
    for value in &document.values {
        ask(kind_of(names, value.name) == form::DEMAND, value.line);
    }
    for arrival in &document.arrivals {
        ask(matches!(kind_of(names, arrival.name), form::ISR | form::OISR), arrival.line);
    }
    document.note(14, broken);
}

/// The worst case of the statements from one place to another, or a number above every budget.
fn worst(document: &Document, from: usize, to: usize) -> u64 {
    let mut sum = 0u64;
    let mut at = from;
    while at < to {
        let instr = document.code[at];
        let (ticks, next) = match instr.op {
            Op::Work => (u64::from(instr.b), at + 1),
            Op::Take => (1 + document.demands[instr.b as usize].1, at + 1),
            Op::If => {
                let second = instr.b as usize;
                if instr.flag {
                    let after = document.code[second - 1].b as usize;
                    (1 + worst(document, at + 1, second - 1).max(worst(document, second, after)), after)
                } else {
                    (1 + worst(document, at + 1, second), second)
                }
            }
            Op::Repeat => {
                let again = instr.c as usize;
                (u64::from(instr.b).saturating_mul(1 + worst(document, at + 1, again)), again + 1)
            }
            _ => (1, at + 1),
        };
        sum = sum.saturating_add(ticks).min(MOST_TICKS + 1);
        at = next;
    }
    sum
}

/// The budget of each body that has one, by the place at which it begins; asks rule 17.
fn budgets(document: &mut Document) -> (Vec<u64>, Vec<u64>) {
    let ends: Vec<usize> = (0..document.code.len()).filter(|&at| document.code[at].op == Op::End).collect();
    let budget = |body: form::Body| {
        let start = body.start as usize;
        worst(document, start, ends[ends.partition_point(|&end| end < start)])
    };
    let mut broken = NONE;
    let mut ask = |body: form::Body| {
        let ticks = budget(body);
        if ticks > MOST_TICKS {
            broken = broken.min(body.line);
        }
        ticks
    };
    let tasks = document.tasks.iter().map(|task| ask(task.body)).collect();
    let isrs = document.isrs.iter().map(|isr| ask(isr.body)).collect();
    for osek in &document.oseks {
        ask(osek.body);
    }
    for oisr in &document.oisrs {
        ask(oisr.body);
    }
    document.note(17, broken);
    (tasks, isrs)
}

/// Rules 18 to 20 and 24.
fn ask_offsets(document: &mut Document, limit: u64) {
    let mut counts = [0u32; 16];
    for place in 0..document.ats.len() {
        let at = document.ats[place];
        let early = u64::from(at.offset) < limit;
        match at.kind {
            AtKind::Enable => {
                if !early {
                    document.note(19, at.line);
                }
            }
            _ => {
                if !early {
                    document.note(18, at.line);
                }
                if at.deadline <= at.offset || u64::from(at.deadline) > limit {
                    document.note(20, at.line);
                }
            }
        }
        counts[at.mode as usize] += 1;
        if counts[at.mode as usize] == 4097 {
            document.note(24, at.line);
        }
    }
}

/// Sorts the `at` rows into their modes and asks rules 21 to 23.
fn tables(document: &mut Document) -> Vec<Mode> {
    let count = document.modes.len();
    let mut rows: Vec<Vec<(u64, u32)>> = (0..count).map(|_| Vec::new()).collect();
    for (place, at) in document.ats.iter().enumerate() {
        let isr = if at.kind == AtKind::Enable { 1 + u64::from(at.other) } else { 0 };
        rows[at.mode as usize].push((isr << 32 | u64::from(at.offset), place as u32));
    }
    let mut modes = Vec::with_capacity(count);
    for mut keys in rows {
        keys.sort_unstable();
        for pair in keys.windows(2) {
            if pair[0].0 == pair[1].0 {
                let rule = if pair[0].0 >> 32 == 0 { 21 } else { 22 };
                document.note(rule, document.ats[pair[1].1 as usize].line);
            }
        }
        let mut mode = Mode::default();
        let mut next_of_task = [NONE; 256];
        let (activations, enables) = keys.split_at(keys.partition_point(|key| key.0 >> 32 == 0));
        for &(_, place) in activations.iter().rev() {
            let at = document.ats[place as usize];
            if next_of_task[at.other as usize] < at.deadline {
                document.note(23, at.line);
            }
            next_of_task[at.other as usize] = at.offset;
        }
        mode.activations.extend(activations.iter().map(|&(_, place)| {
            let at = document.ats[place as usize];
            let stringent = at.kind == AtKind::Stringent;
            Activation { offset: at.offset, deadline: at.deadline, point: at.deadline, task: at.other as u8, stringent }
        }));
        mode.enables.extend(enables.iter().map(|&(key, place)| (key as u32, document.ats[place as usize].other as u8)));
        mode.enables.sort_unstable();
        modes.push(mode);
    }
    modes
}

/// Finds the monitoring points of a mode and sorts what is due.
fn find_points(mode: &mut Mode) {
    let mut stops: Vec<u32> = mode.enables.iter().map(|enable| enable.0).collect();
    stops.extend(mode.activations.iter().map(|activation| activation.offset));
    stops.extend(mode.activations.iter().filter(|activation| activation.stringent).map(|activation| activation.deadline));
    stops.sort_unstable();
    let mut dues = Vec::with_capacity(2 * mode.activations.len() + mode.enables.len() + 1);
    for (entry, activation) in mode.activations.iter_mut().enumerate() {
        if !activation.stringent {
            activation.point = stops.get(stops.partition_point(|&stop| stop < activation.deadline)).copied().unwrap_or(NONE);
        }
        let (entry, who) = (entry as u16, activation.task);
        if activation.point == NONE {
            mode.ends.push(who);
        } else {
            dues.push(Due { offset: activation.point, kind: AT_CHECK, who, entry });
        }
        dues.push(Due { offset: activation.offset, kind: AT_ACTIVATE, who, entry });
    }
    dues.extend(mode.enables.iter().map(|&(offset, who)| Due { offset, kind: AT_ENABLE, who, entry: u16::from(who) }));
    dues.sort_unstable_by_key(|due| u64::from(due.offset) << 32 | u64::from(due.kind) << 16 | u64::from(due.entry));
    dues.push(Due { offset: NONE, kind: AT_ACTIVATE, who: 0, entry: 0 });
    mode.dues = dues;
}

/// The arrivals in the order in which they happen; asks rule 27. Also whether each ISR with a distance keeps it.
fn arrivals(document: &mut Document) -> (Vec<u64>, bool) {
    let mut sorted = Vec::with_capacity(document.arrivals.len());
    let mut last: [Option<u64>; 32] = [None; 32];
    let mut broken = NONE;
    let mut kept = true;
    for arrival in &document.arrivals {
        let name = document.names[arrival.name as usize];
        let source = usize::from(name.number) + if name.kind == form::OISR { 16 } else { 0 };
        if let Some(before) = last[source] {
            if arrival.number <= before {
                broken = broken.min(arrival.line);
            } else if source < 16 {
                kept &= document.isrs[source].distance.is_none_or(|distance| arrival.number - before >= distance);
            }
        }
        last[source] = Some(arrival.number);
        sorted.push(arrival.number << 6 | source as u64);
    }
    sorted.sort_unstable();
    document.note(27, broken);
    (sorted, kept)
}

pub fn accept(mut document: Document) -> Result<Config, Broken> {
    first_broken(&document, 1..=13)?;
    resolve_code(&mut document);
    resolve_rows(&mut document);
    first_broken(&document, 14..=16)?;
    let (task_budgets, isr_budgets) = budgets(&mut document);
    let round = document.round.unwrap_or(0);
    let adjust = document.adjust.map_or(0, |(most, _)| most);
    ask_offsets(&mut document, round - adjust);
    first_broken(&document, 17..=20)?;
    let mut modes = tables(&mut document);
    first_broken(&document, 21..=26)?;
    let (arrivals, mut bounds_kept) = arrivals(&mut document);
    first_broken(&document, 27..=28)?;
    modes.iter_mut().for_each(find_points);
    let mut values: Vec<Vec<u32>> = document.demands.iter().map(|_| Vec::new()).collect();
    for value in &document.values {
        let demand = number_of(&document.names, value.name) as usize;
        bounds_kept &= value.number <= document.demands[demand].1;
        values[demand].push(value.number as u32);
    }
    document.ats = Vec::new();
    document.arrivals = Vec::new();
    let start = number_of(&document.names, document.starts[0].0) as usize;
    let rounds = document.rounds.unwrap_or(0);
    Ok(Config { round, adjust, rounds, start, modes, task_budgets, isr_budgets, values, arrivals, bounds_kept, document })
}
