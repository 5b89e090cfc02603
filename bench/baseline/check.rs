//! The texts of `check` and `table`, and the bounds that `load` prints.
use crate::config::{Config, Mode, AT_CHECK, AT_ENABLE};
use crate::document::Name;
use std::io::Write;

/// The name as text.
pub fn text(name: &Name) -> &str {
    std::str::from_utf8(&name.text[..usize::from(name.length)]).unwrap_or("")
}

impl Config {
    pub fn name(&self, id: u32) -> &str {
        text(&self.document.names[id as usize])
    }
    pub fn mode_name(&self, mode: usize) -> &str {
        self.name(self.document.modes[mode])
    }
    pub fn task_name(&self, task: u8) -> &str {
        self.name(self.document.tasks[usize::from(task)].name)
    }
    pub fn isr_name(&self, isr: u8) -> &str {
        self.name(self.document.isrs[usize::from(isr)].name)
    }
}

pub fn table(config: &Config, to: &mut Vec<u8>) -> std::io::Result<()> {
    for (number, mode) in config.modes.iter().enumerate() {
        writeln!(to, "mode {}", config.mode_name(number))?;
        for due in &mode.dues[..mode.dues.len() - 1] {
            match due.kind {
                AT_CHECK => writeln!(to, "{} check {}", due.offset, config.task_name(due.who))?,
                AT_ENABLE => writeln!(to, "{} enable {}", due.offset, config.isr_name(due.who))?,
                _ => {
                    let activation = mode.activations[usize::from(due.entry)];
                    let form = if activation.stringent { "stringent" } else { "nonstringent" };
                    let name = config.task_name(due.who);
                    writeln!(to, "{} activate {} {} {}", due.offset, name, activation.deadline, form)?;
                }
            }
        }
        for &task in &mode.ends {
            writeln!(to, "end check {}", config.task_name(task))?;
        }
    }
    Ok(())
}

/// An ISR with a distance and with enables in the mode.
struct Far<'a> {
    budget: u64,
    distance: u64,
    enables: Vec<&'a (u32, u8)>,
    /// The first enable at or after the activation that is looked at.
    first: usize,
}

/// The response end of each activation of a mode, or None with the demand at the deadline.
fn responses(config: &Config, mode: &Mode, mut answer: impl FnMut(usize, Result<u64, u64>)) {
    let carried: u64 = 2 * config.isr_budgets.iter().sum::<u64>();
    let isrs = &config.document.isrs;
    // What costs its budget each time that it stands before t: offset and cost, in ascending order of offset.
    let mut costs: Vec<(u64, u64)> = Vec::with_capacity(mode.activations.len() + mode.enables.len());
    costs.extend(mode.activations.iter().map(|one| (u64::from(one.offset), config.task_budgets[usize::from(one.task)])));
    let near = mode.enables.iter().filter(|enable| isrs[usize::from(enable.1)].distance.is_none());
    costs.extend(near.map(|&(offset, isr)| (u64::from(offset), config.isr_budgets[usize::from(isr)])));
    costs.sort_unstable_by_key(|cost| cost.0);
    let mut fars: Vec<Far> = Vec::new();
    for (number, isr) in isrs.iter().enumerate() {
        let enables: Vec<_> = mode.enables.iter().filter(|enable| usize::from(enable.1) == number).collect();
        if let (Some(distance), false) = (isr.distance, enables.is_empty()) {
            fars.push(Far { budget: config.isr_budgets[number], distance, enables, first: 0 });
        }
    }
    let mut first = 0;
    for (entry, activation) in mode.activations.iter().enumerate() {
        let from = u64::from(activation.offset);
        let deadline = u64::from(activation.deadline);
        while costs.get(first).is_some_and(|cost| cost.0 < from) {
            first += 1;
        }
        for far in &mut fars {
            while far.enables.get(far.first).is_some_and(|enable| u64::from(enable.0) < from) {
                far.first += 1;
            }
        }
        let mut next = first;
        let mut near = carried;
        let mut counted = [0usize; 16];
        let mut demand = |t: u64| {
            while next < costs.len() && costs[next].0 < t {
                near += costs[next].1;
                next += 1;
            }
            let mut sum = near;
            for (far, count) in fars.iter().zip(&mut counted) {
                while far.enables.get(far.first + *count).is_some_and(|enable| u64::from(enable.0) < t) {
                    *count += 1;
                }
                sum += far.budget * (*count as u64).min((t - from).div_ceil(far.distance));
            }
            sum
        };
        // Between t and from + demand(t) the demand is no smaller than at t, so no tick there can be the response end.
        let mut t = from + 1;
        let end = loop {
            let sum = demand(t);
            if sum <= t - from {
                break Ok(t);
            }
            if from + sum > deadline {
                break Err(demand(deadline));
            }
            t = from + sum;
        };
        answer(entry, end);
    }
}

/// Writes the answer of `check`; whether it is yes.
pub fn check(config: &Config, to: &mut Vec<u8>) -> std::io::Result<bool> {
    let mut yes = true;
    for (number, mode) in config.modes.iter().enumerate() {
        let mode_name = config.mode_name(number);
        responses(config, mode, |entry, end| {
            let one = mode.activations[entry];
            let (word, ticks) = match end {
                Ok(ticks) => ("response", ticks),
                Err(sum) => ("late", sum),
            };
            yes &= end.is_ok();
            let name = config.task_name(one.task);
            let _ = writeln!(to, "{mode_name} {} {name} {word} {ticks} deadline {}", one.offset, one.deadline);
        });
    }
    writeln!(to, "bounds {}", if config.bounds_kept { "kept" } else { "broken" })?;
    writeln!(to, "check {}", if yes { "yes" } else { "no" })?;
    Ok(yes)
}

/// The bounds of the depth and of the stack words.
pub fn bounds(config: &Config) -> (u64, u64) {
    let stack = |task: u8| u64::from(config.document.tasks[usize::from(task)].stack);
    let (mut depth, mut words) = (0, 0);
    for mode in &config.modes {
        // A window opens at its offset and closes before its point; what closes at an offset goes before what opens there.
        let mut edges: Vec<(u32, bool, u64)> = Vec::with_capacity(2 * mode.activations.len());
        for one in &mode.activations {
            edges.push((one.offset, true, stack(one.task)));
            edges.push((one.point, false, stack(one.task)));
        }
        edges.sort_unstable_by_key(|edge| (edge.0, edge.1));
        let (mut open, mut sum) = (0u64, 0u64);
        for (_, opens, stack) in edges {
            if opens {
                open += 1;
                sum += stack;
                depth = depth.max(open);
                words = words.max(sum);
            } else {
                open -= 1;
                sum -= stack;
            }
        }
    }
    let isrs = &config.document.isrs;
    (depth + isrs.len() as u64, words + isrs.iter().map(|isr| u64::from(isr.stack)).sum::<u64>())
}
