//! Random documents. Most meet all rules; each is made of everything that a document may have. Some of their numbers are near their limits.
use crate::random::Random;

#[derive(Clone, Copy, PartialEq, Eq)]
enum Owner {
    Task,
    Isr,
    Osek,
    Oisr,
}

const WORDS_AS_NAMES: [&str; 16] = [
    "work",
    "end",
    "at",
    "start",
    "m1",
    "auto",
    "stringent",
    "_",
    "x_y",
    "Z9",
    "a_name_of_16_byt",
    "osektime",
    "if",
    "Idle",
    "error",
    "A_name_of_16_byt",
];
const VALUES: [&str; 10] = ["0", "1", "2", "3", "-1", "5", "-7", "2147483647", "-2147483648", "65536"];

/// What a document is made of.
pub struct Maker<'a> {
    random: &'a mut Random,
    lines: Vec<String>,
    modes: Vec<String>,
    vars: Vec<String>,
    demands: Vec<String>,
    tasks: Vec<String>,
    isrs: Vec<String>,
    oseks: Vec<String>,
    oisrs: Vec<String>,
    shutdowns: bool,
}

impl Maker<'_> {
    fn line(&mut self, text: String) {
        self.lines.push(text);
    }

    fn expression(&mut self, depth: u64) -> String {
        if depth == 0 || self.random.once_in(2) {
            if !self.vars.is_empty() && self.random.once_in(2) {
                return self.random.of(&self.vars).clone();
            }
            return (*self.random.of(&VALUES)).to_string();
        }
        let operator = *self.random.of(&["+", "-", "*", "<", "<=", "==", "!="]);
        format!("{operator} {} {}", self.expression(depth - 1), self.expression(depth - 1))
    }

    /// An expression whose line has nearly 200 bytes.
    fn long_expression(&mut self) -> String {
        let terms = self.random.from_to(40, 48);
        let mut text = String::new();
        for _ in 0..terms {
            text += *self.random.of(&["+ ", "- ", "* ", "< "]);
        }
        for _ in 0..=terms {
            text += *self.random.of(&["1", "2", "3"]);
            text += " ";
        }
        text.trim_end().to_string()
    }

    fn any_expression(&mut self) -> String {
        if self.random.once_in(40) {
            return self.long_expression();
        }
        let depth = self.random.to(3);
        self.expression(depth)
    }

    fn work(&mut self) -> u64 {
        match self.random.to(20) {
            0 => self.random.from_to(1, 30),
            1 => 1,
            _ => self.random.from_to(1, 4),
        }
    }

    fn statement(&mut self, owner: Owner, depth: u64) {
        let timed = matches!(owner, Owner::Task | Owner::Isr);
        match self.random.to(19) {
            0..=6 => {
                let ticks = self.work();
                self.line(format!("work {ticks}"));
            }
            7 | 8 => {
                let text = self.any_expression();
                self.line(format!("out {text}"));
            }
            9 | 10 if !self.vars.is_empty() => {
                let name = self.random.of(&self.vars).clone();
                let text = self.any_expression();
                self.line(format!("set {name} {text}"));
            }
            11 | 12 if !self.demands.is_empty() => {
                let name = self.random.of(&self.demands).clone();
                self.line(format!("take {name}"));
            }
            13 if depth < 4 => {
                let text = self.any_expression();
                self.line(format!("if {text}"));
                self.block(owner, depth + 1);
                if self.random.once_in(2) {
                    self.line("else".to_string());
                    self.block(owner, depth + 1);
                }
                self.line("end".to_string());
            }
            14 | 15 if depth < 4 => {
                let turns = self.random.from_to(1, 3);
                self.line(format!("repeat {turns}"));
                self.block(owner, depth + 1);
                self.line("end".to_string());
            }
            16 if timed => {
                let mode = self.random.of(&self.modes).clone();
                self.line(format!("switch {mode}"));
            }
            17 if timed && self.shutdowns => self.line("shutdown".to_string()),
            17 | 18 if timed => self.line("sync".to_string()),
            16 | 17 if !timed && !self.oseks.is_empty() => {
                let name = self.random.of(&self.oseks).clone();
                self.line(format!("activate {name}"));
            }
            18 if owner == Owner::Osek => {
                let name = self.random.of(&self.oseks).clone();
                self.line(format!("chain {name}"));
            }
            19 if owner == Owner::Osek => self.line("terminate".to_string()),
            _ => self.line("work 1".to_string()),
        }
    }

    fn block(&mut self, owner: Owner, depth: u64) {
        for _ in 0..self.random.to(2) {
            self.statement(owner, depth);
        }
    }

    fn body(&mut self, owner: Owner) {
        for _ in 0..self.random.from_to(1, 3) {
            self.statement(owner, 0);
        }
        self.line("end".to_string());
    }

    fn hook(&mut self, which: &str) {
        self.line(format!("hook {which}"));
        for _ in 0..self.random.to(3) {
            let text = self.any_expression();
            if !self.vars.is_empty() && self.random.once_in(2) {
                let name = self.random.of(&self.vars).clone();
                self.line(format!("set {name} {text}"));
            } else {
                self.line(format!("out {text}"));
            }
        }
        self.line("end".to_string());
    }

    fn activations(&mut self, mode: &str, limit: u64) {
        let mut ends: Vec<(String, u64)> = Vec::new();
        let mut offset = self.random.to(3);
        let tight = self.random.once_in(5);
        let most = self.random.to(8) as usize;
        while offset < limit && ends.len() < most && !self.tasks.is_empty() {
            let task = self.random.of(&self.tasks).clone();
            let room = limit - offset;
            let span = if tight { room.min(6) } else { room };
            let deadline = if !tight && !self.random.once_in(4) { limit } else { offset + self.random.from_to(1, span) };
            if ends.iter().all(|(other, end)| *other != task || *end <= offset) {
                ends.push((task.clone(), deadline));
                let form = if self.random.once_in(2) { "stringent" } else { "nonstringent" };
                self.line(format!("at {offset} {mode} activate {task} {deadline} {form}"));
            }
            offset += if self.random.once_in(3) { self.random.from_to(1, 3) } else { self.random.from_to(1, 2 + limit / 4) };
        }
    }

    fn enables(&mut self, mode: &str, limit: u64) {
        if self.isrs.is_empty() {
            return;
        }
        let mut rows: Vec<(u64, String)> = Vec::new();
        for _ in 0..self.random.to(6) {
            let row = (self.random.to(limit - 1), self.random.of(&self.isrs).clone());
            if !rows.contains(&row) {
                rows.push(row);
            }
        }
        for (offset, isr) in rows {
            self.line(format!("at {offset} {mode} enable {isr}"));
        }
    }

    /// Names of a kind: mostly the plain ones, sometimes words of the language.
    fn names(&mut self, plain: &[&str], most: u64, taken: &mut Vec<String>) -> Vec<String> {
        let mut names = Vec::new();
        for name in &plain[..self.random.to(most) as usize] {
            let name = if self.random.once_in(30) { *self.random.of(&WORDS_AS_NAMES) } else { name };
            if !taken.iter().any(|other| other == name) {
                taken.push(name.to_string());
                names.push(name.to_string());
            }
        }
        names
    }

    fn declarations(&mut self) {
        for name in self.modes.clone() {
            self.line(format!("mode {name}"));
        }
        for name in self.vars.clone() {
            let value = *self.random.of(&VALUES);
            self.line(format!("var {name} {value}"));
        }
        for name in self.demands.clone() {
            let most = if self.random.once_in(20) { 10_000_000 } else { self.random.from_to(1, 5) };
            let usual = self.random.to(most.min(5));
            self.line(format!("demand {name} {most} {usual}"));
        }
        for name in self.tasks.clone() {
            let stack = if self.random.once_in(10) { 65_535 } else { self.random.to(300) };
            self.line(format!("task {name} {stack}"));
            self.body(Owner::Task);
        }
        let levels = self.random.sample(self.isrs.len(), 1, 255);
        for (name, level) in self.isrs.clone().iter().zip(levels) {
            let stack = self.random.to(99);
            let distance = match self.random.to(9) {
                0 => " 1".to_string(),
                1 => " 1000000000".to_string(),
                2..=5 => format!(" {}", self.random.from_to(1, 12)),
                _ => String::new(),
            };
            self.line(format!("isr {name} {level} {stack}{distance}"));
            self.body(Owner::Isr);
        }
        let priorities = self.random.sample(self.oseks.len(), 1, 255);
        for (name, priority) in self.oseks.clone().iter().zip(priorities) {
            let auto = if self.random.once_in(2) { " auto" } else { "" };
            self.line(format!("osek {name} {priority}{auto}"));
            self.body(Owner::Osek);
        }
        let priorities = self.random.sample(self.oisrs.len(), 1, 255);
        for (name, priority) in self.oisrs.clone().iter().zip(priorities) {
            self.line(format!("oisr {name} {priority}"));
            self.body(Owner::Oisr);
        }
        for which in ["error", "shutdown"] {
            if self.random.once_in(3) {
                self.hook(which);
            }
        }
    }

    fn script(&mut self, length: u64, rounds: u64) {
        let broken = self.random.once_in(4);
        for name in self.demands.clone() {
            for _ in 0..self.random.to(5) {
                let value = self.random.to(if broken { 7 } else { 2 });
                self.line(format!("value {name} {value}"));
            }
        }
        let end = length * rounds + 6;
        let dense = self.random.once_in(8);
        for name in self.isrs.clone().iter().chain(&self.oisrs.clone()) {
            let mut tick = self.random.to(10);
            let count = if dense { 60 } else { self.random.to(12) };
            for _ in 0..count {
                if tick > end {
                    break;
                }
                self.line(format!("arrive {name} {tick}"));
                tick += if dense { self.random.from_to(1, 2) } else { self.random.from_to(1, 1 + end / 6) };
            }
        }
        for _ in 0..self.random.to(6) {
            let time = if self.random.once_in(8) { self.random.to(999_999_999_999) } else { self.random.to(3 * length) };
            self.line(format!("time {time}"));
        }
    }

    /// The blocks of top rows in another order, which says the same but for the numbers of what is declared.
    fn shuffled(&mut self) {
        let header = self.lines.remove(0);
        let mut blocks: Vec<Vec<String>> = Vec::new();
        let mut open = 0;
        for line in std::mem::take(&mut self.lines) {
            let first = line.split(' ').next().unwrap_or("");
            if open == 0 {
                blocks.push(Vec::new());
            }
            match first {
                "task" | "isr" | "osek" | "oisr" | "hook" if open == 0 => open = 1,
                "if" | "repeat" if open > 0 => open += 1,
                "end" if open > 0 => open -= 1,
                _ => {}
            }
            if let Some(block) = blocks.last_mut() {
                block.push(line);
            }
        }
        for _ in 0..self.random.to(6) {
            let (one, other) = (self.random.place(blocks.len()), self.random.place(blocks.len()));
            if blocks[one][0].starts_with("arrive") == blocks[other][0].starts_with("arrive") {
                blocks.swap(one, other);
            }
        }
        self.lines.push(header);
        self.lines.extend(blocks.into_iter().flatten());
    }

    /// Comments, empty lines and spaces, which say nothing.
    fn spaced(&mut self) {
        for _ in 0..self.random.to(4) {
            let place = self.random.place(self.lines.len() + 1);
            let text = *self.random.of(&["", "# a comment", "   ", "#", "  # one more", "#task A 1"]);
            self.lines.insert(place, text.to_string());
        }
        for _ in 0..self.random.to(6) {
            let place = self.random.place(self.lines.len());
            self.lines[place] = format!("  {}", self.lines[place].replace(' ', "  "));
            if self.random.once_in(2) {
                self.lines[place].push(' ');
            }
        }
    }
}

fn empty(random: &mut Random) -> Maker<'_> {
    Maker {
        random,
        lines: Vec::new(),
        modes: Vec::new(),
        vars: Vec::new(),
        demands: Vec::new(),
        tasks: Vec::new(),
        isrs: Vec::new(),
        oseks: Vec::new(),
        oisrs: Vec::new(),
        shutdowns: false,
    }
}

/// A small document that meets the rules.
pub fn usual(random: &mut Random) -> Vec<String> {
    let mut maker = empty(random);
    maker.shutdowns = maker.random.once_in(3);
    let length = match maker.random.to(9) {
        0 => maker.random.from_to(2, 7),
        1 | 2 => maker.random.from_to(100, 400),
        3..=5 => maker.random.from_to(40, 90),
        _ => maker.random.from_to(8, 32),
    };
    let adjust = if maker.random.once_in(2) { maker.random.to(length / 4) } else { 0 };
    let rounds = maker.random.from_to(1, 6);
    let mut taken = Vec::new();
    maker.modes = maker.names(&["m", "n", "p"], 2, &mut taken);
    maker.modes.push("start_".to_string());
    maker.vars = maker.names(&["x", "y", "z"], 3, &mut taken);
    maker.demands = maker.names(&["d", "e"], 2, &mut taken);
    maker.tasks = maker.names(&["A", "B", "C", "D", "E"], 5, &mut taken);
    maker.isrs = maker.names(&["J", "K", "H", "I"], 4, &mut taken);
    maker.oseks = maker.names(&["P", "Q", "R", "S"], 4, &mut taken);
    maker.oisrs = maker.names(&["X", "Y", "W"], 3, &mut taken);
    maker.line("osektime 1".to_string());
    maker.line(format!("round {length}"));
    if adjust > 0 || maker.random.once_in(5) {
        maker.line(format!("adjust {adjust}"));
    }
    maker.declarations();
    for mode in maker.modes.clone() {
        maker.activations(&mode, length - adjust);
        maker.enables(&mode, length - adjust);
    }
    let start = maker.random.of(&maker.modes).clone();
    maker.line(format!("start {start}"));
    maker.line(format!("rounds {rounds}"));
    maker.script(length, rounds);
    if maker.random.once_in(5) {
        maker.shuffled();
    }
    if maker.random.once_in(5) {
        maker.spaced();
    }
    maker.lines
}

/// The most of a kind that a document may have, or one more.
pub fn full(random: &mut Random) -> Vec<String> {
    let mut lines: Vec<String> = vec!["osektime 1".into(), "round 100".into()];
    let over = u64::from(random.once_in(3));
    let count = |random: &mut Random, kind: u64, limit: u64| if random.to(6) == kind { limit + over } else { 1 };
    let modes = count(random, 0, 16);
    lines.extend((0..modes).map(|i| format!("mode m{i}")));
    lines.extend((0..count(random, 1, 256)).map(|i| format!("var v{i} {i}")));
    lines.extend((0..count(random, 2, 256)).map(|i| format!("demand d{i} {} {}", i + 1, i / 2)));
    let tasks = count(random, 3, 64);
    for i in 0..tasks {
        lines.extend([format!("task T{i} {i}"), "take d0".into(), "out v0".into(), "end".into()]);
    }
    let isrs = count(random, 4, 16);
    for (i, level) in random.sample(isrs as usize, 1, 255).iter().enumerate() {
        lines.extend([format!("isr K{i} {level} {i}"), format!("work {}", 1 + i % 3), "end".into()]);
    }
    let oseks = count(random, 5, 32);
    for (i, priority) in random.sample(oseks as usize, 1, 255).iter().enumerate() {
        let next = (i + 1) % oseks as usize;
        lines.extend([format!("osek P{i} {priority} auto"), "work 1".into(), format!("chain P{next}"), "end".into()]);
    }
    let oisrs = count(random, 6, 16);
    for (i, priority) in random.sample(oisrs as usize, 1, 255).iter().enumerate() {
        lines.extend([format!("oisr X{i} {priority}"), format!("activate P{}", i % oseks as usize), "end".into()]);
    }
    for i in 0..tasks {
        let form = random.of(&["stringent", "nonstringent"]);
        lines.push(format!("at {i} m{} activate T{i} {} {form}", random.to(modes - 1), random.from_to(90, 100)));
    }
    for i in 0..isrs {
        lines.push(format!("at {} m{} enable K{i}", random.to(99), random.to(modes - 1)));
    }
    lines.extend([format!("start m{}", random.to(modes - 1)), format!("rounds {}", random.from_to(1, 3))]);
    for (name, count) in [("K", isrs), ("X", oisrs)] {
        for i in 0..count {
            let mut tick = random.to(60);
            for _ in 0..random.to(4) {
                lines.push(format!("arrive {name}{i} {tick}"));
                tick += random.from_to(1, 80);
            }
        }
    }
    lines
}

/// Numbers at their limits or one past, in a document that does not run for long.
pub fn limits(random: &mut Random) -> Vec<String> {
    let near = |random: &mut Random, limit: u64| if random.once_in(12) { limit + 1 } else { limit - random.to(1) };
    let round = *random.of(&[2, 3, 4, 5, 8, 20, 39, 40, 41, 4000]);
    let adjust = if random.once_in(4) { round / 4 + random.to(1) } else { random.to(round / 4) };
    let limit = round - adjust;
    let mut lines: Vec<String> = vec!["osektime 1".into(), format!("round {round}"), format!("adjust {adjust}")];
    lines.extend(["mode m".into(), "mode n".into(), "var x -2147483648".into()]);
    let most = near(random, 10_000_000);
    lines.push(format!("demand d {most} {}", if random.once_in(4) { most } else { 0 }));
    let stack = near(random, 65_535);
    lines.extend([format!("task A {stack}"), "sync".into(), "switch n".into(), "end".into()]);
    let turns = near(random, 65_535);
    let inner = *random.of(&[10, 231, 232, 65_535]);
    let work = *random.of(&[1, 65, 230, 10_000_000]);
    lines.push("task B 0".into());
    lines.extend([format!("repeat {turns}"), format!("repeat {inner}"), format!("work {work}"), "end".into(), "end".into()]);
    lines.push("end".into());
    let distance = near(random, 1_000_000_000);
    let level = near(random, 255);
    lines.extend([format!("isr K {level} {stack} {distance}"), "take d".into(), "end".into()]);
    let priority = near(random, 255);
    lines.extend([format!("osek P {priority} auto"), "work 10000000".into(), "end".into()]);
    lines.extend([format!("oisr X {priority}"), "activate P".into(), "end".into()]);
    let shifted = |random: &mut Random, value: u64| (value + random.to(12) / 12).saturating_sub(random.to(12) / 12);
    let deadline = shifted(random, limit);
    lines.push(format!("at 0 m activate A {deadline} {}", random.of(&["stringent", "nonstringent"])));
    let offset = shifted(random, limit - 1);
    lines.push(format!("at {offset} n activate A {} stringent", limit.max(offset + random.to(1))));
    lines.push(format!("at {} n enable K", shifted(random, limit - 1)));
    lines.extend(["start m".into(), format!("rounds {}", if random.once_in(9) { 100_001 } else { random.from_to(1, 20) })]);
    lines.push(format!("value d {}", near(random, 10_000_000)));
    for (name, tick) in [("K", limit), ("X", round)] {
        let one_more = random.to(1);
        let past = if random.once_in(9) { 0 } else { 1 };
        lines.extend([0, tick - one_more, tick - one_more + past].map(|tick| format!("arrive {name} {tick}")));
    }
    for _ in 0..random.to(30) {
        lines.push(format!("time {}", shifted(random, round / 2) + random.to(2) * round));
    }
    lines
}

const NUMBERS: [&str; 22] = [
    "0",
    "1",
    "2",
    "3",
    "5",
    "8",
    "20",
    "99",
    "255",
    "256",
    "65535",
    "65536",
    "100000",
    "100001",
    "10000000",
    "10000001",
    "-1",
    "010",
    "999999999999",
    "1000000000000",
    "-0",
    "2147483648",
];
const OTHER_WORDS: [&str; 32] = [
    "A",
    "B",
    "K",
    "J",
    "m",
    "n",
    "x",
    "d",
    "P",
    "X",
    "idle",
    "ttErrorHook",
    "ttShutdownHook",
    "end",
    "else",
    "-",
    "+",
    "<=",
    "==",
    "#",
    "auto",
    "stringent",
    "nonstringent",
    "enable",
    "activate",
    "name_of_17_bytes_",
    "9x",
    "a-b",
    "start_",
    "error",
    "shutdown",
    "=",
];
const ROWS: [&str; 34] = [
    "osektime 1",
    "osektime 2",
    "round 10",
    "adjust 2",
    "mode m",
    "var x 1",
    "demand d 3 1",
    "end",
    "else",
    "if 1",
    "repeat 2",
    "work 1",
    "take d",
    "set x 1",
    "out 1",
    "sync",
    "shutdown",
    "terminate",
    "activate P",
    "chain P",
    "switch m",
    "hook error",
    "hook shutdown",
    "task A 1",
    "isr K 1 1",
    "osek P 1",
    "oisr X 1",
    "start m",
    "rounds 2",
    "value d 1",
    "arrive K 1",
    "time 1",
    "foo",
    "at 1 m enable K",
];

const SINGLE: [&str; 5] = ["osektime ", "round ", "start ", "rounds ", "adjust "];
const OPENERS: [&str; 5] = ["task ", "isr ", "osek ", "oisr ", "hook "];

/// A line that begins with one of the words, or any where there is none.
fn line_of(random: &mut Random, lines: &[String], words: &[&str]) -> usize {
    let found: Vec<usize> = (0..lines.len()).filter(|&at| words.iter().any(|word| lines[at].starts_with(word))).collect();
    if found.is_empty() {
        random.place(lines.len())
    } else {
        *random.of(&found)
    }
}

/// Rows in the place of a line, in one of the ways in which a rule is broken.
pub fn break_rule(random: &mut Random, lines: &mut Vec<String>) {
    let rows = |texts: &[&str]| texts.iter().map(|text| text.to_string()).collect::<Vec<String>>();
    match random.to(12) {
        0 => {
            let place = line_of(random, lines, &SINGLE);
            lines.remove(place);
        }
        1 => {
            let place = line_of(random, lines, &SINGLE);
            let line = lines[place].clone();
            lines.push(line);
        }
        2 => {
            let place = line_of(random, lines, &OPENERS[..4]) + 1;
            let block = random.of(&["if 1", "repeat 2"]).to_string();
            let depth = random.from_to(4, 6) as usize;
            let inner = [vec![block; depth], rows(&["work 1"]), vec!["end".to_string(); depth]].concat();
            lines.splice(place..place, inner);
        }
        3 => {
            let name = random.of(&["A", "m", "x", "d", "J", "P", "X", "start_", "idle", "ttErrorHook", "ttShutdownHook"]);
            lines.insert(1, format!("var {name} 1"));
        }
        4 => {
            let kind = *random.of(&OPENERS[1..4]);
            let (one, other) = (line_of(random, lines, &[kind]), line_of(random, lines, &[kind]));
            let mut words: Vec<String> = lines[one].split(' ').map(str::to_string).collect();
            if let (Some(level), true) = (lines[other].split(' ').nth(2), words.len() > 2) {
                words[2] = level.to_string();
                lines[one] = words.join(" ");
            }
        }
        5 => {
            let hook = format!("hook {}", random.of(&["error", "shutdown"]));
            lines.extend([&hook, "out 1", "end", &hook, "end"].map(str::to_string));
        }
        6 => lines.extend([random.of(&["task Empty 1", "oisr Empty 250", "osek Empty 255 auto"]).to_string(), "end".to_string()]),
        7 | 8 => {
            let place = line_of(random, lines, &OPENERS) + 1;
            let row =
                random.of(&["sync", "shutdown", "terminate", "chain P", "activate P", "switch m", "work 1", "take d", "set x 1"]);
            lines.insert(place, row.to_string());
        }
        9 | 10 => {
            let place = line_of(random, lines, &["at "]);
            let mut words: Vec<String> = lines[place].split(' ').map(str::to_string).collect();
            if let Some(offset) = words.get(1).and_then(|word| word.parse::<u64>().ok()) {
                words[1] = (offset + random.to(2)).to_string();
            }
            lines.push(words.join(" "));
        }
        11 => {
            let place = line_of(random, lines, &["value ", "arrive "]);
            let mut words: Vec<String> = lines[place].split(' ').map(str::to_string).collect();
            words.pop();
            words.push(random.of(&["10000001", "10000000", "0"]).to_string());
            lines[place] = words.join(" ");
        }
        _ => {
            let place = line_of(random, lines, &["at ", "arrive ", "value ", "start ", "take ", "switch ", "activate ", "set "]);
            let name = random.of(&["A", "m", "x", "d", "J", "P", "X"]);
            let mut words: Vec<String> = lines[place].split(' ').map(str::to_string).collect();
            if let Some(word) = words.iter_mut().skip(1).find(|word| !word.starts_with(|first: char| first.is_ascii_digit())) {
                *word = name.to_string();
            }
            lines[place] = words.join(" ");
        }
    }
}

/// One row more than a mode may have, or as many.
fn many_rows(random: &mut Random) -> Vec<String> {
    let mut lines: Vec<String> =
        ["osektime 1", "round 10000", "mode m", "mode n", "task A 1", "sync", "end"].map(str::to_string).to_vec();
    let rows = random.from_to(4095, 4097);
    lines.extend((0..rows).map(|i| format!("at {} m activate A {} nonstringent", 2 * i, 2 * i + 1 + random.to(1))));
    lines.extend(["at 0 n activate A 1 stringent", "start n", "rounds 2"].map(str::to_string));
    lines
}

/// Changes a line, a word or a byte of the document.
pub fn change(random: &mut Random, lines: &mut Vec<String>) {
    let place = random.place(lines.len());
    let mut words: Vec<String> = lines[place].split(' ').map(str::to_string).collect();
    let word = random.place(words.len());
    match random.to(15) {
        0 => drop(lines.remove(place)),
        1 => {
            let other = lines[random.place(lines.len())].clone();
            lines.insert(place, other);
        }
        2 => lines.insert(place, lines[place].clone()),
        3 => {
            let other = random.place(lines.len());
            lines.swap(place, other);
        }
        4 => lines.insert(place, random.of(&ROWS).to_string()),
        5 | 6 | 7 | 8 => {
            let number = words.iter().rposition(|word| word.parse::<i64>().is_ok()).unwrap_or(word);
            words[number] = random.of(&NUMBERS).to_string();
            lines[place] = words.join(" ");
        }
        9 | 10 | 11 => {
            let whole: Vec<&str> = lines.iter().flat_map(|line| line.split(' ')).collect();
            words[word] = if random.once_in(2) { random.of(&OTHER_WORDS).to_string() } else { random.of(&whole).to_string() };
            lines[place] = words.join(" ");
        }
        12 => {
            words.remove(word);
            lines[place] = words.join(" ");
        }
        13 => {
            words.insert(word, random.of(&NUMBERS).to_string());
            lines[place] = words.join(" ");
        }
        14 => {
            let length = *random.of(&[199, 200, 201]);
            while lines[place].len() < length {
                lines[place].push(' ');
            }
        }
        _ => {
            let byte = *random.of(&["\t", "\r", "\0", "\u{7f}", "~", "!", "#", " ", "\u{e9}", "7"]);
            let mut text = lines[place].clone().into_bytes();
            let at = random.place(text.len() + 1);
            text.splice(at..at, byte.bytes());
            lines[place] = String::from_utf8_lossy(&text).into_owned();
        }
    }
}

/// A whole document by its seed and number.
pub fn document(seed: u64, number: u64) -> Vec<u8> {
    let random = &mut Random::new(seed, number);
    let mut lines = match random.to(999) {
        0 => many_rows(random),
        1..=20 => full(random),
        21..=90 => limits(random),
        _ => usual(random),
    };
    match random.to(9) {
        0 | 1 => change(random, &mut lines),
        2 | 3 => break_rule(random, &mut lines),
        _ => {}
    }
    let mut text = lines.join("\n").into_bytes();
    if !text.is_empty() {
        text.push(b'\n');
    }
    if random.once_in(60) && !text.is_empty() {
        let at = random.place(text.len());
        if random.once_in(2) {
            text.truncate(at);
        } else {
            text[at] = random.to(255) as u8;
        }
    }
    text
}
