//! The run, from event to event: a preemption stack, gates by number, frames with a place and four counters.
use crate::check::bounds;
use crate::config::{Config, AT_ACTIVATE, AT_CHECK};
use crate::document::{Instr, Op, Term, TermOp};
use crate::lines::{Lines, Piece};

/// Owners by number.
const ISRS: usize = 64;
const OSEKS: usize = 80;
const OISRS: usize = 112;
const IDLE: usize = 128;
const ERROR_HOOK: usize = 129;
const SHUTDOWN_HOOK: usize = 130;
const OWNERS: usize = 131;
/// The gates of OSEK ISRs, which are never closed, and the bits from which they begin.
const OISR_GATES: u32 = 0xffff_0000;

pub enum End {
    LastRound,
    Missed(u8),
    Shutdown,
}

pub struct Report {
    pub ticks: u64,
    pub rounds: u64,
    pub events: u64,
    pub activations: u64,
    pub deepest: u64,
    pub words: u64,
    pub end: End,
}

/// What is left of a body: the ticks of the `work` in front, then the instruction at `at`. A counter is the turns left of a repeat, by how
/// many repeats are around it; it is 0 outside of it.
#[derive(Clone, Copy, Default)]
struct Frame {
    work: u64,
    at: u32,
    turns: [u32; 4],
}

impl Frame {
    fn new(code: &[Instr], start: u32) -> Frame {
        let mut frame = Frame { at: start, ..Frame::default() };
        frame.settle(code);
        frame
    }

    /// Passes over what takes no tick, and takes a `work` to the front.
    #[inline]
    fn settle(&mut self, code: &[Instr]) {
        loop {
            let instr = &code[self.at as usize];
            match instr.op {
                Op::Work => {
                    self.work = u64::from(instr.b);
                    self.at += 1;
                    return;
                }
                Op::Jump => self.at = instr.b,
                Op::Again if self.turns[usize::from(instr.a & 3)] > 0 => self.at = instr.b,
                Op::Again => self.at += 1,
                _ => return,
            }
        }
    }

    fn ended(&self, code: &[Instr]) -> bool {
        self.work == 0 && code[self.at as usize].op == Op::End
    }
}

fn value(terms: &[Term], vars: &[i32; 256]) -> i32 {
    if let [term] = terms {
        return if term.op == TermOp::Int { term.v } else { vars[term.v as usize & 255] };
    }
    let mut stack = [0i32; 128];
    let mut height = 0;
    for term in terms.iter().rev() {
        let result = match term.op {
            TermOp::Int => term.v,
            TermOp::Var => vars[term.v as usize & 255],
            op => {
                height -= 2;
                let (left, right) = (stack[(height + 1) & 127], stack[height & 127]);
                match op {
                    TermOp::Add => left.wrapping_add(right),
                    TermOp::Sub => left.wrapping_sub(right),
                    TermOp::Mul => left.wrapping_mul(right),
                    TermOp::Less => i32::from(left < right),
                    TermOp::AtMost => i32::from(left <= right),
                    TermOp::Same => i32::from(left == right),
                    _ => i32::from(left != right),
                }
            }
        };
        stack[height & 127] = result;
        height += 1;
    }
    stack[0]
}

/// The fixed texts of lines, by owner.
#[derive(Default)]
struct Texts {
    names: Vec<String>,
    modes: Vec<String>,
    run: Vec<Piece>,
    end: Vec<Piece>,
    out: Vec<Piece>,
    call: Vec<Piece>,
    activate: Vec<Piece>,
    met: Vec<Piece>,
    enable: Vec<Piece>,
    arrive: Vec<Piece>,
    merge: Vec<Piece>,
    accept: Vec<Piece>,
}

impl Texts {
    fn new(config: &Config, text: bool) -> Texts {
        let document = &config.document;
        let mut names = vec![String::new(); OWNERS];
        if !text {
            return Texts { names, ..Texts::default() };
        }
        let tasks = document.tasks.iter().map(|one| one.name).zip(0..);
        let isrs = document.isrs.iter().map(|one| one.name).zip(ISRS..);
        let oseks = document.oseks.iter().map(|one| one.name).zip(OSEKS..);
        let oisrs = document.oisrs.iter().map(|one| one.name).zip(OISRS..);
        for (id, owner) in tasks.chain(isrs).chain(oseks).chain(oisrs) {
            names[owner] = config.name(id).to_string();
        }
        for (owner, name) in [(IDLE, "idle"), (ERROR_HOOK, "ttErrorHook"), (SHUTDOWN_HOOK, "ttShutdownHook")] {
            names[owner] = name.to_string();
        }
        let pieces = |word: &str, after: &str| -> Vec<Piece> {
            let piece =
                |name: &String| if name.is_empty() { Piece::new(&[]) } else { Piece::new(&[" ", word, " ", name, after]) };
            names.iter().map(piece).collect()
        };
        let (run, end, out, call) = (pieces("run", "\n"), pieces("end", "\n"), pieces("out", " "), pieces("call", " "));
        let (activate, met, enable) = (pieces("activate", "\n"), pieces("check", " met\n"), pieces("enable", "\n"));
        let (arrive, merge, accept) = (pieces("arrive", "\n"), pieces("merge", "\n"), pieces("accept", "\n"));
        let modes = (0..config.modes.len()).map(|mode| config.mode_name(mode).to_string()).collect();
        Texts { names, modes, run, end, out, call, activate, met, enable, arrive, merge, accept }
    }
}

struct Run<'a, 'b, const TEXT: bool> {
    config: &'a Config,
    code: &'a [Instr],
    terms: &'a [Term],
    lines: &'a mut Lines<'b>,
    texts: Texts,
    report: Report,
    now: u64,
    // The round.
    round_start: u64,
    mode: usize,
    wanted: usize,
    pending: i64,
    length: Option<u64>,
    times_used: usize,
    place: usize,
    next_arrival: usize,
    // What runs.
    frames: [Frame; OWNERS],
    starts: [u32; OWNERS],
    stacks: [u64; OWNERS],
    stack: [u8; 64],
    height: usize,
    unfinished: u64,
    words: u64,
    vars: [i32; 256],
    used: Vec<u32>,
    // Gates: bits 0 to 15 are ISRs and bits 16 to 31 OSEK ISRs.
    held: u32,
    enabled: u32,
    busy: u32,
    // Unfinished routines and ready tasks, by their place in the order of levels or priorities.
    isr_ready: u32,
    oisr_ready: u32,
    osek_ready: u32,
    rank: [u8; OWNERS],
    by_rank: [[u8; 32]; 3],
}

/// What a tick did beside its line.
enum Effect {
    /// The owner goes on.
    Nothing,
    /// Another owner may run now.
    Change,
    /// The owner ends here.
    Gone,
    /// The caller ends and is ready again.
    Again,
    Shutdown,
}

impl<const TEXT: bool> Run<'_, '_, TEXT> {
    #[inline]
    fn line(&mut self, at: u64, text: impl Fn(&Texts) -> &Piece) {
        self.report.events += 1;
        if TEXT {
            self.lines.begin(at);
            self.lines.piece(text(&self.texts));
        }
    }

    /// A line of which there are few.
    fn rare(&mut self, at: u64, parts: &[&str]) {
        self.report.events += 1;
        if TEXT {
            self.lines.begin(at);
            for part in parts {
                self.lines.text(part);
            }
            self.lines.text("\n");
        }
    }

    fn round_line(&mut self) {
        self.report.events += 1;
        if TEXT {
            self.lines.begin(self.now);
            self.lines.text(" round ");
            self.lines.number(self.report.rounds as u32);
            self.lines.text(" ");
            self.lines.text(&self.texts.modes[self.mode]);
            self.lines.text("\n");
        }
    }

    fn out_line(&mut self, owner: usize, value: i32) {
        self.report.events += 1;
        if TEXT {
            self.lines.begin(self.now);
            self.lines.piece(&self.texts.out[owner]);
            if value < 0 {
                self.lines.text("-");
            }
            self.lines.number(value.unsigned_abs());
            self.lines.text("\n");
        }
    }

    fn call_line(&mut self, owner: usize, service: &str, argument: Option<usize>, result: u8) {
        self.report.events += 1;
        if TEXT {
            self.lines.begin(self.now);
            self.lines.piece(&self.texts.call[owner]);
            self.lines.text(service);
            if let Some(osek) = argument {
                self.lines.text(" ");
                self.lines.text(&self.texts.names[osek]);
            }
            self.lines.text(if result == 0 {
                " 0\n"
            } else if result == 1 {
                " 1\n"
            } else {
                " 4\n"
            });
        }
    }

    fn hook(&mut self, which: usize, owner: usize) {
        let Some(start) = self.config.document.hooks[which] else { return };
        let (code, terms) = (self.code, self.terms);
        for instr in code[start as usize..].iter().take_while(|instr| instr.op != Op::End) {
            let first = instr.c as usize;
            let value = value(&terms[first..first + usize::from(instr.a)], &self.vars);
            if instr.op == Op::Out {
                self.out_line(owner, value);
            } else {
                self.vars[instr.b as usize & 255] = value;
            }
        }
    }

    fn shut_down(&mut self, end: End) {
        self.rare(self.now, &[" hook ttShutdownHook"]);
        self.hook(1, SHUTDOWN_HOOK);
        self.rare(self.now, &[" shutdown"]);
        self.report.end = end;
    }

    /// Checks an activation of the task; whether it is met.
    fn check(&mut self, task: usize) -> bool {
        if self.unfinished >> task & 1 == 0 {
            self.line(self.now, |texts| &texts.met[task]);
            return true;
        }
        let name = self.config.task_name(task as u8);
        self.rare(self.now, &[" check ", name, " missed"]);
        self.rare(self.now, &[" hook ttErrorHook ", name]);
        self.hook(0, ERROR_HOOK);
        self.shut_down(End::Missed(task as u8));
        false
    }

    fn make_ready(&mut self, owner: usize) {
        self.frames[owner] = Frame::new(self.code, self.starts[owner]);
    }

    fn latch(&mut self) {
        let by = std::mem::take(&mut self.pending);
        self.length = Some((self.config.round as i64 + by) as u64);
        if by != 0 {
            let sign = if by < 0 { " correct -" } else { " correct +" };
            self.rare(self.now, &[sign, &by.unsigned_abs().to_string()]);
        }
    }

    /// The checks of the round's end, and the next round; whether the run goes on.
    fn end_round(&mut self) -> bool {
        let mode = &self.config.modes[self.mode];
        while mode.dues[self.place].kind == AT_CHECK {
            if !self.check(usize::from(mode.dues[self.place].who)) {
                return false;
            }
            self.place += 1;
        }
        for &task in &mode.ends {
            if !self.check(usize::from(task)) {
                return false;
            }
        }
        if self.report.rounds == self.config.rounds {
            self.rare(self.now, &[" stop"]);
            return false;
        }
        self.report.rounds += 1;
        self.mode = self.wanted;
        self.round_start = self.now;
        self.length = None;
        self.place = 0;
        self.round_line();
        true
    }

    /// Parts 1 to 5 of an instant; whether the run goes on.
    fn before_acceptances(&mut self) -> bool {
        let mut offset = self.now - self.round_start;
        if self.length.is_none() && offset == self.config.round - self.config.adjust {
            self.latch();
        }
        if self.length == Some(offset) {
            if !self.end_round() {
                return false;
            }
            offset = 0;
        }
        let dues = &self.config.modes[self.mode].dues;
        while u64::from(dues[self.place].offset) == offset && dues[self.place].kind != AT_ACTIVATE {
            let due = dues[self.place];
            if due.kind == AT_CHECK {
                if !self.check(usize::from(due.who)) {
                    return false;
                }
            } else {
                self.enabled |= 1 << due.who;
                self.line(self.now, |texts| &texts.enable[ISRS + usize::from(due.who)]);
            }
            self.place += 1;
        }
        while let Some(&arrival) = self.config.arrivals.get(self.next_arrival) {
            if arrival >> 6 != self.now {
                break;
            }
            self.next_arrival += 1;
            let source = arrival as usize & 31;
            let owner = source_owner(source);
            if self.held >> source & 1 == 0 {
                self.held |= 1 << source;
                self.line(self.now, |texts| &texts.arrive[owner]);
            } else {
                self.line(self.now, |texts| &texts.merge[owner]);
            }
        }
        true
    }

    fn accept_all(&mut self, mut sources: u32) {
        while sources != 0 {
            let source = sources.trailing_zeros() as usize;
            sources &= sources - 1;
            let owner = source_owner(source);
            self.held &= !(1 << source);
            self.busy |= 1 << source;
            self.make_ready(owner);
            if source < 16 {
                self.enabled &= !(1 << source);
                self.isr_ready |= 1 << self.rank[owner];
                self.words += self.stacks[owner];
            } else {
                self.oisr_ready |= 1 << self.rank[owner];
            }
            self.line(self.now, |texts| &texts.accept[owner]);
        }
    }

    /// Part 7 of an instant; whether a task was activated.
    fn activation(&mut self) -> bool {
        let due = self.config.modes[self.mode].dues[self.place];
        let stands = u64::from(due.offset) == self.now - self.round_start;
        if stands {
            let task = usize::from(due.who);
            self.place += 1;
            self.make_ready(task);
            self.unfinished |= 1 << task;
            self.stack[self.height & 63] = due.who;
            self.height += 1;
            self.words += self.stacks[task];
            self.report.activations += 1;
            self.line(self.now, |texts| &texts.activate[task]);
        }
        stands
    }

    fn next_due(&self) -> u64 {
        let row = self.round_start + u64::from(self.config.modes[self.mode].dues[self.place].offset);
        let own = self.round_start + self.length.unwrap_or(self.config.round - self.config.adjust);
        let arrival = self.config.arrivals.get(self.next_arrival).map_or(u64::MAX, |arrival| arrival >> 6);
        row.min(own).min(arrival)
    }

    #[inline]
    fn who(&self) -> usize {
        let top = |ready: u32, kind: usize| usize::from(self.by_rank[kind][31 - ready.leading_zeros() as usize]);
        if self.isr_ready != 0 {
            top(self.isr_ready, 0)
        } else if self.height > 0 {
            usize::from(self.stack[(self.height - 1) & 63])
        } else if self.oisr_ready != 0 {
            top(self.oisr_ready, 1)
        } else if self.osek_ready != 0 {
            top(self.osek_ready, 2)
        } else {
            IDLE
        }
    }

    fn finish(&mut self, owner: usize) {
        self.line(self.now, |texts| &texts.end[owner]);
        if owner < ISRS {
            self.height -= 1;
            self.unfinished &= !(1 << owner);
            self.words -= self.stacks[owner];
        } else if owner < OSEKS {
            self.isr_ready &= !(1 << self.rank[owner]);
            self.busy &= !(1 << (owner - ISRS));
            self.words -= self.stacks[owner];
        } else if owner < OISRS {
            self.osek_ready &= !(1 << self.rank[owner]);
        } else {
            self.oisr_ready &= !(1 << self.rank[owner]);
            self.busy &= !(1 << (owner - OISRS + 16));
        }
    }

    fn sync(&mut self) -> u8 {
        let Some(&time) = self.config.document.times.get(self.times_used) else { return 1 };
        self.times_used += 1;
        let (round, most) = (self.config.round as i64, self.config.adjust as i64);
        let ahead = (time as i64 - (self.now - self.round_start) as i64).rem_euclid(round);
        self.pending = if 2 * ahead <= round { -ahead.min(most) } else { (round - ahead).min(most) };
        0
    }

    /// A service that the owner calls at this tick.
    fn service(&mut self, owner: usize, instr: Instr) -> Effect {
        let other = OSEKS + instr.b as usize;
        match instr.op {
            Op::Switch => {
                self.wanted = instr.b as usize;
                self.report.events += 1;
                if TEXT {
                    self.lines.begin(self.now);
                    self.lines.piece(&self.texts.call[owner]);
                    self.lines.text("ttSwitchAppMode ");
                    self.lines.text(&self.texts.modes[self.wanted]);
                    self.lines.text(" 0\n");
                }
                Effect::Nothing
            }
            Op::Sync => {
                let result = self.sync();
                self.call_line(owner, "ttSyncTimes", None, result);
                Effect::Nothing
            }
            Op::Shutdown => {
                self.call_line(owner, "ttShutdownOS", None, 0);
                self.shut_down(End::Shutdown);
                Effect::Shutdown
            }
            Op::Terminate => {
                self.call_line(owner, "TerminateTask", None, 0);
                Effect::Gone
            }
            Op::Chain if other == owner => {
                self.call_line(owner, "ChainTask", Some(other), 0);
                Effect::Again
            }
            _ => {
                let chains = instr.op == Op::Chain;
                let suspended = self.osek_ready >> self.rank[other] & 1 == 0;
                let name = if chains { "ChainTask" } else { "ActivateTask" };
                self.call_line(owner, name, Some(other), if suspended { 0 } else { 4 });
                if !suspended {
                    return Effect::Nothing;
                }
                self.make_ready(other);
                self.osek_ready |= 1 << self.rank[other];
                if chains {
                    Effect::Gone
                } else {
                    Effect::Change
                }
            }
        }
    }

    /// Runs the owner until something is due, it ends, or another may run; whether the run goes on.
    fn run_owner(&mut self, owner: usize, due: u64) -> bool {
        let (code, terms) = (self.code, self.terms);
        let mut frame = self.frames[owner];
        loop {
            let mut effect = Effect::Nothing;
            if frame.work > 0 {
                let ticks = frame.work.min(due - self.now);
                frame.work -= ticks;
                self.now += ticks;
                if frame.work == 0 {
                    frame.settle(code);
                }
            } else {
                let instr = code[frame.at as usize];
                let first = instr.c as usize;
                frame.at += 1;
                match instr.op {
                    Op::Set | Op::If | Op::Out => {
                        let value = value(&terms[first..first + usize::from(instr.a)], &self.vars);
                        match instr.op {
                            Op::Set => self.vars[instr.b as usize & 255] = value,
                            Op::If if value == 0 => frame.at = instr.b,
                            Op::If => {}
                            _ => self.out_line(owner, value),
                        }
                        frame.settle(code);
                    }
                    Op::Repeat => {
                        let turns = &mut frame.turns[usize::from(instr.a & 3)];
                        *turns = if *turns == 0 { instr.b - 1 } else { *turns - 1 };
                        frame.settle(code);
                    }
                    Op::Take => {
                        let demand = instr.b as usize;
                        let used = self.used[demand] as usize;
                        let given = self.config.values[demand].get(used).copied();
                        self.used[demand] += u32::from(given.is_some());
                        frame.work = given.map_or(self.config.document.demands[demand].2, u64::from);
                        if frame.work == 0 {
                            frame.settle(code);
                        }
                    }
                    _ => {
                        frame.settle(code);
                        effect = self.service(owner, instr);
                        if matches!(effect, Effect::Shutdown) {
                            return false;
                        }
                    }
                }
                self.now += 1;
            }
            match effect {
                Effect::Again => {
                    self.line(self.now, |texts| &texts.end[owner]);
                    self.make_ready(owner);
                    return true;
                }
                Effect::Nothing | Effect::Change if !frame.ended(code) => {
                    if self.now == due || matches!(effect, Effect::Change) {
                        self.frames[owner] = frame;
                        return true;
                    }
                }
                _ => {
                    self.finish(owner);
                    return true;
                }
            }
        }
    }

    fn run(&mut self) {
        let start = self.config.mode_name(self.mode);
        self.rare(0, &[" os start ", start]);
        self.round_line();
        let mut due = 0;
        let mut last = OWNERS;
        loop {
            let is_due = self.now == due;
            if is_due && !self.before_acceptances() {
                break;
            }
            let sources = self.held & (self.enabled | OISR_GATES) & !self.busy;
            let mut more = sources != 0;
            if more {
                self.accept_all(sources);
            }
            if is_due {
                more |= self.activation();
                due = self.next_due();
            }
            if more {
                self.report.deepest = self.report.deepest.max(self.height as u64 + u64::from(self.isr_ready.count_ones()));
                self.report.words = self.report.words.max(self.words);
            }
            let owner = self.who();
            if owner != last {
                self.line(self.now, |texts| &texts.run[owner]);
                last = owner;
            }
            if owner == IDLE {
                self.now = due;
            } else if !self.run_owner(owner, due) {
                break;
            }
            if TEXT && self.lines.failed() {
                break;
            }
        }
        self.report.ticks = self.now;
    }
}

fn source_owner(source: usize) -> usize {
    if source < 16 {
        ISRS + source
    } else {
        OISRS + source - 16
    }
}

/// Runs the configuration. With TEXT its lines are written.
pub fn run<const TEXT: bool>(config: &Config, lines: &mut Lines) -> Report {
    let document = &config.document;
    let mut vars = [0; 256];
    for (var, one) in vars.iter_mut().zip(&document.vars) {
        *var = one.1;
    }
    let report = Report { ticks: 0, rounds: 1, events: 0, activations: 0, deepest: 0, words: 0, end: End::LastRound };
    let mut run: Run<TEXT> = Run {
        config,
        code: &document.code,
        terms: &document.terms,
        lines,
        texts: Texts::new(config, TEXT),
        report,
        now: 0,
        round_start: 0,
        mode: config.start,
        wanted: config.start,
        pending: 0,
        length: None,
        times_used: 0,
        place: 0,
        next_arrival: 0,
        frames: [Frame::default(); OWNERS],
        starts: [0; OWNERS],
        stacks: [0; OWNERS],
        stack: [0; 64],
        height: 0,
        unfinished: 0,
        words: 0,
        vars,
        used: vec![0; document.demands.len()],
        held: 0,
        enabled: u32::MAX,
        busy: 0,
        isr_ready: 0,
        oisr_ready: 0,
        osek_ready: 0,
        rank: [0; OWNERS],
        by_rank: [[0; 32]; 3],
    };
    for (owner, task) in document.tasks.iter().enumerate() {
        run.starts[owner] = task.body.start;
        run.stacks[owner] = u64::from(task.stack);
    }
    for (owner, isr) in (ISRS..).zip(&document.isrs) {
        run.starts[owner] = isr.body.start;
        run.stacks[owner] = u64::from(isr.stack);
    }
    let mut orders: [Vec<(u32, usize)>; 3] = [
        document.isrs.iter().map(|isr| isr.level).zip(ISRS..).collect(),
        document.oisrs.iter().map(|oisr| oisr.priority).zip(OISRS..).collect(),
        document.oseks.iter().map(|osek| osek.priority).zip(OSEKS..).collect(),
    ];
    for (order, by_rank) in orders.iter_mut().zip(&mut run.by_rank) {
        order.sort_unstable();
        for (rank, &(_, owner)) in order.iter().enumerate() {
            run.rank[owner] = rank as u8;
            by_rank[rank] = owner as u8;
        }
    }
    for (owner, oisr) in (OISRS..).zip(&document.oisrs) {
        run.starts[owner] = oisr.body.start;
    }
    for (owner, osek) in (OSEKS..).zip(&document.oseks) {
        run.starts[owner] = osek.body.start;
        if osek.auto {
            run.make_ready(owner);
            run.osek_ready |= 1 << run.rank[owner];
        }
    }
    run.run();
    run.report
}

/// The seven lines of `load`.
pub fn summary(config: &Config, report: &Report) -> String {
    let (depth, words) = bounds(config);
    let end = match report.end {
        End::LastRound => "last round".to_string(),
        End::Missed(task) => format!("missed {}", config.task_name(task)),
        End::Shutdown => "shutdown".to_string(),
    };
    format!(
        "ticks {}\nrounds {}\nevents {}\nactivations {}\ndepth {} of {depth}\nwords {} of {words}\nend {end}\n",
        report.ticks, report.rounds, report.events, report.activations, report.deepest, report.words
    )
}
