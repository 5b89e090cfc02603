//! The form of a document: lines, words and rows, read in one pass. Names are interned once; a body becomes flat code at once; what a row
//! breaks of the rules that need no other row is noted by the way.
use crate::words::{integer, line_fault, name, number, FormFault, CLASS};
use std::collections::HashMap;

/// Kinds of a declared name.
pub const UNDECLARED: u8 = 0;
pub const MODE: u8 = 1;
pub const VAR: u8 = 2;
pub const DEMAND: u8 = 3;
pub const TASK: u8 = 4;
pub const ISR: u8 = 5;
pub const OSEK: u8 = 6;
pub const OISR: u8 = 7;
const RESERVED: u8 = 8;

/// Kinds of an owner, as bits of a set.
const OF_TASK: u8 = 1;
const OF_ISR: u8 = 2;
const OF_OSEK: u8 = 4;
const OF_OISR: u8 = 8;
const OF_HOOK: u8 = 16;

#[derive(Clone, Copy, PartialEq, Eq)]
pub enum Op {
    Work,
    Take,
    Set,
    If,
    Repeat,
    Out,
    Switch,
    Sync,
    Shutdown,
    Activate,
    Chain,
    Terminate,
    /// From the end of a first branch to after the second. It takes no tick.
    Jump,
    /// The end of a repeat's block. It takes no tick.
    Again,
    /// The end of a body. It takes no tick.
    End,
}

/// One instruction, 16 bytes. `b` is the length of a work, the turns of a repeat, the place to jump to, or the name that the row gives
/// (its id while reading, its number afterwards). An expression is the terms from `c` on, `a` of them.
#[derive(Clone, Copy)]
pub struct Instr {
    pub op: Op,
    /// An `if` has a second branch.
    pub flag: bool,
    /// How many repeats are open around a repeat, or the number of terms.
    pub a: u16,
    pub b: u32,
    /// The first term, or the `Again` of a repeat.
    pub c: u32,
    pub line: u32,
}

#[derive(Clone, Copy, PartialEq, Eq)]
pub enum TermOp {
    Int,
    Var,
    Add,
    Sub,
    Mul,
    Less,
    AtMost,
    Same,
    Differ,
}

#[derive(Clone, Copy)]
pub struct Term {
    pub op: TermOp,
    pub v: i32,
}

/// Where a body begins, and the row that opened it.
#[derive(Clone, Copy)]
pub struct Body {
    pub start: u32,
    pub line: u32,
}

pub struct Task {
    pub name: u32,
    pub stack: u32,
    pub body: Body,
}

pub struct Isr {
    pub name: u32,
    pub level: u32,
    pub stack: u32,
    pub distance: Option<u64>,
    pub body: Body,
}

pub struct Osek {
    pub name: u32,
    pub priority: u32,
    pub auto: bool,
    pub body: Body,
}

pub struct Oisr {
    pub name: u32,
    pub priority: u32,
    pub body: Body,
}

#[derive(Clone, Copy, PartialEq, Eq)]
pub enum AtKind {
    Stringent,
    Nonstringent,
    Enable,
}

/// An `at` row. Offsets that no round has are kept as the largest u32.
#[derive(Clone, Copy)]
pub struct At {
    pub offset: u32,
    pub deadline: u32,
    pub mode: u32,
    pub other: u32,
    pub line: u32,
    pub kind: AtKind,
}

/// A row of the script that gives a number to a name.
#[derive(Clone, Copy)]
pub struct Given {
    pub name: u32,
    pub line: u32,
    pub number: u64,
}

#[derive(Clone, Copy)]
pub struct Name {
    pub text: [u8; 16],
    pub length: u8,
    pub kind: u8,
    pub number: u16,
}

#[derive(Clone, Copy, PartialEq, Eq)]
enum Open {
    Body,
    If,
    Else,
    Repeat,
}

struct Block {
    kind: Open,
    at: u32,
}

/// A fast hash of a name's 16 bytes.
#[derive(Default)]
pub struct NameHash(u64);

impl std::hash::Hasher for NameHash {
    fn finish(&self) -> u64 {
        self.0
    }
    fn write(&mut self, _: &[u8]) {}
    fn write_u128(&mut self, key: u128) {
        let mixed = (key as u64 ^ (key >> 64) as u64).wrapping_mul(0x9e37_79b9_7f4a_7c15);
        self.0 = mixed ^ (mixed >> 29);
    }
}

#[derive(Default)]
pub struct NameHashes;

impl std::hash::BuildHasher for NameHashes {
    type Hasher = NameHash;
    fn build_hasher(&self) -> NameHash {
        NameHash(0)
    }
}

pub struct Document {
    /// For each rule the least line that breaks it, as far as it was read.
    pub broken: [u32; 29],
    /// Whether only the form still counts: for `show`, or where rule 1 or 2 is broken.
    only_form: bool,
    ids: HashMap<u128, u32, NameHashes>,
    pub names: Vec<Name>,
    pub code: Vec<Instr>,
    pub terms: Vec<Term>,
    blocks: Vec<Block>,
    repeats: u16,
    owner: u8,
    body_line: u32,
    body_start: u32,
    line: u32,
    rows: u32,
    last_row: u32,
    pub header: u32,
    pub round: Option<u64>,
    pub adjust: Option<(u64, u32)>,
    pub modes: Vec<u32>,
    pub vars: Vec<(u32, i32)>,
    pub demands: Vec<(u32, u64, u64)>,
    pub tasks: Vec<Task>,
    pub isrs: Vec<Isr>,
    pub oseks: Vec<Osek>,
    pub oisrs: Vec<Oisr>,
    pub hooks: [Option<u32>; 2],
    pub ats: Vec<At>,
    pub starts: Vec<(u32, u32)>,
    pub rounds: Option<u64>,
    pub values: Vec<Given>,
    pub arrivals: Vec<Given>,
    pub times: Vec<u64>,
}

pub const NONE: u32 = u32::MAX;

fn small(value: u64) -> u32 {
    value.min(u64::from(NONE)) as u32
}

impl Document {
    fn new(only_form: bool) -> Document {
        let mut document = Document {
            broken: [NONE; 29],
            only_form,
            ids: HashMap::with_hasher(NameHashes),
            names: Vec::new(),
            code: Vec::new(),
            terms: Vec::new(),
            blocks: Vec::new(),
            repeats: 0,
            owner: 0,
            body_line: 0,
            body_start: 0,
            line: 0,
            rows: 0,
            last_row: 0,
            header: 0,
            round: None,
            adjust: None,
            modes: Vec::new(),
            vars: Vec::new(),
            demands: Vec::new(),
            tasks: Vec::new(),
            isrs: Vec::new(),
            oseks: Vec::new(),
            oisrs: Vec::new(),
            hooks: [None; 2],
            ats: Vec::new(),
            starts: Vec::new(),
            rounds: None,
            values: Vec::new(),
            arrivals: Vec::new(),
            times: Vec::new(),
        };
        for reserved in [&b"idle"[..], b"ttErrorHook", b"ttShutdownHook"] {
            if let Some(key) = name(reserved) {
                let id = document.intern(key);
                document.names[id as usize].kind = RESERVED;
            }
        }
        document
    }

    fn intern(&mut self, key: u128) -> u32 {
        let next = self.names.len() as u32;
        let id = *self.ids.entry(key).or_insert(next);
        if id == next {
            let length = 16 - key.leading_zeros() as u8 / 8;
            self.names.push(Name { text: key.to_le_bytes(), length, kind: UNDECLARED, number: 0 });
        }
        id
    }

    pub fn note(&mut self, rule: usize, line: u32) {
        self.broken[rule] = self.broken[rule].min(line);
    }

    fn range(&mut self, value: u64, least: u64, most: u64) {
        if value < least || value > most {
            self.note(9, self.line);
        }
    }

    /// Whether a top row counts here.
    fn top(&mut self) -> bool {
        if self.only_form {
            return false;
        }
        if !self.blocks.is_empty() {
            self.note(2, self.line);
            self.only_form = true;
            return false;
        }
        true
    }

    /// Whether a body row counts here, which the owners of the set may have.
    fn inside(&mut self, owners: u8) -> bool {
        if self.only_form {
            return false;
        }
        if self.blocks.is_empty() {
            self.note(2, self.line);
            self.only_form = true;
            return false;
        }
        if owners & self.owner == 0 {
            self.note(15, self.line);
        }
        true
    }

    fn declare(&mut self, key: u128, kind: u8, count: usize, limit: usize) -> u32 {
        let id = self.intern(key);
        let name = &mut self.names[id as usize];
        if name.kind == UNDECLARED {
            name.kind = kind;
            name.number = count as u16;
        } else {
            self.note(7, self.line);
        }
        if count == limit {
            self.note(8, self.line);
        }
        id
    }

    fn open_body(&mut self, owner: u8) -> Body {
        self.blocks.push(Block { kind: Open::Body, at: 0 });
        self.owner = owner;
        self.body_line = self.line;
        self.body_start = self.code.len() as u32;
        Body { start: self.body_start, line: self.line }
    }

    fn open_block(&mut self, kind: Open) {
        if self.blocks.len() > 4 {
            self.note(3, self.line);
        }
        self.blocks.push(Block { kind, at: self.code.len() as u32 });
    }

    fn emit(&mut self, op: Op, a: u16, b: u32, c: u32) {
        self.code.push(Instr { op, flag: false, a, b, c, line: self.line });
    }

    /// Reads an expression that the words are, and gives its first term.
    fn expression(&mut self, bytes: &[u8], words: &[(u32, u32)]) -> Option<u32> {
        let first = self.terms.len() as u32;
        let mut missing = 1;
        for &(from, to) in words {
            if missing == 0 {
                return None;
            }
            let word = &bytes[from as usize..to as usize];
            let op = match word {
                b"+" => TermOp::Add,
                b"-" => TermOp::Sub,
                b"*" => TermOp::Mul,
                b"<" => TermOp::Less,
                b"<=" => TermOp::AtMost,
                b"==" => TermOp::Same,
                b"!=" => TermOp::Differ,
                _ => {
                    missing -= 1;
                    let term = match name(word) {
                        Some(_) if self.only_form => continue,
                        Some(key) => Term { op: TermOp::Var, v: self.intern(key) as i32 },
                        None => Term { op: TermOp::Int, v: integer(word)? },
                    };
                    self.terms.push(term);
                    continue;
                }
            };
            missing += 1;
            self.terms.push(Term { op, v: 0 });
        }
        if missing > 0 {
            return None;
        }
        Some(first)
    }

    fn close(&mut self) {
        let here = self.code.len() as u32;
        let Some(block) = self.blocks.pop() else { return };
        match block.kind {
            Open::If | Open::Else => self.code[block.at as usize].b = here,
            Open::Repeat => {
                self.repeats -= 1;
                self.code[block.at as usize].c = here;
                self.emit(Op::Again, self.repeats, block.at, 0);
            }
            Open::Body => {
                if here == self.body_start && self.owner != OF_HOOK {
                    self.note(16, self.body_line);
                }
                self.emit(Op::End, 0, 0, 0);
            }
        }
    }

    fn otherwise(&mut self) {
        let here = self.code.len() as u32;
        match self.blocks.last_mut() {
            Some(block) if block.kind == Open::If => {
                let opened = block.at as usize;
                *block = Block { kind: Open::Else, at: here };
                self.code[opened].b = here + 1;
                self.code[opened].flag = true;
                self.emit(Op::Jump, 0, 0, 0);
            }
            _ => {
                self.note(2, self.line);
                self.only_form = true;
            }
        }
    }

    /// Reads one row. None where the words are no row.
    fn row(&mut self, bytes: &[u8], words: &[(u32, u32)]) -> Option<()> {
        let word = |place: usize| -> &[u8] {
            let (from, to) = words[place];
            &bytes[from as usize..to as usize]
        };
        let count = words.len();
        match (word(0), count) {
            (b"work", 2) => {
                let length = number(word(1))?;
                if self.inside(OF_TASK | OF_ISR | OF_OSEK | OF_OISR) {
                    self.range(length, 1, 10_000_000);
                    self.emit(Op::Work, 0, small(length), 0);
                }
            }
            (b"end", 1) => {
                if self.inside(31) {
                    self.close();
                }
            }
            (b"set", 3..) => {
                let key = name(word(1))?;
                let first = self.expression(bytes, &words[2..])?;
                if self.inside(31) {
                    let var = self.intern(key);
                    self.emit(Op::Set, count as u16 - 2, var, first);
                }
            }
            (b"out", 2..) => {
                let first = self.expression(bytes, &words[1..])?;
                if self.inside(31) {
                    self.emit(Op::Out, count as u16 - 1, 0, first);
                }
            }
            (b"if", 2..) => {
                let first = self.expression(bytes, &words[1..])?;
                if self.inside(15) {
                    self.open_block(Open::If);
                    self.emit(Op::If, count as u16 - 1, 0, first);
                }
            }
            (b"else", 1) => {
                if self.inside(15) {
                    self.otherwise();
                }
            }
            (b"repeat", 2) => {
                let turns = number(word(1))?;
                if self.inside(15) {
                    self.range(turns, 1, 65_535);
                    self.open_block(Open::Repeat);
                    self.emit(Op::Repeat, self.repeats, small(turns), 0);
                    self.repeats += 1;
                }
            }
            (b"take", 2) => self.named(Op::Take, word(1), 15)?,
            (b"switch", 2) => self.named(Op::Switch, word(1), OF_TASK | OF_ISR)?,
            (b"activate", 2) => self.named(Op::Activate, word(1), OF_OSEK | OF_OISR)?,
            (b"chain", 2) => self.named(Op::Chain, word(1), OF_OSEK)?,
            (b"sync", 1) => self.plain(Op::Sync, OF_TASK | OF_ISR),
            (b"shutdown", 1) => self.plain(Op::Shutdown, OF_TASK | OF_ISR),
            (b"terminate", 1) => self.plain(Op::Terminate, OF_OSEK),
            (b"at", 7) if word(3) == b"activate" => {
                let offset = number(word(1))?;
                let (mode, task) = (name(word(2))?, name(word(4))?);
                let deadline = number(word(5))?;
                let kind = match word(6) {
                    b"stringent" => AtKind::Stringent,
                    b"nonstringent" => AtKind::Nonstringent,
                    _ => return None,
                };
                self.at(offset, deadline, mode, task, kind);
            }
            (b"at", 5) if word(3) == b"enable" => {
                let offset = number(word(1))?;
                let (mode, isr) = (name(word(2))?, name(word(4))?);
                self.at(offset, 0, mode, isr, AtKind::Enable);
            }
            (b"arrive", 3) => {
                let key = name(word(1))?;
                let number = number(word(2))?;
                if self.top() {
                    let name = self.intern(key);
                    self.arrivals.push(Given { name, line: self.line, number });
                }
            }
            (b"value", 3) => {
                let key = name(word(1))?;
                let number = number(word(2))?;
                if self.top() {
                    let name = self.intern(key);
                    self.values.push(Given { name, line: self.line, number });
                    if number > 10_000_000 {
                        self.note(28, self.line);
                    }
                }
            }
            (b"time", 2) => {
                let time = number(word(1))?;
                if self.top() {
                    self.times.push(time);
                }
            }
            _ => return self.declaration(bytes, words),
        }
        Some(())
    }

    fn named(&mut self, op: Op, word: &[u8], owners: u8) -> Option<()> {
        let key = name(word)?;
        if self.inside(owners) {
            let id = self.intern(key);
            self.emit(op, 0, id, 0);
        }
        Some(())
    }

    fn plain(&mut self, op: Op, owners: u8) {
        if self.inside(owners) {
            self.emit(op, 0, 0, 0);
        }
    }

    fn at(&mut self, offset: u64, deadline: u64, mode: u128, other: u128, kind: AtKind) {
        if self.top() {
            let (mode, other) = (self.intern(mode), self.intern(other));
            self.ats.push(At { offset: small(offset), deadline: small(deadline), mode, other, line: self.line, kind });
        }
    }

    /// Reads a row that a document has few of.
    fn declaration(&mut self, bytes: &[u8], words: &[(u32, u32)]) -> Option<()> {
        let word = |place: usize| -> &[u8] {
            let (from, to) = words[place];
            &bytes[from as usize..to as usize]
        };
        let line = self.line;
        match (word(0), words.len()) {
            (b"osektime", 2) if word(1) == b"1" => {
                if self.rows == 1 {
                    self.header = line;
                } else {
                    self.note(1, line);
                    self.only_form = true;
                }
            }
            (b"round", 2) => {
                let length = number(word(1))?;
                if self.top() {
                    if self.round.is_some() || !(2..=10_000_000).contains(&length) {
                        self.note(4, line);
                    }
                    self.round = self.round.or(Some(length));
                }
            }
            (b"adjust", 2) => {
                let most = number(word(1))?;
                if self.top() {
                    if self.adjust.is_some() {
                        self.note(5, line);
                    }
                    self.adjust = self.adjust.or(Some((most, line)));
                }
            }
            (b"mode", 2) => {
                let key = name(word(1))?;
                if self.top() {
                    let id = self.declare(key, MODE, self.modes.len(), 16);
                    self.modes.push(id);
                }
            }
            (b"var", 3) => {
                let key = name(word(1))?;
                let value = integer(word(2))?;
                if self.top() {
                    let id = self.declare(key, VAR, self.vars.len(), 256);
                    self.vars.push((id, value));
                }
            }
            (b"demand", 4) => {
                let key = name(word(1))?;
                let (most, usual) = (number(word(2))?, number(word(3))?);
                if self.top() {
                    self.range(most, 0, 10_000_000);
                    self.range(usual, 0, most);
                    let id = self.declare(key, DEMAND, self.demands.len(), 256);
                    self.demands.push((id, most, usual));
                }
            }
            (b"task", 3) => {
                let key = name(word(1))?;
                let stack = number(word(2))?;
                if self.top() {
                    self.range(stack, 0, 65_535);
                    let name = self.declare(key, TASK, self.tasks.len(), 64);
                    let body = self.open_body(OF_TASK);
                    self.tasks.push(Task { name, stack: small(stack), body });
                }
            }
            (b"isr", 4 | 5) => {
                let key = name(word(1))?;
                let (level, stack) = (number(word(2))?, number(word(3))?);
                let distance = if words.len() == 5 { Some(number(word(4))?) } else { None };
                if self.top() {
                    self.range(level, 1, 255);
                    self.range(stack, 0, 65_535);
                    self.range(distance.unwrap_or(1), 1, 1_000_000_000);
                    if self.isrs.iter().take(16).any(|isr| isr.level == small(level)) {
                        self.note(10, line);
                    }
                    let name = self.declare(key, ISR, self.isrs.len(), 16);
                    let body = self.open_body(OF_ISR);
                    self.isrs.push(Isr { name, level: small(level), stack: small(stack), distance, body });
                }
            }
            (b"osek", 3 | 4) => {
                let key = name(word(1))?;
                let priority = number(word(2))?;
                let auto = words.len() == 4;
                if auto && word(3) != b"auto" {
                    return None;
                }
                if self.top() {
                    self.range(priority, 1, 255);
                    if self.oseks.iter().take(32).any(|osek| osek.priority == small(priority)) {
                        self.note(11, line);
                    }
                    let name = self.declare(key, OSEK, self.oseks.len(), 32);
                    let body = self.open_body(OF_OSEK);
                    self.oseks.push(Osek { name, priority: small(priority), auto, body });
                }
            }
            (b"oisr", 3) => {
                let key = name(word(1))?;
                let priority = number(word(2))?;
                if self.top() {
                    self.range(priority, 1, 255);
                    if self.oisrs.iter().take(16).any(|oisr| oisr.priority == small(priority)) {
                        self.note(12, line);
                    }
                    let name = self.declare(key, OISR, self.oisrs.len(), 16);
                    let body = self.open_body(OF_OISR);
                    self.oisrs.push(Oisr { name, priority: small(priority), body });
                }
            }
            (b"hook", 2) => {
                let which = match word(1) {
                    b"error" => 0,
                    b"shutdown" => 1,
                    _ => return None,
                };
                if self.top() {
                    if self.hooks[which].is_some() {
                        self.note(13, line);
                    }
                    self.hooks[which] = Some(self.open_body(OF_HOOK).start);
                }
            }
            (b"start", 2) => {
                let key = name(word(1))?;
                if self.top() {
                    let id = self.intern(key);
                    if !self.starts.is_empty() {
                        self.note(25, line);
                    }
                    self.starts.push((id, line));
                }
            }
            (b"rounds", 2) => {
                let rounds = number(word(1))?;
                if self.top() {
                    if self.rounds.is_some() || !(1..=100_000).contains(&rounds) {
                        self.note(26, line);
                    }
                    self.rounds = self.rounds.or(Some(rounds));
                }
            }
            _ => return None,
        }
        Some(())
    }

    /// What is known when all rows were read, of the rules up to 13 and of 25 and 26.
    fn finish(&mut self) {
        if self.rows == 0 {
            self.note(1, 1);
        }
        if !self.blocks.is_empty() {
            self.note(2, self.last_row);
        }
        if self.round.is_none() {
            self.note(4, self.header);
        }
        if let Some((most, line)) = self.adjust {
            if 4 * most > self.round.unwrap_or(0) {
                self.note(6, line);
            }
        }
        if self.modes.is_empty() {
            self.note(8, self.header);
        }
        if self.starts.is_empty() {
            self.note(25, self.header);
        }
        if self.rounds.is_none() {
            self.note(26, self.header);
        }
    }
}

/// Reads a document. With `show` nothing but its form is looked at, and the canonical text of its rows is appended there.
pub fn read(bytes: &[u8], mut show: Option<&mut Vec<u8>>) -> Result<Document, FormFault> {
    let mut document = Document::new(show.is_some());
    let mut words = [(0u32, 0u32); 101];
    let mut at = 0;
    while at < bytes.len() {
        let start = at;
        let mut count = 0;
        document.line += 1;
        loop {
            while at < bytes.len() && bytes[at] == b' ' {
                at += 1;
            }
            let from = at;
            while at < bytes.len() && CLASS[usize::from(bytes[at])] == 0 {
                at += 1;
            }
            if at > from && count <= 100 {
                words[count] = (from as u32, at as u32);
                count += 1;
            }
            if at == bytes.len() || CLASS[usize::from(bytes[at])] == 3 || at - start > 200 {
                return Err(line_fault(bytes, start, document.line));
            }
            if bytes[at] == b'\n' {
                break;
            }
        }
        at += 1;
        if count == 0 || bytes[words[0].0 as usize] == b'#' {
            continue;
        }
        let words = &words[..count];
        let before = document.rows;
        document.rows += 1;
        document.last_row = document.line;
        if document.row(bytes, words).is_none() {
            return Err(line_fault(bytes, start, document.line));
        }
        if before == 0 && document.header == 0 && show.is_none() {
            document.note(1, document.line);
            document.only_form = true;
        }
        if let Some(text) = &mut show {
            for &(from, to) in words {
                text.extend_from_slice(&bytes[from as usize..to as usize]);
                text.push(b' ');
            }
            if let Some(last) = text.last_mut() {
                *last = b'\n';
            }
        }
    }
    document.finish();
    Ok(document)
}
