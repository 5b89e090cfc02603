//! The output: a large buffer into which lines are written straight, with the tick's digits kept from line to line.
use std::io::Write;

const ROOM: usize = 1 << 16;
const SLACK: usize = 256;

/// A text of at most 32 bytes that is copied whole and counted by its length.
#[derive(Clone, Copy)]
pub struct Piece {
    text: [u8; 32],
    length: usize,
}

impl Piece {
    pub fn new(parts: &[&str]) -> Piece {
        let mut piece = Piece { text: [0; 32], length: 0 };
        for part in parts {
            piece.text[piece.length..piece.length + part.len()].copy_from_slice(part.as_bytes());
            piece.length += part.len();
        }
        piece
    }
}

pub struct Lines<'a> {
    sink: &'a mut dyn Write,
    buffer: Box<[u8; ROOM + SLACK]>,
    used: usize,
    failed: bool,
    tick: u64,
    /// The tick without its last four digits, times 10,000.
    base: u64,
    digits: [u8; 32],
    length: usize,
}

const PAIRS: [[u8; 2]; 100] = {
    let mut pairs = [[0; 2]; 100];
    let mut number = 0;
    while number < 100 {
        pairs[number] = [b'0' + number as u8 / 10, b'0' + number as u8 % 10];
        number += 1;
    }
    pairs
};

fn four(number: u64) -> [u8; 4] {
    let high = PAIRS[number as usize / 100];
    let low = PAIRS[number as usize % 100];
    [high[0], high[1], low[0], low[1]]
}

impl Lines<'_> {
    pub fn new(sink: &mut dyn Write) -> Lines<'_> {
        Lines {
            sink,
            buffer: Box::new([0; ROOM + SLACK]),
            used: 0,
            failed: false,
            tick: 0,
            base: 0,
            digits: *b"0                               ",
            length: 1,
        }
    }

    #[cold]
    fn flush(&mut self) {
        if !self.failed && self.used > 0 {
            self.failed = self.sink.write_all(&self.buffer[..self.used]).is_err();
        }
        self.used = 0;
    }

    /// Writes what is left; whether all was taken.
    pub fn finish(&mut self) -> bool {
        self.flush();
        !self.failed
    }

    pub fn failed(&self) -> bool {
        self.failed
    }

    #[cold]
    fn spell(&mut self, tick: u64) {
        let mut digits = [0u8; 20];
        let mut from = 20;
        let mut rest = tick;
        loop {
            from -= 1;
            digits[from] = b'0' + (rest % 10) as u8;
            rest /= 10;
            if rest == 0 {
                break;
            }
        }
        self.length = 20 - from;
        self.digits[..self.length].copy_from_slice(&digits[from..]);
        self.base = tick / 10_000 * 10_000;
    }

    /// Begins a line with its tick.
    #[inline]
    pub fn begin(&mut self, tick: u64) {
        if self.used > ROOM {
            self.flush();
        }
        if tick != self.tick {
            self.tick = tick;
            let low = tick.wrapping_sub(self.base);
            if low < 10_000 && self.base > 0 {
                let at = (self.length - 4) & 15;
                self.digits[at..at + 4].copy_from_slice(&four(low));
            } else {
                self.spell(tick);
            }
        }
        let used = self.used;
        self.buffer[used..used + 16].copy_from_slice(&self.digits[..16]);
        self.used = used + self.length;
    }

    #[inline]
    pub fn piece(&mut self, piece: &Piece) {
        let used = self.used;
        self.buffer[used..used + 32].copy_from_slice(&piece.text);
        self.used = used + piece.length;
    }

    pub fn text(&mut self, text: &str) {
        self.buffer[self.used..self.used + text.len()].copy_from_slice(text.as_bytes());
        self.used += text.len();
    }

    /// A number in decimal.
    pub fn number(&mut self, mut number: u32) {
        let mut digits = [0u8; 16];
        let mut from = 16;
        while number >= 100 {
            from -= 2;
            digits[from..from + 2].copy_from_slice(&PAIRS[(number % 100) as usize]);
            number /= 100;
        }
        from -= 2;
        digits[from..from + 2].copy_from_slice(&PAIRS[number as usize]);
        if number < 10 {
            from += 1;
        }
        let length = 16 - from;
        self.buffer[self.used..self.used + length].copy_from_slice(&digits[from..]);
        self.used += length;
    }
}
