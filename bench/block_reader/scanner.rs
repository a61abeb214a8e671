//! A plain Rust scanner of the same states as the proved one.
#![allow(dead_code)]

use std::hint::black_box;

pub const STX: u8 = 0x02;
pub const ETX: u8 = 0x03;
pub const EOT: u8 = 0x04;
pub const LF: u8 = 0x0A;
pub const CR: u8 = 0x0D;
pub const ETB: u8 = 0x17;
pub const ESC: u8 = 0x1B;
pub const US: u8 = 0x1F;

#[derive(Clone, Copy, PartialEq)]
pub enum End {
    Etx,
    Etb,
    Us,
}

#[derive(Clone, Copy, PartialEq)]
pub enum Item {
    EmptyLine,
    Logon,
    WrongLine,
    Block { end: End, sum_ok: bool, length: u32 },
    Bye,
}

/// All places of the proved scanner.
#[derive(Clone, Copy)]
enum Place {
    InLine,
    Between,
    AfterEot,
    InBody,
    InTrailer(End),
}

/// At most `N` characters.
pub struct Kept<const N: usize> {
    chars: [u8; N],
    pub len: usize,
}

impl<const N: usize> Kept<N> {
    pub fn new() -> Self {
        Kept { chars: [0; N], len: 0 }
    }

    pub fn push(&mut self, c: u8) {
        if self.len < N {
            self.chars[self.len] = c;
            self.len += 1;
        }
    }

    pub fn slice(&self) -> &[u8] {
        &self.chars[..self.len]
    }
}

pub struct Scanner {
    password: Option<[u8; 6]>,
    place: Place,
    line: Kept<11>,
    pub body: Kept<250>,
    size: u32,
    total: u32,
    trailer: Kept<4>,
}

impl Scanner {
    /// Before logon.
    pub fn new() -> Scanner {
        Scanner {
            place: Place::InLine,
            ..Scanner::blocks()
        }
    }

    /// After logon.
    pub fn blocks() -> Scanner {
        Scanner {
            password: None,
            place: black_box(Place::Between),
            line: Kept::new(),
            body: Kept::new(),
            size: 0,
            total: 0,
            trailer: Kept::new(),
        }
    }

    #[inline(always)]
    pub fn feed(&mut self, byte: u8) -> Option<Item> {
        let c = byte % 128;
        match self.place {
            Place::InLine => self.in_line(c),
            Place::AfterEot if c == CR => {
                self.place = Place::Between;
                Some(Item::Bye)
            }
            Place::Between | Place::AfterEot => {
                self.begin(c);
                None
            }
            Place::InBody => {
                self.in_body(c);
                None
            }
            Place::InTrailer(end) => self.in_trailer(c, end),
        }
    }

    fn begin(&mut self, c: u8) {
        self.place = match c {
            STX => {
                self.body.len = 0;
                self.size = 0;
                self.total = u32::from(STX);
                Place::InBody
            }
            EOT => Place::AfterEot,
            _ => Place::Between,
        };
    }

    fn in_line(&mut self, c: u8) -> Option<Item> {
        if c != CR {
            if c != LF {
                self.line.push(c);
            }
            return None;
        }
        let item = match self.line.slice() {
            [] => Item::EmptyLine,
            [ESC, b'P', b'G', b'1', word @ ..] if self.is_password(word) => Item::Logon,
            _ => Item::WrongLine,
        };
        if item == Item::Logon {
            self.place = Place::Between;
        }
        self.line.len = 0;
        Some(item)
    }

    fn is_password(&self, word: &[u8]) -> bool {
        match self.password {
            None => word.is_empty() || word.len() == 6,
            Some(password) => word == password,
        }
    }

    fn in_body(&mut self, c: u8) {
        match c {
            STX => self.begin(c),
            ETX => self.end(End::Etx, c),
            ETB => self.end(End::Etb, c),
            US => self.end(End::Us, c),
            _ => {
                self.body.push(c);
                if self.size < 251 {
                    self.size += 1;
                }
                self.total = (self.total + u32::from(c)) % 4096;
            }
        }
    }

    fn end(&mut self, end: End, c: u8) {
        self.total = (self.total + u32::from(c)) % 4096;
        self.trailer.len = 0;
        self.place = Place::InTrailer(end);
    }

    fn in_trailer(&mut self, c: u8, end: End) -> Option<Item> {
        self.trailer.push(c);
        if c != CR && self.trailer.len < 4 {
            return None;
        }
        self.place = Place::Between;
        Some(Item::Block {
            end,
            sum_ok: self.is_right(),
            length: self.size,
        })
    }

    fn is_right(&self) -> bool {
        let [high, middle, low] = written(self.total);
        self.trailer.slice() == [high, middle, low, CR]
    }
}

/// A sum in three characters.
pub fn written(total: u32) -> [u8; 3] {
    [
        b'0' + (total / 256) as u8,
        b'0' + (total / 16 % 16) as u8,
        b'0' + (total % 16) as u8,
    ]
}
