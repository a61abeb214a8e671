//! A plain Rust pool of the same states as the proved one, and the test of a text.

const CELL: usize = 32;
pub const NONE: u32 = u32::MAX;

/// The function is that of POCSAG: 0 numeric, 1 and 2 tones, 3 alphanumeric.
#[derive(Clone, Copy)]
pub struct Subscriber {
    pub capcode: u32,
    pub function: u32,
}

/// As the proved one keeps it, though nothing is read back here.
#[allow(dead_code)]
#[derive(Clone, Copy)]
pub struct Head {
    pub address: Option<Subscriber>,
    pub length: u32,
    before: u32,
    pub after: u32,
    peer_before: u32,
    peer_after: u32,
}

const NO_PAGE: Head = Head {
    address: None,
    length: 0,
    before: NONE,
    after: NONE,
    peer_before: NONE,
    peer_after: NONE,
};

/// The pages that wait, in a region of cells.
pub struct Pool {
    bytes: Vec<u8>,
    links: Vec<u32>,
    pub heads: Vec<Head>,
    free: u32,
    spare: u32,
    pub first: u32,
    last: u32,
    pub frames: [(u32, u32); 8],
}

impl Pool {
    pub fn new(cells: u32) -> Pool {
        Pool {
            bytes: vec![0; CELL * cells as usize],
            links: (1..cells).chain([NONE]).collect(),
            heads: vec![NO_PAGE; cells as usize],
            free: 0,
            spare: cells,
            first: NONE,
            last: NONE,
            frames: [(NONE, NONE); 8],
        }
    }

    pub fn put(&mut self, to: Subscriber, text: &[u8]) -> bool {
        let cells = text.len().div_ceil(CELL).max(1) as u32;
        if self.spare < cells {
            return false;
        }
        let start = self.free;
        let mut cell = start;
        for (i, c) in text.iter().enumerate() {
            if i > 0 && i % CELL == 0 {
                cell = self.links[cell as usize];
            }
            self.bytes[CELL * cell as usize + i % CELL] = *c;
        }
        self.free = self.links[cell as usize];
        self.links[cell as usize] = NONE;
        self.spare -= cells;
        let ends = &mut self.frames[(to.capcode % 8) as usize];
        self.heads[start as usize] = Head {
            address: Some(to),
            length: text.len() as u32,
            before: self.last,
            after: NONE,
            peer_before: ends.1,
            peer_after: NONE,
        };
        if self.last == NONE {
            self.first = start;
        } else {
            self.heads[self.last as usize].after = start;
        }
        if ends.1 == NONE {
            ends.0 = start;
        } else {
            self.heads[ends.1 as usize].peer_after = start;
        }
        self.last = start;
        ends.1 = start;
        true
    }

    /// Copies the text of a page, and says how long it is.
    pub fn copy_text(&self, start: u32, into: &mut [u8; 1000]) -> usize {
        let length = self.heads[start as usize].length as usize;
        let mut cell = start as usize;
        for part in into[..length].chunks_mut(CELL) {
            part.copy_from_slice(&self.bytes[CELL * cell..CELL * cell + part.len()]);
            cell = self.links[cell] as usize;
        }
        length
    }

    /// Takes the first page of a frame out.
    pub fn take(&mut self, frame: usize) {
        let start = self.frames[frame].0;
        let head = self.heads[start as usize];
        let mut end = start;
        let mut cells = 1;
        while self.links[end as usize] != NONE {
            end = self.links[end as usize];
            cells += 1;
        }
        self.links[end as usize] = self.free;
        self.free = start;
        self.spare += cells;
        match head.before {
            NONE => self.first = head.after,
            before => self.heads[before as usize].after = head.after,
        }
        match head.after {
            NONE => self.last = head.before,
            after => self.heads[after as usize].before = head.before,
        }
        self.frames[frame].0 = head.peer_after;
        match head.peer_after {
            NONE => self.frames[frame].1 = NONE,
            after => self.heads[after as usize].peer_before = NONE,
        }
        self.heads[start as usize] = NO_PAGE;
    }
}

/// Whether a text fits the class of a subscriber.
pub fn fits(to: Subscriber, text: &[u8]) -> bool {
    match to.function {
        0 => text.len() <= 1000 && text.iter().all(|c| b"0123456789*U -]["[..].contains(c)),
        3 => text.len() <= 1000 && text.iter().all(|c| matches!(c, 0x20..=0x7E | b'\r' | b'\n')),
        _ => text.is_empty(),
    }
}
