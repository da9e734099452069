//! Packets and the wire.

use crate::limits::WIRE_SIZE;
use crate::message::Body;

#[derive(Clone, Copy, Debug, PartialEq, Eq, Hash)]
pub enum Kind {
    Ask = 1,
    Grant = 2,
    Data = 3,
    Note = 4,
    Ack = 5,
}

impl Kind {
    pub const ALL: [Kind; 5] = [Kind::Ask, Kind::Grant, Kind::Data, Kind::Note, Kind::Ack];

    pub fn from_byte(byte: u8) -> Option<Kind> {
        Some(match byte {
            1 => Kind::Ask,
            2 => Kind::Grant,
            3 => Kind::Data,
            4 => Kind::Note,
            5 => Kind::Ack,
            _ => return None,
        })
    }
}

/// By this a packet is found: kind, sender, receiver and SN in one word, so that a search compares
/// one number per packet.
#[derive(Clone, Copy, Debug, Default, PartialEq, Eq, Hash)]
pub struct Name(u32);

impl Name {
    pub fn new(kind: Kind, sender: u8, receiver: u8, sn: u16) -> Name {
        Name(kind as u32 | u32::from(sender) << 4 | u32::from(receiver) << 8 | u32::from(sn) << 16)
    }

    pub fn kind(self) -> Kind {
        match self.0 & 15 {
            1 => Kind::Ask,
            2 => Kind::Grant,
            3 => Kind::Data,
            4 => Kind::Note,
            _ => Kind::Ack,
        }
    }

    pub fn sender(self) -> u8 {
        (self.0 >> 4) as u8 & 15
    }

    pub fn receiver(self) -> u8 {
        (self.0 >> 8) as u8 & 15
    }

    pub fn sn(self) -> u16 {
        (self.0 >> 16) as u16
    }

    /// The packet of another kind about the same message.
    pub fn with_kind(self, kind: Kind) -> Name {
        Name(self.0 & !15 | kind as u32)
    }
}

/// What a packet carries besides its name.
#[derive(Clone, Copy, Debug, Default, PartialEq, Eq)]
pub enum Content {
    #[default]
    Ask,
    GrantOld,
    GrantReceived(u16),
    GrantNew(u16),
    Data {
        value: u16,
        hops: u8,
    },
    Note(u16),
    Ack,
}

impl Content {
    pub fn data(body: Body) -> Content {
        Content::Data {
            value: body.value,
            hops: body.hops,
        }
    }
}

/// The packets under way, oldest first. Names and contents stand apart to keep the search short.
#[derive(Clone)]
pub struct Wire {
    len: usize,
    names: [Name; WIRE_SIZE],
    contents: [Content; WIRE_SIZE],
}

impl Wire {
    pub fn new() -> Wire {
        Wire {
            len: 0,
            names: [Name::default(); WIRE_SIZE],
            contents: [Content::Ask; WIRE_SIZE],
        }
    }

    pub fn len(&self) -> usize {
        self.len
    }

    pub fn is_empty(&self) -> bool {
        self.len == 0
    }

    pub fn names(&self) -> &[Name] {
        &self.names[..self.len]
    }

    pub fn content(&self, at: usize) -> Content {
        self.contents[..self.len][at]
    }

    pub fn packets(&self) -> impl Iterator<Item = (Name, Content)> + '_ {
        self.names()
            .iter()
            .copied()
            .zip(self.contents.iter().copied())
    }

    /// The oldest packet of this name.
    pub fn find(&self, name: Name) -> Option<usize> {
        // Whole blocks are compared without leaving early, which the compiler can do at once.
        const BLOCK: usize = 16;
        let names = self.names();
        let blocks = names.chunks_exact(BLOCK);
        let rest = blocks.remainder();
        let mut start = 0;
        for block in blocks {
            if block.iter().fold(false, |hit, &n| hit | (n == name)) {
                return block.iter().position(|&n| n == name).map(|i| start + i);
            }
            start += BLOCK;
        }
        rest.iter().position(|&n| n == name).map(|i| start + i)
    }

    /// Adds a packet at the end. The caller has judged that there is space.
    pub fn push(&mut self, name: Name, content: Content) {
        self.names[self.len] = name;
        self.contents[self.len] = content;
        self.len += 1;
    }

    pub fn remove(&mut self, at: usize) {
        assert!(at < self.len);
        self.names.copy_within(at + 1..self.len, at);
        self.contents.copy_within(at + 1..self.len, at);
        self.len -= 1;
    }

    /// Keeps the packets whose names pass, in order.
    pub fn retain(&mut self, keep: impl Fn(Name) -> bool) {
        let mut kept = 0;
        for at in 0..self.len {
            if keep(self.names[at]) {
                self.names[kept] = self.names[at];
                self.contents[kept] = self.contents[at];
                kept += 1;
            }
        }
        self.len = kept;
    }
}

impl Default for Wire {
    fn default() -> Self {
        Wire::new()
    }
}

// Unused places are no part of the value.
impl PartialEq for Wire {
    fn eq(&self, other: &Self) -> bool {
        self.names() == other.names() && self.contents[..self.len] == other.contents[..other.len]
    }
}

impl Eq for Wire {}

impl std::fmt::Debug for Wire {
    fn fmt(&self, f: &mut std::fmt::Formatter<'_>) -> std::fmt::Result {
        let packets = self
            .packets()
            .map(|(n, c)| (n.sender(), n.receiver(), n.sn(), c));
        f.debug_list().entries(packets).finish()
    }
}
