//! Long lists that bring one number past 60,000, for answer 07.

use crate::encode::put_line;
use crate::frame::{Draft, Frame};
use crate::limits::{DESK, MAX_NUMBER};
use crate::wire::{Kind, Name};

/// Which number passes 60,000 at the end of the list.
#[derive(Clone, Copy, Debug, PartialEq, Eq)]
pub enum Limit {
    /// The SN of an injection.
    Injection,
    /// The TN that an ASK takes.
    Ask,
    /// The TN that a local send takes.
    Local,
    /// The SN of a message sent by a work.
    Sent,
}

impl Limit {
    pub const ALL: [Limit; 4] = [Limit::Injection, Limit::Ask, Limit::Local, Limit::Sent];

    pub fn name(self) -> &'static str {
        match self {
            Limit::Injection => "injection",
            Limit::Ask => "ask",
            Limit::Local => "local",
            Limit::Sent => "sent",
        }
    }
}

/// A list under way, with the works since the last checkpoints.
struct Maker {
    out: Vec<u8>,
    works: usize,
}

impl Maker {
    fn new(places: &[[u8; 3]]) -> Maker {
        let mut draft = Draft {
            machines: 2,
            chares: places.len() as u8,
            ..Draft::default()
        };
        draft.places[..places.len()].copy_from_slice(places);
        let mut maker = Maker {
            out: Vec::new(),
            works: 0,
        };
        maker.put(Frame::Job(draft));
        maker
    }

    fn put(&mut self, frame: Frame) {
        put_line(&mut self.out, &frame);
    }

    fn inject(&mut self, chare: u8, value: u16, hops: u8) {
        self.put(Frame::Inject { chare, value, hops });
    }

    fn deliver(&mut self, kinds: &[Kind], sender: u8, receiver: u8, sn: u16) {
        for &kind in kinds {
            self.put(Name::new(kind, sender, receiver, sn).into());
        }
    }

    /// Works, and after every twelve works of any chare makes both checkpoints.
    fn work(&mut self, chare: u8) {
        self.put(Frame::Work { chare });
        self.works += 1;
        if self.works == 12 {
            self.works = 0;
            self.put(Frame::Checkpoint { machine: 1 });
            self.put(Frame::Checkpoint { machine: 2 });
        }
    }

    /// The way of a message from another machine, to the end.
    fn carry(&mut self, sender: u8, receiver: u8, sn: u16) {
        self.deliver(&[Kind::Ask, Kind::Grant, Kind::Data], sender, receiver, sn);
        self.work(receiver);
    }
}

/// The frame that gets 07 is the last but one; a show follows it.
pub fn limit_list(limit: Limit) -> Vec<u8> {
    match limit {
        Limit::Injection => injection(),
        Limit::Ask => ask(),
        Limit::Local => local(),
        Limit::Sent => sent(),
    }
}

fn injection() -> Vec<u8> {
    let mut list = Maker::new(&[[1, 0, 0]]);
    for sn in 1..=MAX_NUMBER {
        list.inject(1, sn, 0);
        list.carry(DESK, 1, sn);
    }
    list.inject(1, 1, 0);
    list.put(Frame::Show { chare: 1 });
    list.out
}

/// Chare 2 gets as many messages from the desk as from chare 1.
fn ask() -> Vec<u8> {
    let mut list = Maker::new(&[[1, 2, 0], [2, 0, 0]]);
    for sn in 1..=MAX_NUMBER / 2 {
        list.inject(1, sn, 1);
        list.carry(DESK, 1, sn);
        list.carry(1, 2, sn);
        list.inject(2, sn, 0);
        list.carry(DESK, 2, sn);
    }
    list.inject(2, 1, 0);
    list.deliver(&[Kind::Ask], DESK, 2, MAX_NUMBER / 2 + 1);
    list.put(Frame::Show { chare: 2 });
    list.out
}

/// Chare 1 writes to itself: one injection gives up to eight tickets.
fn local() -> Vec<u8> {
    let mut list = Maker::new(&[[1, 1, 0]]);
    let (mut sn, mut own, mut tn) = (0, 0, 0);
    loop {
        // The first has no hops, so that the last ticket falls to a message that has some.
        let hops = if tn == 0 { 0 } else { 7 };
        sn += 1;
        list.inject(1, sn, hops);
        list.carry(DESK, 1, sn);
        tn += 1;
        for _ in 0..hops {
            own += 1;
            tn += 1;
            list.deliver(&[Kind::Note, Kind::Ack], 1, 1, own);
            if tn == MAX_NUMBER {
                list.put(Frame::Work { chare: 1 });
                list.put(Frame::Show { chare: 1 });
                return list.out;
            }
            list.work(1);
        }
    }
}

/// Chare 1 writes twice to chare 2.
fn sent() -> Vec<u8> {
    let mut list = Maker::new(&[[1, 2, 2], [2, 0, 0]]);
    for sn in 1..=MAX_NUMBER / 2 {
        list.inject(1, sn, 1);
        list.carry(DESK, 1, sn);
        list.carry(1, 2, 2 * sn - 1);
        list.carry(1, 2, 2 * sn);
    }
    list.inject(1, 1, 1);
    let way = [Kind::Ask, Kind::Grant, Kind::Data];
    list.deliver(&way, DESK, 1, MAX_NUMBER / 2 + 1);
    list.put(Frame::Work { chare: 1 });
    list.put(Frame::Show { chare: 1 });
    list.out
}
