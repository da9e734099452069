//! The answers and their lines.

/// The questions put to each frame, in their order, with their numbers.
#[derive(Clone, Copy, Debug, PartialEq, Eq, Hash)]
pub enum Question {
    Form = 1,
    Job = 2,
    Range = 3,
    NotLost = 4,
    Up = 5,
    Present = 6,
    /// Put to a withdrawal where question 6 is put to a delivery.
    Withdrawable = 12,
    Number = 7,
    Window = 8,
    LogSpace = 9,
    Space = 10,
    WireSpace = 11,
}

/// The rule that an accepted frame used; its letter ends the line.
#[derive(Clone, Copy, Debug, PartialEq, Eq, PartialOrd, Ord, Hash)]
pub enum Rule {
    AskFound,
    AskWorked,
    AskNew,
    GrantDropped,
    GrantOld,
    GrantReceived,
    GrantNew,
    DataFilled,
    DataDropped,
    /// Every other frame, a NOTE's and an ACK's delivery included.
    Other,
}

impl Rule {
    pub const ALL: [Rule; 10] = [
        Rule::AskFound,
        Rule::AskWorked,
        Rule::AskNew,
        Rule::GrantDropped,
        Rule::GrantOld,
        Rule::GrantReceived,
        Rule::GrantNew,
        Rule::DataFilled,
        Rule::DataDropped,
        Rule::Other,
    ];

    /// A to J, in the order above.
    pub fn letter(self) -> char {
        self.byte() as char
    }

    fn byte(self) -> u8 {
        b'A' + self as u8
    }
}

#[derive(Clone, Copy, Debug, PartialEq, Eq)]
pub enum Answer {
    Accepted(Rule),
    Shown {
        height: u16,
        state: u32,
    },
    /// A crash without cover.
    Lost,
    /// The first question that was answered "no".
    Refused(Question),
}

const HEX: &[u8; 16] = b"0123456789ABCDEF";

fn put_hex(out: &mut Vec<u8>, number: u32, digits: u32) {
    for place in (0..digits).rev() {
        out.push(HEX[(number >> (4 * place) & 15) as usize]);
    }
}

impl Answer {
    /// Does the line begin with 00?
    pub fn is_accepted(self) -> bool {
        matches!(self, Answer::Accepted(_) | Answer::Shown { .. })
    }

    /// The rule whose letter ends the line; none where the line has no letter.
    pub fn rule(self) -> Option<Rule> {
        match self {
            Answer::Accepted(rule) => Some(rule),
            Answer::Shown { .. } => Some(Rule::Other),
            Answer::Lost | Answer::Refused(_) => None,
        }
    }

    /// Writes the line, newline included.
    pub fn print(self, out: &mut Vec<u8>) {
        match self {
            Answer::Accepted(rule) => {
                out.extend_from_slice(&[b'0', b'0', rule.byte(), b'\n']);
            }
            Answer::Lost => out.extend_from_slice(b"FF\n"),
            Answer::Refused(question) => {
                let number = question as u8;
                out.extend_from_slice(&[b'0' + number / 10, b'0' + number % 10, b'\n']);
            }
            Answer::Shown { height, state } => {
                out.extend_from_slice(b"00");
                put_hex(out, u32::from(height), 4);
                put_hex(out, state, 8);
                out.extend_from_slice(&[Rule::Other.byte(), b'\n']);
            }
        }
    }
}
