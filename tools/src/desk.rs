//! The two desks that book in one list: the radio, 0, and the television, 1.

/// A desk.
#[derive(Clone, Copy, PartialEq, Eq, PartialOrd, Ord, Debug)]
pub enum Desk {
    /// Desk 0.
    Radio,
    /// Desk 1.
    Television,
}

impl Desk {
    /// Both desks, in the order of their numbers.
    pub const BOTH: [Desk; 2] = [Desk::Radio, Desk::Television];

    /// The desk with this number; none if it is over 1.
    pub fn numbered(number: u16) -> Option<Desk> {
        Desk::BOTH.get(usize::from(number)).copied()
    }

    /// The desk that a word means: its number or its name.
    pub fn called(word: &str) -> Option<Desk> {
        let means = |desk: &Desk| word == desk.name() || word == desk.number().to_string();
        Desk::BOTH.into_iter().find(means)
    }

    /// Its number.
    pub fn number(self) -> u16 {
        self as u16
    }

    /// Where this desk stands in a list with one entry per desk.
    pub fn index(self) -> usize {
        usize::from(self.number())
    }

    /// The other one.
    pub fn other(self) -> Desk {
        match self {
            Desk::Radio => Desk::Television,
            Desk::Television => Desk::Radio,
        }
    }

    /// What it is called.
    pub fn name(self) -> &'static str {
        match self {
            Desk::Radio => "radio",
            Desk::Television => "television",
        }
    }
}
