//! The reading position, and what ends a reading.

/// `N A B C`; acceptance is all zero.
pub type Verdict = [u32; 4];

pub const ACCEPTED: Verdict = [0; 4];

pub const TOO_LONG: u32 = 1;
pub const CUT: u32 = 2;
pub const NOT_ALLOWED: u32 = 3;
pub const OUT_OF_RANGE: u32 = 4;
pub const NOT_RISING: u32 = 5;
pub const TOO_MANY: u32 = 6;
pub const TOO_MANY_FACTS: u32 = 7;
pub const NOT_THERE: u32 = 8;
pub const START: u32 = 9;
pub const STEP: u32 = 10;
pub const NOT_THE_ROOT: u32 = 11;
/// Before F-6 whatever is wrong with an element.
pub const WRONG_ATTRIBUTE: u32 = 12;
pub const NO_ROOM: u32 = 13;
pub const WRONG_CONTENT: u32 = 14;
pub const WRONG_CLAUSE: u32 = 15;

/// Most bytes of a job, a vocabulary or a page.
pub const LONGEST: usize = 65_535;

/// The first command that can't be read.
#[derive(Clone, Copy, Debug, PartialEq, Eq)]
pub struct Fault {
    pub number: u32,
    pub at: usize,
}

impl Fault {
    pub fn new(number: u32, at: usize) -> Fault {
        Fault { number, at }
    }

    pub fn verdict(self, slice: u32) -> Verdict {
        [self.number, self.at as u32, slice, 0]
    }
}

pub struct Reader<'a> {
    bytes: &'a [u8],
    /// Offset of the next command.
    pub at: usize,
}

impl<'a> Reader<'a> {
    pub fn new(bytes: &'a [u8]) -> Result<Reader<'a>, Fault> {
        if bytes.len() > LONGEST {
            return Err(Fault::new(TOO_LONG, 0));
        }
        Ok(Reader::of_any_length(bytes))
    }

    pub fn of_any_length(bytes: &'a [u8]) -> Reader<'a> {
        Reader { bytes, at: 0 }
    }

    /// The next command; the position stays on it.
    #[inline]
    pub fn command(&self) -> Result<u8, Fault> {
        match self.bytes.get(self.at) {
            Some(&command) => Ok(command),
            None => Err(Fault::new(CUT, self.at)),
        }
    }

    /// Moves over the command at hand and hands back its operands.
    #[inline]
    pub fn operands<const K: usize>(&mut self) -> Result<[u8; K], Fault> {
        let from = self.at + 1;
        match self.bytes.get(from..from + K) {
            Some(operands) => {
                self.at = from + K;
                Ok(operands.try_into().unwrap())
            }
            None => Err(Fault::new(CUT, self.at)),
        }
    }

    /// Nothing may follow the last command.
    pub fn end(&self) -> Result<(), Fault> {
        if self.at < self.bytes.len() {
            return Err(Fault::new(NOT_ALLOWED, self.at));
        }
        Ok(())
    }
}
