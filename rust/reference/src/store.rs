//! A mark store keeps one number, the mark, that only rises. A raise gives the mark and makes it one more; one that the power fails in
//! gives nothing, and yet moves the mark unless the byte that is left over is ff.

use crate::refusal::{FULL, POWER, Refusal};

/// The most that any store can count to, which is the register's capacity.
pub const CAPACITY_MAX: u64 = 1 << 53;
/// How many cells of a strip count.
pub const STRIP_CELLS: usize = 65_536;
/// What a cell holds that was never written.
pub const BLANK: u8 = 0xff;
/// What a raise that completes writes into a cell.
const WRITTEN: u8 = 0x00;

/// The five things that a store is.
#[derive(Clone, Copy, Debug, PartialEq, Eq)]
pub struct Reading {
    /// The next number to be given.
    pub mark: u64,
    /// How far the mark can rise.
    pub capacity: u64,
    /// How many more raises will complete.
    pub power: u32,
    /// The byte that stands in a cell when the power fails while it is written.
    pub leftover: u8,
    /// Whether the store answers at all.
    pub on: bool,
}

/// Why a raise gives no number.
#[derive(Clone, Copy, Debug, PartialEq, Eq)]
pub enum RaiseFault {
    /// The mark is at the capacity.
    Full,
    /// The store is off, or the power failed in this raise.
    PowerFailed,
}

impl From<RaiseFault> for Refusal {
    fn from(fault: RaiseFault) -> Refusal {
        Refusal::plain(match fault {
            RaiseFault::Full => FULL,
            RaiseFault::PowerFailed => POWER,
        })
    }
}

/// Whatever keeps a mark. Its capacity is at most 2^53, and its mark is never above the capacity.
pub trait MarkStore {
    /// The five things, on or off.
    fn reading(&self) -> Reading;
    /// Gives the mark and makes it one more, or says why not.
    fn raise(&mut self) -> Result<u64, RaiseFault>;
    /// Puts the store on with a power and a leftover byte; mark and capacity stay.
    fn restart(&mut self, power: u32, leftover: u8);
}

/// What feeds a store: its power, the byte that a failing raise leaves, and whether it is on.
#[derive(Clone, Debug)]
struct Supply {
    power: u32,
    leftover: u8,
    on: bool,
}

/// What a raise comes to that is not refused outright.
enum Attempt {
    Completes,
    Fails { leftover: u8 },
}

impl Supply {
    fn new(power: u32, leftover: u8) -> Self {
        Supply { power, leftover, on: true }
    }

    /// The cases of a raise in their order; it spends power, or goes off for want of it.
    fn attempt(&mut self, mark: u64, capacity: u64) -> Result<Attempt, RaiseFault> {
        if !self.on {
            return Err(RaiseFault::PowerFailed);
        }
        if mark >= capacity {
            return Err(RaiseFault::Full);
        }
        match self.power.checked_sub(1) {
            Some(less) => {
                self.power = less;
                Ok(Attempt::Completes)
            }
            None => {
                self.on = false;
                Ok(Attempt::Fails { leftover: self.leftover })
            }
        }
    }

    fn reading(&self, mark: u64, capacity: u64) -> Reading {
        Reading { mark, capacity, power: self.power, leftover: self.leftover, on: self.on }
    }
}

/// A store that keeps its mark as a number; its capacity is 2^53.
#[derive(Clone, Debug)]
pub struct Register {
    mark: u64,
    supply: Supply,
}

impl Register {
    /// A register that is on; a mark above 2^53 counts as 2^53.
    pub fn new(mark: u64, power: u32, leftover: u8) -> Self {
        Register { mark: mark.min(CAPACITY_MAX), supply: Supply::new(power, leftover) }
    }
}

impl MarkStore for Register {
    fn reading(&self) -> Reading {
        self.supply.reading(self.mark, CAPACITY_MAX)
    }

    fn raise(&mut self) -> Result<u64, RaiseFault> {
        let mark = self.mark;
        match self.supply.attempt(mark, CAPACITY_MAX)? {
            Attempt::Completes => {
                self.mark = mark + 1;
                Ok(mark)
            }
            Attempt::Fails { leftover } => {
                if leftover != BLANK {
                    self.mark = mark + 1;
                }
                Err(RaiseFault::PowerFailed)
            }
        }
    }

    fn restart(&mut self, power: u32, leftover: u8) {
        self.supply = Supply::new(power, leftover);
    }
}

/// A store over lent bytes: the mark is the number, from 1, of the last counted cell that is not ff.
#[derive(Debug)]
pub struct Strip<'a> {
    cells: &'a mut [u8],
    supply: Supply,
}

impl<'a> Strip<'a> {
    /// A strip that is on.
    pub fn new(cells: &'a mut [u8], power: u32, leftover: u8) -> Self {
        Strip { cells, supply: Supply::new(power, leftover) }
    }

    /// All the cells, also those that do not count.
    pub fn cells(&self) -> &[u8] {
        self.cells
    }

    fn capacity(&self) -> usize {
        self.cells.len().min(STRIP_CELLS)
    }

    fn mark(&self) -> usize {
        let counted = &self.cells[..self.capacity()];
        counted.iter().rposition(|cell| *cell != BLANK).map_or(0, |last| last + 1)
    }
}

impl MarkStore for Strip<'_> {
    fn reading(&self) -> Reading {
        self.supply.reading(self.mark() as u64, self.capacity() as u64)
    }

    fn raise(&mut self) -> Result<u64, RaiseFault> {
        let mark = self.mark();
        match self.supply.attempt(mark as u64, self.capacity() as u64)? {
            Attempt::Completes => {
                self.cells[mark] = WRITTEN;
                Ok(mark as u64)
            }
            Attempt::Fails { leftover } => {
                self.cells[mark] = leftover;
                Err(RaiseFault::PowerFailed)
            }
        }
    }

    fn restart(&mut self, power: u32, leftover: u8) {
        self.supply = Supply::new(power, leftover);
    }
}

#[cfg(test)]
mod tests {
    use super::RaiseFault::{Full, PowerFailed};
    use super::*;

    #[test]
    fn the_use_in_the_document() {
        let mut cells = [0xff; 4];
        let mut strip = Strip::new(&mut cells, 1, 0x7f);
        assert_eq!(strip.raise(), Ok(0));
        assert_eq!(strip.raise(), Err(PowerFailed));
        assert_eq!(strip.cells(), [0x00, 0x7f, 0xff, 0xff]);
        assert_eq!(strip.reading(), Reading { mark: 2, capacity: 4, power: 0, leftover: 0x7f, on: false });
        strip.restart(9, 0xff);
        assert_eq!(strip.raise(), Ok(2));
        assert_eq!(strip.reading(), Reading { mark: 3, capacity: 4, power: 8, leftover: 0xff, on: true });
        assert_eq!(cells, [0x00, 0x7f, 0x00, 0xff]);
    }

    #[test]
    fn marks_of_strips() {
        let mark = |cells: &[u8]| Strip::new(&mut cells.to_vec(), 0, 0).reading().mark;
        assert_eq!(mark(&[]), 0);
        assert_eq!(mark(&[0xff, 0xff]), 0);
        assert_eq!(mark(&[0x00, 0xff]), 1);
        assert_eq!(mark(&[0xff, 0xfe, 0xff]), 2);
        assert_eq!(mark(&[0x00, 0xff, 0x01]), 3);
    }

    #[test]
    fn an_empty_strip_is_full() {
        let mut strip = Strip::new(&mut [], 5, 0);
        assert_eq!(strip.raise(), Err(Full));
        assert_eq!(strip.reading(), Reading { mark: 0, capacity: 0, power: 5, leftover: 0, on: true });
    }

    #[test]
    fn cells_past_the_counted_ones_stay() {
        let mut cells = vec![0xff; STRIP_CELLS + 2];
        cells[STRIP_CELLS] = 0x12;
        let mut strip = Strip::new(&mut cells, 3, 0);
        assert_eq!(strip.reading().mark, 0);
        assert_eq!(strip.reading().capacity, 65_536);
        assert_eq!(strip.raise(), Ok(0));
        cells[STRIP_CELLS - 1] = 0x00;
        let mut strip = Strip::new(&mut cells, 3, 0);
        assert_eq!(strip.raise(), Err(Full));
        assert_eq!(cells[STRIP_CELLS..], [0x12, 0xff]);
    }

    #[test]
    fn a_strip_that_fails_with_ff_changes_no_cell() {
        let mut cells = [0x00, 0xff];
        let mut strip = Strip::new(&mut cells, 0, 0xff);
        assert_eq!(strip.raise(), Err(PowerFailed));
        assert_eq!(strip.reading(), Reading { mark: 1, capacity: 2, power: 0, leftover: 0xff, on: false });
        assert_eq!(cells, [0x00, 0xff]);
    }

    #[test]
    fn a_register_fails_and_restarts() {
        for (leftover, mark) in [(0x00, 6), (0xfe, 6), (0xff, 5)] {
            let mut register = Register::new(4, 1, leftover);
            assert_eq!(register.raise(), Ok(4));
            assert_eq!(register.raise(), Err(PowerFailed));
            assert_eq!(register.reading(), Reading { mark, capacity: 1 << 53, power: 0, leftover, on: false });
            assert_eq!(register.raise(), Err(PowerFailed));
            assert_eq!(register.reading().mark, mark);
            register.restart(u32::MAX, 0x11);
            assert_eq!(register.reading(), Reading { mark, capacity: 1 << 53, power: u32::MAX, leftover: 0x11, on: true });
            assert_eq!(register.raise(), Ok(mark));
            assert_eq!(register.reading().power, u32::MAX - 1);
        }
    }

    #[test]
    fn a_full_register_is_full_before_it_wants_power_and_off_before_it_is_full() {
        for mark in [1 << 53, (1 << 53) + 1, u64::MAX] {
            let mut register = Register::new(mark, 0, 0);
            assert_eq!(register.reading().mark, 1 << 53);
            assert_eq!(register.raise(), Err(Full));
            assert!(register.reading().on);
        }
        let mut register = Register::new((1 << 53) - 1, 0, 0);
        assert_eq!(register.raise(), Err(PowerFailed));
        assert_eq!(register.reading().mark, 1 << 53);
        assert_eq!(register.raise(), Err(PowerFailed));
        register.restart(1, 0);
        assert_eq!(register.raise(), Err(Full));
    }

    #[test]
    fn numbers_of_the_faults() {
        assert_eq!(Refusal::from(Full), Refusal::plain(22));
        assert_eq!(Refusal::from(PowerFailed), Refusal::plain(23));
    }
}
