//! Boot records, and the registers of cold and warm boots.

use super::Random;
use crate::reference::boot::{Kept, Record};

/// A boot: cold or warm, x0 to x3, the monitor's maximum, the number of kept bytes, and the page.
#[derive(Clone, Debug)]
pub struct Boot {
    pub cold: bool,
    pub x: [u64; 4],
    pub most: u64,
    pub kept: u64,
    pub page: Vec<u8>,
}

impl Random {
    /// A record, one in a few with values that no boot would keep.
    pub fn record(&mut self) -> Record {
        match self.below(12) {
            0 => Record::Fresh,
            1 => Record::Closed,
            2 => Record::Up(Kept {
                cpus: self.edge(),
                base: self.any_base(),
                minor: self.edge(),
                kept: self.kept(),
            }),
            _ => Record::Up(Kept {
                cpus: self.between(1, 8),
                base: self.base(),
                minor: self.pick(&[1, 2, 3, 4, 4, 5, 5, 5, 5, 5]),
                kept: self.kept_at_boot(),
            }),
        }
    }

    /// A boot that may follow on a record.
    pub fn boot(&mut self, record: Record) -> Boot {
        let cpus = record.up().map(|kept| kept.cpus);
        match cpus {
            Some(cpus) if !self.one_in(8) => self.warm_boot(cpus),
            _ if self.one_in(8) => self.warm_boot(8),
            _ => self.cold_boot(),
        }
    }

    fn cold_boot(&mut self) -> Boot {
        let reading = if self.one_in(2) {
            self.valid_page()
        } else {
            self.any_page()
        };
        let most = match self.below(4) {
            0 => self.edge(),
            _ => self.between(1, 16),
        };
        let cpus = match self.below(6) {
            0 => self.edge(),
            1 => self.pick(&[0, most.wrapping_add(1)]),
            _ => most,
        };
        let x3 = if self.one_in(16) {
            self.any_base()
        } else {
            reading.base
        };
        Boot {
            cold: true,
            x: [self.cpu(cpus), self.interface_version(), cpus, x3],
            most,
            kept: self.kept(),
            page: reading.page,
        }
    }

    fn warm_boot(&mut self, cpus: u64) -> Boot {
        Boot {
            cold: false,
            x: [self.cpu(cpus), self.edge(), self.edge(), self.edge()],
            most: self.edge(),
            kept: self.edge(),
            page: Vec::new(),
        }
    }

    /// K, one in a few above a page.
    fn kept(&mut self) -> u64 {
        match self.below(10) {
            0 => self.edge(),
            1 => self.pick(&[4097, 1 << 32, 1 << 63, u64::MAX]),
            _ => self.kept_at_boot(),
        }
    }

    /// K as a cold boot takes it, mostly with free bytes after it.
    fn kept_at_boot(&mut self) -> u64 {
        match self.below(8) {
            0 => self.pick(&[1, 8, 111, 112, 113]),
            1 => self.below(2048),
            2 => self.pick(&[3968, 4015, 4016, 4017, 4080]),
            3 if self.one_in(4) => self.pick(&[4095, 4096]),
            _ => 0,
        }
    }

    /// x0, mostly below the bound.
    fn cpu(&mut self, cpus: u64) -> u64 {
        match self.below(8) {
            0 => cpus,
            1 => cpus.wrapping_sub(1),
            2 => self.edge(),
            _ => self.below(cpus.max(1)),
        }
    }

    /// x1, mostly a version that is accepted.
    fn interface_version(&mut self) -> u64 {
        match self.below(8) {
            0 => self.pick(&[0, 0xffff, 0x1_0000, 0x8000_0005, 0x7fff_ffff]),
            1 => (1 << 32) + self.between(0, 5),
            2 => self.edge(),
            _ => self.between(1, 7),
        }
    }
}
