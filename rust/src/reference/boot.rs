//! The boot record, cold and warm boot.

use super::layout::{accepted_minor, Edition, PAGE};
use super::reader::{read, Refusal};

/// The newest minor of the boot interface that is supported here.
const INTERFACE_MINOR: u16 = 5;

/// What the record keeps while it is up.
#[derive(Clone, Copy, Debug, PartialEq, Eq)]
pub struct Kept {
    /// x2 of the cold boot.
    pub cpus: u64,
    pub base: u64,
    /// The agreed minor.
    pub minor: u64,
    /// K: how many bytes at the page's start no buffer may begin in.
    pub kept: u64,
}

/// The boot record.
#[derive(Clone, Copy, Debug, PartialEq, Eq)]
pub enum Record {
    Fresh,
    Up(Kept),
    Closed,
}

/// Why a boot fails.
#[derive(Clone, Copy, Debug, PartialEq, Eq)]
pub enum BootError {
    Record,
    Version,
    Cpus,
    Cpu,
    Page(Refusal),
}

impl BootError {
    /// The number of the code.
    #[inline]
    pub fn code(self) -> i32 {
        match self {
            BootError::Record => -1,
            BootError::Version => -2,
            BootError::Cpus => -3,
            BootError::Cpu => -4,
            BootError::Page(refusal) => refusal.code(),
        }
    }
}

/// The code of a boot's answer.
#[inline]
pub fn boot_code(answer: Result<(), BootError>) -> i32 {
    answer.map_or_else(BootError::code, |()| 0)
}

impl Record {
    /// A cold boot with registers x0 to x3, the monitor's maximum of CPUs, the number of kept bytes, and the page at x3.
    pub fn cold(
        self,
        x: [u64; 4],
        most: u64,
        kept: u64,
        page: &[u8],
    ) -> (Record, Result<(), BootError>) {
        closed_on_error(self.cold_kept(x, most, kept, page))
    }

    /// A warm boot of the CPU in x0. The other registers are ignored.
    #[inline]
    pub fn warm(self, x: [u64; 4]) -> (Record, Result<(), BootError>) {
        closed_on_error(self.warm_kept(x[0]))
    }

    /// What is kept, if the record is up.
    #[inline]
    pub fn up(self) -> Option<Kept> {
        match self {
            Record::Up(kept) => Some(kept),
            _ => None,
        }
    }

    fn cold_kept(self, x: [u64; 4], most: u64, kept: u64, page: &[u8]) -> Result<Kept, BootError> {
        let [cpu, version, cpus, base] = x;
        if self != Record::Fresh {
            return Err(BootError::Record);
        }
        let offered = u32::try_from(version).ok().and_then(accepted_minor);
        let minor = offered.ok_or(BootError::Version)?.min(INTERFACE_MINOR);
        if cpus > most {
            return Err(BootError::Cpus);
        }
        if cpu >= cpus {
            return Err(BootError::Cpu);
        }
        if kept > PAGE as u64 {
            return Err(BootError::Page(Refusal::Place));
        }
        read(page, base, Edition::NEWEST.number()).map_err(BootError::Page)?;
        Ok(Kept {
            cpus,
            base,
            minor: u64::from(minor),
            kept,
        })
    }

    #[inline]
    fn warm_kept(self, cpu: u64) -> Result<Kept, BootError> {
        let kept = self.up().ok_or(BootError::Record)?;
        if cpu < kept.cpus {
            Ok(kept)
        } else {
            Err(BootError::Cpu)
        }
    }
}

/// Any boot error closes the record for good.
#[inline]
fn closed_on_error(kept: Result<Kept, BootError>) -> (Record, Result<(), BootError>) {
    match kept {
        Ok(kept) => (Record::Up(kept), Ok(())),
        Err(error) => (Record::Closed, Err(error)),
    }
}
