//! H_TPM_COMM, the hypervisor's side.

use std::ops::Range;

/// The largest request and the smallest room for a response.
pub const TRANSFER: u64 = 4096;
/// Operation 1: execute.
pub const EXECUTE: u64 = 1;
/// Operation 2: close.
pub const CLOSE: u64 = 2;

/// Why a call is refused.
#[derive(Clone, Copy, Debug, PartialEq, Eq)]
pub enum Refusal {
    Function,
    Parameter,
    P2,
    P3,
    P4,
    P5,
    Resource,
}

impl Refusal {
    /// PAPR's number.
    pub fn number(self) -> i64 {
        match self {
            Refusal::Function => -2,
            Refusal::Parameter => -4,
            Refusal::Resource => -16,
            Refusal::P2 => -55,
            Refusal::P3 => -56,
            Refusal::P4 => -57,
            Refusal::P5 => -58,
        }
    }
}

/// The arguments, r4 to r8.
#[derive(Clone, Copy, Debug, PartialEq, Eq)]
pub struct Transfer {
    pub operation: u64,
    pub in_buffer: u64,
    pub in_size: u64,
    pub out_buffer: u64,
    pub out_size: u64,
}

/// The platform's flags.
#[derive(Clone, Copy, Debug)]
pub struct Platform<'a> {
    pub forbidden: bool,
    pub fault: bool,
    pub response: &'a [u8],
}

/// Where the request is and where the response goes; nothing for close.
type Buffers = Option<(Range<usize>, Range<usize>)>;

impl Transfer {
    /// All checks before H_RESOURCE.
    #[inline]
    fn buffers(&self, forbidden: bool, end: usize) -> Result<Buffers, Refusal> {
        if forbidden {
            return Err(Refusal::Function);
        }
        if self.operation == CLOSE {
            return Ok(None);
        }
        if self.operation != EXECUTE {
            return Err(Refusal::Parameter);
        }
        let start = inside(self.in_buffer, end).ok_or(Refusal::P2)?;
        let fit = self.in_size <= TRANSFER;
        let input = range(start, self.in_size, end).filter(|_| fit);
        let input = input.ok_or(Refusal::P3)?;
        let start = inside(self.out_buffer, end).ok_or(Refusal::P4)?;
        let fit = self.out_size >= TRANSFER;
        let output = range(start, self.out_size, end).filter(|_| fit);
        Ok(Some((input, output.ok_or(Refusal::P5)?)))
    }

    /// The request, as its part of the memory.
    #[inline]
    pub fn request<'a>(&self, memory: &'a [u8], forbidden: bool) -> &'a [u8] {
        match self.buffers(forbidden, memory.len()) {
            Ok(Some((input, _))) => &memory[input],
            _ => &[],
        }
    }

    /// The call. `open` is whether the guest has a session; returns r4.
    #[inline]
    pub fn comm(
        &self,
        open: &mut bool,
        memory: &mut [u8],
        platform: Platform,
    ) -> Result<u64, Refusal> {
        let output = match self.buffers(platform.forbidden, memory.len())? {
            Some((_, output)) => output,
            None => {
                *open = false;
                return Ok(0);
            }
        };
        if platform.fault {
            return Err(Refusal::Resource);
        }
        let response = platform.response;
        let room = memory[output].get_mut(..response.len());
        room.ok_or(Refusal::Resource)?.copy_from_slice(response);
        *open = true;
        Ok(response.len() as u64)
    }
}

#[inline]
fn inside(start: u64, end: usize) -> Option<usize> {
    usize::try_from(start).ok().filter(|&start| start < end)
}

#[inline]
fn range(start: usize, size: u64, end: usize) -> Option<Range<usize>> {
    let stop = start.checked_add(usize::try_from(size).ok()?)?;
    (stop <= end).then_some(start..stop)
}
