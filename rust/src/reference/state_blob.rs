//! GET_STATEBLOB of a software TPM: the request for a piece of a state blob, the response that carries one, and a collector that joins
//! the pieces. Every number has four bytes, big-endian.

use std::convert::TryFrom;

/// The four numbers that each message begins with.
const HEAD: usize = 16;

/// Why a call is refused. The discriminant is the number that the library answers.
#[derive(Clone, Copy, Debug, PartialEq, Eq)]
pub enum Refusal {
    CutShort = 1,
    TooLong,
    WrongCode,
    AboveLargest,
    Failed,
    NoRoom,
    TotalDiffers,
    PastTotal,
    PastBuffer,
    NoData,
}

fn head_of(message: &[u8]) -> Option<[u32; 4]> {
    let head = message.get(..HEAD)?;
    let mut numbers = [0; 4];
    for (number, bytes) in numbers.iter_mut().zip(head.chunks_exact(4)) {
        *number = u32::from_be_bytes(<[u8; 4]>::try_from(bytes).expect("four bytes"));
    }
    Some(numbers)
}

fn put_head(buffer: &mut [u8], numbers: [u32; 4]) {
    for (bytes, number) in buffer.chunks_exact_mut(4).zip(numbers) {
        bytes.copy_from_slice(&number.to_be_bytes());
    }
}

/// The four numbers of a request.
#[derive(Clone, Copy, Debug, PartialEq, Eq)]
pub struct Request {
    pub code: u32,
    pub flags: u32,
    pub kind: u32,
    pub offset: u32,
}

impl Request {
    /// Reads a request with the wanted code.
    pub fn read(message: &[u8], wanted: u32) -> Result<Request, Refusal> {
        let [code, flags, kind, offset] = head_of(message).ok_or(Refusal::CutShort)?;
        if message.len() > HEAD {
            return Err(Refusal::TooLong);
        }
        if code != wanted {
            return Err(Refusal::WrongCode);
        }
        Ok(Request {
            code,
            flags,
            kind,
            offset,
        })
    }

    /// Returns the length of the message.
    pub fn write(self, buffer: &mut [u8]) -> Result<usize, Refusal> {
        let buffer = buffer.get_mut(..HEAD).ok_or(Refusal::NoRoom)?;
        put_head(buffer, [self.code, self.flags, self.kind, self.offset]);
        Ok(HEAD)
    }
}

/// An accepted response. Its data is a part of the message.
#[derive(Clone, Copy, Debug, PartialEq, Eq)]
pub struct Piece<'a> {
    pub flags: u32,
    pub total: u32,
    pub data: &'a [u8],
}

impl<'a> Piece<'a> {
    /// Reads a response with at most `largest` bytes of data.
    pub fn read(message: &'a [u8], largest: u32) -> Result<Piece<'a>, Refusal> {
        let [result, flags, total, length] = head_of(message).ok_or(Refusal::CutShort)?;
        let data = &message[HEAD..];
        if data.len() < length as usize {
            return Err(Refusal::CutShort);
        }
        if data.len() > length as usize {
            return Err(Refusal::TooLong);
        }
        if length > largest {
            return Err(Refusal::AboveLargest);
        }
        if result != 0 {
            return Err(Refusal::Failed);
        }
        Ok(Piece { flags, total, data })
    }
}

/// Writes a response with this data; `numbers` are tpm_result, state_flags and totlength. Returns the length of the message.
pub fn write_response(
    buffer: &mut [u8],
    largest: u32,
    [result, flags, total]: [u32; 3],
    data: &[u8],
) -> Result<usize, Refusal> {
    let length = u32::try_from(data.len()).ok().filter(|&n| n <= largest);
    let length = length.ok_or(Refusal::AboveLargest)?;
    let end = HEAD + data.len();
    let buffer = buffer.get_mut(..end).ok_or(Refusal::NoRoom)?;
    let (head, rest) = buffer.split_at_mut(HEAD);
    put_head(head, [result, flags, total, length]);
    rest.copy_from_slice(data);
    Ok(end)
}

/// Joins the pieces of one blob.
#[derive(Clone, Copy, Debug, Default, PartialEq, Eq)]
pub struct Collector {
    /// totlength of the first accepted response.
    pub total: Option<u32>,
    pub held: u32,
}

impl Collector {
    /// Whether a response was accepted and totlength bytes are held.
    pub fn is_complete(self) -> bool {
        self.total == Some(self.held)
    }

    /// Appends the data of a response to the bytes held.
    pub fn collect(
        &mut self,
        message: &[u8],
        largest: u32,
        buffer: &mut [u8],
    ) -> Result<(), Refusal> {
        let piece = Piece::read(message, largest)?;
        if self.total.map_or(false, |first| first != piece.total) {
            return Err(Refusal::TotalDiffers);
        }
        let held = self.held as usize;
        let end = held + piece.data.len();
        if end > piece.total as usize {
            return Err(Refusal::PastTotal);
        }
        let room = buffer.get_mut(..end).ok_or(Refusal::PastBuffer)?;
        if piece.data.is_empty() && self.held < piece.total {
            return Err(Refusal::NoData);
        }
        room[held..].copy_from_slice(piece.data);
        self.total = Some(piece.total);
        self.held = end as u32;
        Ok(())
    }
}
