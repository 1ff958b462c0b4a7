//! The desk's answers, read (docs/FRAMES.md, docs/DESK.md).

use crate::{Booking, Figures, ListedCut, Mark, Node, Offer, Reason, Reasons, Refusal, Removal, Report};

/// What the desk answers where it carries a request out: for each [`Request`](crate::Request) the variant with the same op.
#[derive(Clone, Debug, PartialEq)]
#[non_exhaustive]
pub enum Answer {
    /// 01: a sheet was opened; its one free piece.
    Opened(Mark),
    /// 02: the offers, none to four.
    Offers(Vec<Offer>),
    /// 03: the part was booked.
    Booked(Booking),
    /// 04: the piece was taken out.
    Removed(Removal),
    /// 05: the sheet was kept.
    Kept,
    /// 06: the sheet was put back.
    Restored,
    /// 07: the counter's report.
    Report(Report),
    /// 11: why not, in each rotation.
    Reasons(Reasons),
    /// 12: the first free piece that has an offer; none has, where there is none.
    Light(Option<Mark>),
    /// 13: a free piece of the free list.
    FreePiece(Mark),
    /// 14: a part or a structure of the removable list.
    RemovablePiece(Mark),
    /// 15: the numbers of the parts held, by place.
    PartNumbers(Vec<u16>),
    /// 16: the figures.
    Figures(Figures),
    /// 17: the tree, each node before its children.
    Snapshot(Vec<Node>),
    /// 18: the saw cuts, in the order in which they are made.
    Cuts(Vec<ListedCut>),
    /// 19: the area that the blade has eaten.
    EatenArea(u64),
    /// 1a: what the blade eats with each of the saw cuts, in their order.
    CutAmounts(Vec<u8>),
    /// 1b: the sheet is tidy; how many structures were taken out.
    Tidied(u16),
}

impl Answer {
    /// Reads a line that the desk or the counter has answered, without its newline. Any bytes may be handed in.
    ///
    /// ```
    /// use nickelgrove_kiosk::{Answer, Mark, Refusal};
    ///
    /// assert_eq!(Answer::read("010000010100000002fb"), Ok(Answer::Opened(Mark::from_numbers(1, 1, 2))));
    /// assert_eq!(Answer::read("0305f8"), Err(Refusal::Gone));
    /// assert_eq!(Answer::read("ff0ef3"), Err(Refusal::NotUnderstood));
    /// assert_eq!(Answer::read("no answer"), Err(Refusal::Unreadable));
    /// ```
    ///
    /// # Errors
    /// The refusal that the line says, or [`Refusal::Unreadable`] where it is no answer.
    pub fn read(line: impl AsRef<[u8]>) -> Result<Self, Refusal> {
        let bytes = bytes_of(line.as_ref()).ok_or(Refusal::Unreadable)?;
        read(&bytes).ok_or(Refusal::Unreadable)?
    }
}

/// The bytes that a line stands for: two characters each, digits and lower-case letters.
fn bytes_of(line: &[u8]) -> Option<Vec<u8>> {
    let digit = |character: u8| match character {
        b'0'..=b'9' => Some(character - b'0'),
        b'a'..=b'f' => Some(character - b'a' + 10),
        _ => None,
    };
    let byte = |pair: &[u8]| match *pair {
        [high, low] => Some(16 * digit(high)? + digit(low)?),
        _ => None,
    };
    line.chunks(2).map(byte).collect()
}

/// An answer or a refusal. None where the bytes are neither.
fn read(bytes: &[u8]) -> Option<Result<Answer, Refusal>> {
    if bytes.iter().fold(0, |sum: u8, byte| sum.wrapping_add(*byte)) != 0 {
        return None;
    }
    match *bytes {
        [0xff, 14, _] => Some(Err(Refusal::NotUnderstood)),
        // a malformed line alone is said 14 to, and 255 is said by nobody
        [0x01..=0x07 | 0x11..=0x1b, number @ 1..=13, _] => Refusal::from_number(number).map(Err),
        [op, 0, ref fields @ .., _] => {
            let mut fields = Fields(fields);
            let answer = fields.answer(op)?;
            // and no byte more
            fields.0.is_empty().then_some(Ok(answer))
        }
        _ => None,
    }
}

/// The fields of an answer that are still to be read. A field of several bytes has its highest byte first.
struct Fields<'a>(&'a [u8]);

impl Fields<'_> {
    fn answer(&mut self, op: u8) -> Option<Answer> {
        Some(match op {
            0x01 => Answer::Opened(self.mark()?),
            0x02 => {
                let count = self.u8()?;
                Answer::Offers(self.several(count.into(), |fields| Offer::read(fields.u8()?, fields.u8()?))?)
            }
            0x03 => {
                let (first, part, count) = (self.mark()?, self.mark()?, self.u8()?);
                Answer::Booked(Booking { first, part, free: self.several(count.into(), Self::mark)? })
            }
            0x04 => {
                let (free, count) = (self.mark()?, self.u8()?);
                Answer::Removed(Removal { free, parts: self.several(count.into(), Self::u16)? })
            }
            0x05 => Answer::Kept,
            0x06 => Answer::Restored,
            0x07 => Answer::Report(Report { used_area: self.u64()?, nodes: self.u8()?.into(), sheet_usage: self.f64()? }),
            0x11 => Answer::Reasons(Reasons { default: Reason::read(self.u8()?)?, rotated: Reason::read(self.u8()?)? }),
            0x12 => match (self.u8()?, self.take()?) {
                (0, [0, 0, 0, 0, 0, 0, 0]) => Answer::Light(None),
                (1, mark) => Answer::Light(Some(Mark::read(mark))),
                _ => return None,
            },
            0x13 => Answer::FreePiece(self.mark()?),
            0x14 => Answer::RemovablePiece(self.mark()?),
            0x15 => {
                let count = self.u16()?;
                Answer::PartNumbers(self.several(count.into(), Self::u16)?)
            }
            0x16 => Answer::Figures(Figures {
                used_area: self.u64()?,
                free_area: self.u64()?,
                nodes: self.u16()?,
                is_empty: self.bool()?,
                sheet_usage: self.f64()?,
                tree_usage: self.f64()?,
            }),
            0x17 => {
                let count = self.u16()?;
                Answer::Snapshot(Node::read_all(self.rest(count, crate::nodes::BYTES)?)?)
            }
            0x18 => {
                let count = self.u16()?;
                Answer::Cuts(ListedCut::read_all(self.rest(count, crate::cuts::BYTES)?)?)
            }
            0x19 => Answer::EatenArea(self.u64()?),
            0x1a => {
                let count = self.u16()?;
                Answer::CutAmounts(self.rest(count, 1)?.to_vec())
            }
            0x1b => Answer::Tidied(self.u16()?),
            _ => return None,
        })
    }

    /// The next bytes, as many as are wanted.
    fn take<const COUNT: usize>(&mut self) -> Option<[u8; COUNT]> {
        let bytes = self.0.get(..COUNT)?.try_into().ok()?;
        self.0 = &self.0[COUNT..];
        Some(bytes)
    }

    /// All the bytes that are left: so many items of so many bytes.
    fn rest(&mut self, count: u16, bytes: usize) -> Option<&[u8]> {
        let rest = std::mem::take(&mut self.0);
        (rest.len() == usize::from(count) * bytes).then_some(rest)
    }

    /// So many items, each read so.
    fn several<T>(&mut self, count: usize, read: impl Fn(&mut Self) -> Option<T>) -> Option<Vec<T>> {
        (0..count).map(|_| read(self)).collect()
    }

    fn u8(&mut self) -> Option<u8> {
        self.take().map(u8::from_be_bytes)
    }

    fn u16(&mut self) -> Option<u16> {
        self.take().map(u16::from_be_bytes)
    }

    fn u64(&mut self) -> Option<u64> {
        self.take().map(u64::from_be_bytes)
    }

    /// By its bits.
    fn f64(&mut self) -> Option<f64> {
        self.u64().map(f64::from_bits)
    }

    fn bool(&mut self) -> Option<bool> {
        match self.u8()? {
            0 => Some(false),
            1 => Some(true),
            _ => None,
        }
    }

    fn mark(&mut self) -> Option<Mark> {
        self.take().map(Mark::read)
    }
}

#[cfg(test)]
mod tests;
