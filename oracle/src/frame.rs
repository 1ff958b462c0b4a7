//! Counter frames, as document 01 sets them out, with the blade's width at the end of an opening (document 02, change request 4), and the desk's frame that
//! tidies (change request 5): a line read into a request, a request and an answer written as a line.

use crate::core::entities::parttype::PartType;
use crate::core::insertion::insertion_blueprint::InsertionShape;
use crate::core::orientation::Orientation;
use crate::core::rotation::Rotation;

/// The answer to every malformed line.
pub const MALFORMED: &str = "ff0ef3";

/// The greatest side of a sheet or a part.
pub const GREATEST_SIDE: u32 = 67_108_863;

/// The widest blade of a saw.
pub const WIDEST_BLADE: u8 = 100;

const LONGEST_LINE: usize = 64;

#[derive(Clone, Copy, Debug, PartialEq, Eq)]
pub struct Mark {
    pub layout: u16,
    pub place: u8,
    pub serial: u32,
}

impl Mark {
    pub fn write(&self, bytes: &mut Vec<u8>) {
        bytes.extend(self.layout.to_be_bytes());
        bytes.push(self.place);
        bytes.extend(self.serial.to_be_bytes());
    }
}

/// A part as a frame carries it; its sides may lie outside the domain.
#[derive(Clone, Copy, Debug, PartialEq, Eq)]
pub struct Part {
    pub number: u16,
    pub width: u32,
    pub height: u32,
    pub turn: u8,
}

impl Part {
    pub fn in_domain(&self) -> bool {
        [self.width, self.height].iter().all(|side| (1..=GREATEST_SIDE).contains(side))
    }

    /// The same part as the Rust has it.
    pub fn parttype(&self) -> PartType {
        PartType::new(self.number.into(), self.width.into(), self.height.into(), fixed_rotation(self.turn))
    }
}

/// The rotation that a turn leaves as the only one; 0 allows both.
pub fn fixed_rotation(turn: u8) -> Option<Rotation> {
    match turn {
        0 => None,
        1 => Some(Rotation::Default),
        2 => Some(Rotation::Rotated),
        _ => panic!("turn {turn} is not listed"),
    }
}

/// What a free piece offers a part: rotation 0 or 1 and shape 1..4, as document 01 numbers them.
#[derive(Clone, Copy, Debug, PartialEq, Eq)]
pub struct Offer {
    pub rotation: u8,
    pub shape: u8,
}

impl Offer {
    pub fn of(rotation: Rotation, shape: InsertionShape) -> Self {
        let rotation = match rotation {
            Rotation::Default => 0,
            Rotation::Rotated => 1,
        };
        let shape = match shape {
            InsertionShape::AlongCurrentCut => 1,
            InsertionShape::AcrossCurrentCut => 2,
            InsertionShape::AlongThenAcross => 3,
            InsertionShape::AcrossThenAlong => 4,
        };
        Offer { rotation, shape }
    }
}

pub fn cut_number(cut: Orientation) -> u8 {
    match cut {
        Orientation::Horizontal => 0,
        Orientation::Vertical => 1,
    }
}

/// What a sheet is opened with; its numbers may lie outside the domain.
#[derive(Clone, Copy, Debug, PartialEq, Eq)]
pub struct Opening {
    pub layout: u16,
    pub width: u32,
    pub height: u32,
    pub cut: Orientation,
    pub stages: u8,
    pub blade: u8,
}

impl Opening {
    pub fn in_domain(&self) -> bool {
        let sides = [self.width, self.height].iter().all(|side| (1..=GREATEST_SIDE).contains(side));
        sides && (1..=254).contains(&self.stages) && self.blade <= WIDEST_BLADE
    }

    fn write(&self, bytes: &mut Vec<u8>) {
        bytes.extend(self.layout.to_be_bytes());
        bytes.extend(self.width.to_be_bytes());
        bytes.extend(self.height.to_be_bytes());
        bytes.extend([cut_number(self.cut), self.stages, self.blade]);
    }
}

#[derive(Clone, Copy, Debug, PartialEq, Eq)]
pub enum Request {
    Open(Opening),
    Offers { mark: Mark, part: Part },
    Insert { mark: Mark, part: Part, offer: Offer },
    Remove { mark: Mark },
    Keep,
    Restore,
    Report,
    Tidy,
}

/// The op that tidies, at the desk and for `inspect`; at the counter it is malformed. The counter's ops are 1 to 7.
const TIDY: u8 = 0x1b;

impl Request {
    pub fn op(&self) -> u8 {
        match self {
            Request::Open(_) => 1,
            Request::Offers { .. } => 2,
            Request::Insert { .. } => 3,
            Request::Remove { .. } => 4,
            Request::Keep => 5,
            Request::Restore => 6,
            Request::Report => 7,
            Request::Tidy => TIDY,
        }
    }

    /// The part that an offers or insert frame carries.
    pub fn part(&self) -> Option<&Part> {
        match self {
            Request::Offers { part, .. } | Request::Insert { part, .. } => Some(part),
            _ => None,
        }
    }

    /// Reads a line without its newline; none if it is malformed.
    pub fn read(line: &[u8]) -> Option<Self> {
        if line.len() > LONGEST_LINE {
            return None;
        }
        let bytes = bytes_of(line)?;
        if bytes.iter().fold(0, |sum: u8, byte| sum.wrapping_add(*byte)) != 0 {
            return None;
        }
        let (_check, frame) = bytes.split_last()?;
        let mut fields = Fields(frame);
        let request = match fields.u8()? {
            1 => Request::Open(fields.opening()?),
            2 => Request::Offers { mark: fields.mark()?, part: fields.part()? },
            3 => Request::Insert { mark: fields.mark()?, part: fields.part()?, offer: fields.offer()? },
            4 => Request::Remove { mark: fields.mark()? },
            5 => Request::Keep,
            6 => Request::Restore,
            7 => Request::Report,
            TIDY => Request::Tidy,
            _ => return None,
        };
        fields.0.is_empty().then_some(request)
    }

    /// The bytes of the frame before its check.
    pub fn bytes(&self) -> Vec<u8> {
        let mut bytes = vec![self.op()];
        match self {
            Request::Open(opening) => opening.write(&mut bytes),
            Request::Offers { mark, part } => {
                mark.write(&mut bytes);
                write_part(part, &mut bytes);
            }
            Request::Insert { mark, part, offer } => {
                mark.write(&mut bytes);
                write_part(part, &mut bytes);
                bytes.extend([offer.rotation, offer.shape]);
            }
            Request::Remove { mark } => mark.write(&mut bytes),
            Request::Keep | Request::Restore | Request::Report | Request::Tidy => {}
        }
        bytes
    }
}

fn write_part(part: &Part, bytes: &mut Vec<u8>) {
    bytes.extend(part.number.to_be_bytes());
    bytes.extend(part.width.to_be_bytes());
    bytes.extend(part.height.to_be_bytes());
    bytes.push(part.turn);
}

/// The rest of a frame, read field by field, highest byte first.
struct Fields<'a>(&'a [u8]);

impl Fields<'_> {
    fn take<const N: usize>(&mut self) -> Option<[u8; N]> {
        let field = self.0.get(..N)?.try_into().ok()?;
        self.0 = &self.0[N..];
        Some(field)
    }

    fn u8(&mut self) -> Option<u8> {
        self.take().map(u8::from_be_bytes)
    }

    fn u16(&mut self) -> Option<u16> {
        self.take().map(u16::from_be_bytes)
    }

    fn u32(&mut self) -> Option<u32> {
        self.take().map(u32::from_be_bytes)
    }

    fn cut(&mut self) -> Option<Orientation> {
        match self.u8()? {
            0 => Some(Orientation::Horizontal),
            1 => Some(Orientation::Vertical),
            _ => None,
        }
    }

    fn opening(&mut self) -> Option<Opening> {
        let (layout, width, height) = (self.u16()?, self.u32()?, self.u32()?);
        Some(Opening { layout, width, height, cut: self.cut()?, stages: self.u8()?, blade: self.u8()? })
    }

    fn mark(&mut self) -> Option<Mark> {
        Some(Mark { layout: self.u16()?, place: self.u8()?, serial: self.u32()? })
    }

    fn part(&mut self) -> Option<Part> {
        let (number, width, height, turn) = (self.u16()?, self.u32()?, self.u32()?, self.u8()?);
        (turn <= 2).then_some(Part { number, width, height, turn })
    }

    fn offer(&mut self) -> Option<Offer> {
        let (rotation, shape) = (self.u8()?, self.u8()?);
        (rotation <= 1 && (1..=4).contains(&shape)).then_some(Offer { rotation, shape })
    }
}

/// The bytes that a line of lower-case hexadecimal stands for; none if it is anything else.
fn bytes_of(line: &[u8]) -> Option<Vec<u8>> {
    let digits = line.iter().map(|&digit| match digit {
        b'0'..=b'9' => Some(digit - b'0'),
        b'a'..=b'f' => Some(digit - b'a' + 10),
        _ => None,
    });
    let digits = digits.collect::<Option<Vec<u8>>>()?;
    let pairs = digits.chunks_exact(2);
    pairs.remainder().is_empty().then(|| pairs.map(|pair| pair[0] << 4 | pair[1]).collect())
}

pub fn hexadecimal(bytes: &[u8]) -> String {
    let digit = |number: u8| char::from(b"0123456789abcdef"[usize::from(number)]);
    bytes.iter().flat_map(|byte| [digit(byte >> 4), digit(byte & 15)]).collect()
}

/// The line for these bytes, with the check that makes them add to 0.
pub fn line(mut bytes: Vec<u8>) -> String {
    let sum = bytes.iter().fold(0, |sum: u8, byte| sum.wrapping_add(*byte));
    bytes.push(sum.wrapping_neg());
    hexadecimal(&bytes)
}

/// The line that answers `op`: what it gives on success, or the number of its refusal.
pub fn answer(op: u8, outcome: &Result<Vec<u8>, u8>) -> String {
    match outcome {
        Ok(given) => line([&[op, 0], given.as_slice()].concat()),
        Err(refusal) => line(vec![op, *refusal]),
    }
}
