//! Frames: document 01, "Frames and the air", and refusals 6 to 11.

/// Number of bytes in a frame.
pub const FRAME_LENGTH: usize = 32;
/// Number of lanes; they are named 0 to 7.
pub const LANES: usize = 8;
/// The highest serial that a lane can reach.
pub const LAST_SERIAL: Serial = Serial(16);

/// Kind of a frame that carries an order.
pub const ORDER: u8 = 1;
/// Kind of a frame that carries only the newest entries.
pub const BEACON: u8 = 2;

/// Refusal 6: frame, or the buffer for one, not 32 bytes.
pub const NOT_32_BYTES: u8 = 6;
/// Refusal 7: kind neither 1 nor 2.
pub const BAD_KIND: u8 = 7;
/// Refusal 8: beacon with a nonzero byte in 2 to 7.
pub const BAD_BEACON: u8 = 8;
/// Refusal 9: order frame with lane over 7, serial 0 or over 16, or stamp 0.
pub const BAD_ORDER: u8 = 9;
/// Refusal 10: sender over 7.
pub const BAD_SENDER: u8 = 10;
/// Refusal 11: an entry with serial over 16, or stamp 0 and serial not 0.
pub const BAD_ENTRY: u8 = 11;

/// The entries follow the eight bytes from kind to word.
const ENTRIES_START: usize = 8;
/// An entry is one byte of serial and two bytes of stamp.
const ENTRY_LENGTH: usize = 3;

/// A reading of a source's logical clock; 0 means none.
#[derive(Clone, Copy, Debug, PartialEq, Eq, PartialOrd, Ord)]
pub struct Stamp(pub u16);

/// A count of one lane's own orders.
#[derive(Clone, Copy, Debug, PartialEq, Eq, PartialOrd, Ord)]
pub struct Serial(pub u8);

/// The newest serial and stamp known of one lane.
#[derive(Clone, Copy, Debug, PartialEq, Eq)]
pub struct Entry {
    pub serial: Serial,
    pub stamp: Stamp,
}

impl Entry {
    /// No entry for the lane: all three bytes are zero.
    pub const NONE: Entry = Entry {
        serial: Serial(0),
        stamp: Stamp(0),
    };

    /// Whether the entry says anything; serial 0 with a stamp does.
    pub(crate) fn is_some(self) -> bool {
        self.stamp != Stamp(0)
    }

    /// Serial 0 is a real serial, so it passes with any stamp.
    fn is_good(self) -> bool {
        self.serial <= LAST_SERIAL && (self.stamp != Stamp(0) || self.serial == Serial(0))
    }
}

/// The fields of a frame. Any values may stand here; `write` refuses bad ones.
#[derive(Clone, Copy, Debug, PartialEq, Eq)]
pub struct Frame {
    pub kind: u8,
    pub sender: u8,
    pub lane: u8,
    pub serial: Serial,
    pub stamp: Stamp,
    pub word: u16,
    /// One entry for each lane, in lane order.
    pub entries: [Entry; LANES],
}

impl Frame {
    /// The frame of a row of numbers: kind, sender, lane, serial, stamp, word, then
    /// serial and stamp of each lane. One over 255 in a field of one byte is 255.
    #[inline]
    pub fn from_fields(fields: &[u16; 6 + 2 * LANES]) -> Frame {
        let byte = |at: usize| fields[at].min(255) as u8;
        Frame {
            kind: byte(0),
            sender: byte(1),
            lane: byte(2),
            serial: Serial(byte(3)),
            stamp: Stamp(fields[4]),
            word: fields[5],
            entries: std::array::from_fn(|lane| Entry {
                serial: Serial(byte(6 + 2 * lane)),
                stamp: Stamp(fields[7 + 2 * lane]),
            }),
        }
    }

    /// Reads a frame, or gives the refusal number, 6 to 11.
    pub fn read(bytes: &[u8]) -> Result<Frame, u8> {
        let bytes: &[u8; FRAME_LENGTH] = bytes.try_into().map_err(|_| NOT_32_BYTES)?;
        let frame = Frame::decode(bytes);
        frame.judge()?;
        Ok(frame)
    }

    /// Writes the frame, or gives the refusal number and leaves the buffer as it was.
    pub fn write(&self, buffer: &mut [u8]) -> Result<(), u8> {
        let buffer: &mut [u8; FRAME_LENGTH] = buffer.try_into().map_err(|_| NOT_32_BYTES)?;
        self.judge()?;
        self.encode(buffer);
        Ok(())
    }

    /// Refusals 7 to 11, the lowest number first.
    fn judge(&self) -> Result<(), u8> {
        match self.kind {
            ORDER if !self.is_good_order() => return Err(BAD_ORDER),
            BEACON if !self.is_good_beacon() => return Err(BAD_BEACON),
            ORDER | BEACON => {}
            _ => return Err(BAD_KIND),
        }
        if !is_lane(self.sender) {
            return Err(BAD_SENDER);
        }
        if !self.entries.iter().all(|entry| entry.is_good()) {
            return Err(BAD_ENTRY);
        }
        Ok(())
    }

    /// What an order frame must satisfy; its word may be anything.
    fn is_good_order(&self) -> bool {
        is_lane(self.lane)
            && self.serial != Serial(0)
            && self.serial <= LAST_SERIAL
            && self.stamp != Stamp(0)
    }

    /// What a beacon must satisfy: bytes 2 to 7 hold these four fields.
    fn is_good_beacon(&self) -> bool {
        self.lane == 0 && self.serial == Serial(0) && self.stamp == Stamp(0) && self.word == 0
    }

    /// Takes the fields from their places, whatever their values.
    fn decode(bytes: &[u8; FRAME_LENGTH]) -> Frame {
        let pair = |at: usize| u16::from_be_bytes([bytes[at], bytes[at + 1]]);
        let entry = |lane: usize| {
            let at = ENTRIES_START + ENTRY_LENGTH * lane;
            Entry {
                serial: Serial(bytes[at]),
                stamp: Stamp(pair(at + 1)),
            }
        };
        Frame {
            kind: bytes[0],
            sender: bytes[1],
            lane: bytes[2],
            serial: Serial(bytes[3]),
            stamp: Stamp(pair(4)),
            word: pair(6),
            entries: std::array::from_fn(entry),
        }
    }

    /// Puts the fields into their places, whatever their values.
    pub(crate) fn encode(&self, buffer: &mut [u8; FRAME_LENGTH]) {
        buffer[0] = self.kind;
        buffer[1] = self.sender;
        buffer[2] = self.lane;
        buffer[3] = self.serial.0;
        buffer[4..6].copy_from_slice(&self.stamp.0.to_be_bytes());
        buffer[6..8].copy_from_slice(&self.word.to_be_bytes());
        let places = buffer[ENTRIES_START..].chunks_exact_mut(ENTRY_LENGTH);
        for (place, entry) in places.zip(&self.entries) {
            place[0] = entry.serial.0;
            place[1..].copy_from_slice(&entry.stamp.0.to_be_bytes());
        }
    }
}

/// What the radio firmware gets for received bytes: 0, or the refusal number.
pub fn check(bytes: &[u8]) -> u8 {
    match Frame::read(bytes) {
        Ok(_) => 0,
        Err(number) => number,
    }
}

/// Lanes are 0 to 7.
fn is_lane(number: u8) -> bool {
    usize::from(number) < LANES
}
