//! The numbers that a refused call answers.

use std::fmt;

/// Why a call was refused. Where several apply, the one with the lowest number is given; but of a load [`Refusal::FileLength`] alone where
/// the file has no head, and [`Refusal::SideFull`] only where nothing else applies.
///
/// A later library may know more of them, so a `match` has an arm for others.
///
/// ```
/// use flow::Refusal;
///
/// assert_eq!(Refusal::try_from(6), Ok(Refusal::Held));
/// assert_eq!(u32::from(Refusal::Held), 6);
/// assert!(Refusal::try_from(0).is_err() && Refusal::try_from(100).is_err());
/// assert_eq!(Refusal::Held.to_string(), "refusal 6: the key to add is held");
/// ```
#[derive(Clone, Copy, Debug, PartialEq, Eq, PartialOrd, Ord, Hash)]
#[non_exhaustive]
pub enum Refusal {
    /// 1: a setting is out of range.
    Setting,
    /// 2: an area that the call is lent is not of its length.
    AreaLength,
    /// 3: a key is not of the width, or a buffer for a packet's key not of 13 bytes, or of 37 for an IPv6 packet; or the keys of a burst have not
    /// the width for each answer.
    KeyLength,
    /// 4: the ledger's count is above the capacity, its keys do not rise, or a byte after its last record is not zero.
    DamagedLedger,
    /// 5: a clipped count is above the top count, a mark is above the room and not 255, or the side count is above the side places.
    DamagedLookup,
    /// 6: the key to add is held.
    Held,
    /// 7: the key to change or to remove is not held.
    NotHeld,
    /// 8: as many flows as the capacity allows are held.
    Full,
    /// 9: more flows would belong to the side than there are side places.
    SideFull,
    /// 10: the packet has under 20 bytes, is not of version 4, or has a header length under 20 or beyond the packet.
    PacketHeader,
    /// 11: a packet of protocol 6 or 17 whose fragment offset is zero, or an IPv6 packet of next header 6 or 17, has under 4 bytes after its
    /// header.
    PacketPorts,
    /// 12: the file is cut or overlong, its first count is not 6 or 7, or is 7 with width 13, or the target of a save is not of the file's
    /// length.
    FileLength,
    /// 13: the file's keys do not rise.
    FileOrder,
    /// 14: the program's input has an unknown letter, or ends within a call.
    Input,
    /// 15: the program's load has a zero s or a flow count outside 1 to 4,096, or its input is not of 32 bytes.
    BenchLoad,
    /// 16: the IPv6 packet has under 40 bytes or is not of version 6.
    Packet6Header,
    /// A number that this crate does not know: the library is of another version. It is never taken for success.
    Unknown(u32),
}

/// A number that is no refusal that this crate knows.
#[derive(Clone, Copy, Debug, PartialEq, Eq)]
pub struct NoRefusal(pub u32);

impl Refusal {
    /// Every refusal that is known, in the order of the numbers.
    pub const ALL: [Refusal; 16] = [
        Refusal::Setting,
        Refusal::AreaLength,
        Refusal::KeyLength,
        Refusal::DamagedLedger,
        Refusal::DamagedLookup,
        Refusal::Held,
        Refusal::NotHeld,
        Refusal::Full,
        Refusal::SideFull,
        Refusal::PacketHeader,
        Refusal::PacketPorts,
        Refusal::FileLength,
        Refusal::FileOrder,
        Refusal::Input,
        Refusal::BenchLoad,
        Refusal::Packet6Header,
    ];

    /// Its number: of those that are known 1 to 16, of which 14 and 15 are the programs' alone.
    pub fn number(self) -> u32 {
        match self {
            Refusal::Setting => 1,
            Refusal::AreaLength => 2,
            Refusal::KeyLength => 3,
            Refusal::DamagedLedger => 4,
            Refusal::DamagedLookup => 5,
            Refusal::Held => 6,
            Refusal::NotHeld => 7,
            Refusal::Full => 8,
            Refusal::SideFull => 9,
            Refusal::PacketHeader => 10,
            Refusal::PacketPorts => 11,
            Refusal::FileLength => 12,
            Refusal::FileOrder => 13,
            Refusal::Input => 14,
            Refusal::BenchLoad => 15,
            Refusal::Packet6Header => 16,
            Refusal::Unknown(number) => number,
        }
    }

    /// The refusal of a number, if it is a known one.
    pub fn from_number(number: u32) -> Option<Refusal> {
        Refusal::ALL.into_iter().find(|r| r.number() == number)
    }

    // What a door answers beside 0: a refusal, known or not.
    pub(crate) fn of_answer(number: u32) -> Refusal {
        Refusal::from_number(number).unwrap_or(Refusal::Unknown(number))
    }

    /// What the refusal means, in one line.
    pub fn meaning(self) -> &'static str {
        match self {
            Refusal::Setting => "a setting is out of range",
            Refusal::AreaLength => "a lent area is not of its length",
            Refusal::KeyLength => {
                "a key or the buffer for one is not of the width, or a burst has not that for each answer"
            }
            Refusal::DamagedLedger => "the ledger's count, key order or unused bytes are wrong",
            Refusal::DamagedLookup => "a clipped count, a mark or the side count is too high",
            Refusal::Held => "the key to add is held",
            Refusal::NotHeld => "the key to change or to remove is not held",
            Refusal::Full => "as many flows as the capacity allows are held",
            Refusal::SideFull => "more flows would belong to the side than it has places",
            Refusal::PacketHeader => {
                "the packet's header is too short, too long or not of version 4"
            }
            Refusal::PacketPorts => "the packet ends before its ports",
            Refusal::FileLength => {
                "the file is cut or overlong, begins wrongly, or its target has the wrong length"
            }
            Refusal::FileOrder => "the file's keys do not rise",
            Refusal::Input => "the program's input has an unknown letter or ends within a call",
            Refusal::BenchLoad => {
                "the program's load has a zero s, a flow count outside 1 to 4,096, or not 32 bytes"
            }
            Refusal::Packet6Header => "the IPv6 packet's header is too short or not of version 6",
            Refusal::Unknown(_) => "a number that this crate does not know",
        }
    }
}

impl fmt::Display for Refusal {
    fn fmt(&self, f: &mut fmt::Formatter<'_>) -> fmt::Result {
        write!(f, "refusal {}: {}", self.number(), self.meaning())
    }
}

impl std::error::Error for Refusal {}

impl From<Refusal> for u32 {
    fn from(refusal: Refusal) -> u32 {
        refusal.number()
    }
}

impl TryFrom<u32> for Refusal {
    type Error = NoRefusal;

    fn try_from(number: u32) -> Result<Refusal, NoRefusal> {
        Refusal::from_number(number).ok_or(NoRefusal(number))
    }
}

impl fmt::Display for NoRefusal {
    fn fmt(&self, f: &mut fmt::Formatter<'_>) -> fmt::Result {
        write!(f, "{} is the number of no refusal", self.0)
    }
}

impl std::error::Error for NoRefusal {}
