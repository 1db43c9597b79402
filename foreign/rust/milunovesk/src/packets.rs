//! The packets in bytes, as they stand one behind the other behind the handshakes.
use milunovesk_sys as sys;

/// What a packet is.
#[derive(Clone, Copy, Debug, PartialEq, Eq)]
pub enum PacketKind {
    /// A command: its set and its number in it.
    Command { set: u8, number: u8 },
    /// A reply: its error code, 0 for none.
    Reply { error: u16 },
}

/// A packet, with its data where they lie.
#[derive(Clone, Copy, Debug, PartialEq, Eq)]
pub struct Packet<'a> {
    pub id: u32,
    pub kind: PacketKind,
    pub data: &'a [u8],
}

/// What is left behind packets.
#[derive(Clone, Copy, Debug, PartialEq, Eq)]
pub enum Rest {
    /// No bytes.
    Nothing,
    /// The beginning of a packet, which calls for more bytes.
    Beginning,
    /// The beginning of no packet: 1 a length below 11, 2 one above 65,536, 3 flags other than 00 and 80.
    Fault(u16),
}

/// How many places of packets a call tells.
const ROOM: usize = 64;

/// The packets in front of bytes. Behind the last one `used` says where what is left begins, and `rest` what it is.
pub struct Packets<'a> {
    bytes: &'a [u8],
    places: [usize; ROOM],
    found: sys::Found,
    /// Where the bytes begin from which the places that were told count.
    begin: usize,
    /// How many of the packets there were given.
    given: usize,
    used: usize,
}

/// The packets that stand one behind the other in front of the bytes, each exactly where one stands.
pub fn packets(bytes: &[u8]) -> Packets<'_> {
    let mut packets = Packets {
        bytes,
        places: [0; ROOM],
        found: sys::Found::default(),
        begin: 0,
        given: 0,
        used: 0,
    };
    packets.tell();
    packets
}

impl<'a> Packets<'a> {
    /// How many bytes the packets take that were given so far.
    pub fn used(&self) -> usize {
        self.used
    }

    /// What is left behind all packets; None before the last was given.
    pub fn rest(&self) -> Option<Rest> {
        match self.found.left {
            _ if self.given < self.found.count => None,
            0 => Some(Rest::Nothing),
            1 => Some(Rest::Beginning),
            3 => Some(Rest::Fault(self.found.fault)),
            _ => None,
        }
    }

    /// Has the places told of packets behind those that were given.
    fn tell(&mut self) {
        self.begin = self.used;
        self.given = 0;
        let behind = &self.bytes[self.used..];
        // SAFETY: both slices have their lengths, and what is written does not overlap.
        let answer = unsafe {
            sys::mv_next_packets(
                behind.as_ptr(),
                behind.len(),
                self.places.as_mut_ptr(),
                ROOM,
                &mut self.found,
            )
        };
        assert_eq!(answer, sys::DONE);
    }
}

impl<'a> Iterator for Packets<'a> {
    type Item = Packet<'a>;

    fn next(&mut self) -> Option<Packet<'a>> {
        if self.given == self.found.count {
            return None;
        }
        let (packet, length) = read(&self.bytes[self.begin + self.places[self.given]..]);
        self.given += 1;
        self.used += length;
        if self.given == self.found.count && self.found.left == 2 {
            self.tell();
        }
        Some(packet)
    }
}

/// The whole packet in front of these bytes, and how many of them it takes.
fn read(bytes: &[u8]) -> (Packet<'_>, usize) {
    let four =
        |at: usize| u32::from_be_bytes([bytes[at], bytes[at + 1], bytes[at + 2], bytes[at + 3]]);
    let length = four(0) as usize;
    let kind = match bytes[8] {
        0 => PacketKind::Command {
            set: bytes[9],
            number: bytes[10],
        },
        _ => PacketKind::Reply {
            error: u16::from_be_bytes([bytes[9], bytes[10]]),
        },
    };
    let id = four(4);
    let data = &bytes[11..length];
    (Packet { id, kind, data }, length)
}
