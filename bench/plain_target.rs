//! What a plain target does, to compare the speed with: it serves one debugger at a port of 127.0.0.1, for a machine of two threads that make
//! no step, and proves nothing. It knows the commands that suspend, resume, count and end, and answers NOT_IMPLEMENTED to all others.
//!
//!     plain_target PORT
use std::collections::HashMap;
use std::io::{self, BufReader, BufWriter, ErrorKind, Read, Write};
use std::net::{Ipv4Addr, TcpListener, TcpStream};

const HANDSHAKE: &[u8; 14] = b"JDWP-Handshake";
const HEADER: usize = 11;
const LONGEST: usize = 65_536;
const IS_REPLY: u8 = 0x80;

const INVALID_THREAD: u16 = 10;
const NOT_IMPLEMENTED: u16 = 99;
const ILLEGAL_ARGUMENT: u16 = 103;

struct Header {
    length: usize,
    id: u32,
    flags: u8,
    set: u8,
    command: u8,
}

impl Header {
    fn read(bytes: &[u8; HEADER]) -> io::Result<Header> {
        let header = Header {
            length: u32::from_be_bytes(bytes[0..4].try_into().unwrap()) as usize,
            id: u32::from_be_bytes(bytes[4..8].try_into().unwrap()),
            flags: bytes[8],
            set: bytes[9],
            command: bytes[10],
        };
        let is_packet =
            (HEADER..=LONGEST).contains(&header.length) && matches!(header.flags, 0 | IS_REPLY);
        if is_packet {
            Ok(header)
        } else {
            Err(ErrorKind::InvalidData.into())
        }
    }
}

/// What a command leads to.
enum Outcome {
    Answer(Vec<u8>),
    Count(u32),
    Error(u16),
    /// An answer without data; the session ends behind it.
    End,
}

struct Target {
    counts: HashMap<u64, u32>,
}

impl Target {
    fn thread(&mut self, data: &[u8], act: impl FnOnce(&mut u32) -> Outcome) -> Outcome {
        let Ok(id) = data.try_into() else {
            return Outcome::Error(ILLEGAL_ARGUMENT);
        };
        match self.counts.get_mut(&u64::from_be_bytes(id)) {
            Some(count) => act(count),
            None => Outcome::Error(INVALID_THREAD),
        }
    }

    fn handle(&mut self, set: u8, command: u8, data: &[u8]) -> Outcome {
        match (set, command) {
            (1, 6) | (1, 10) => return Outcome::End,
            (1, 7) => return Outcome::Answer([0, 0, 0, 8].repeat(5)),
            (1, 8) => self.counts.values_mut().for_each(|count| *count += 1),
            (1, 9) => self
                .counts
                .values_mut()
                .for_each(|count| *count = count.saturating_sub(1)),
            (11, 2) => {
                return self.thread(data, |count| {
                    *count += 1;
                    Outcome::Answer(Vec::new())
                })
            }
            (11, 3) => {
                return self.thread(data, |count| {
                    *count = count.saturating_sub(1);
                    Outcome::Answer(Vec::new())
                })
            }
            (11, 12) => return self.thread(data, |count| Outcome::Count(*count)),
            _ => return Outcome::Error(NOT_IMPLEMENTED),
        }
        Outcome::Answer(Vec::new())
    }
}

fn reply(out: &mut impl Write, id: u32, error: u16, data: &[u8]) -> io::Result<()> {
    out.write_all(&((HEADER + data.len()) as u32).to_be_bytes())?;
    out.write_all(&id.to_be_bytes())?;
    out.write_all(&[IS_REPLY])?;
    out.write_all(&error.to_be_bytes())?;
    out.write_all(data)
}

/// VM_START of a thread, with policy NONE.
fn start(out: &mut impl Write, thread: u64) -> io::Result<()> {
    out.write_all(&[
        0, 0, 0, 29, 0, 0, 0, 1, 0, 64, 100, 0, 0, 0, 0, 1, 90, 0, 0, 0, 0,
    ])?;
    out.write_all(&thread.to_be_bytes())
}

/// Fills these bytes; if they are not all there yet, what waits leaves first.
fn fill(
    from: &mut BufReader<TcpStream>,
    to: &mut BufWriter<TcpStream>,
    bytes: &mut [u8],
) -> io::Result<()> {
    if from.buffer().len() < bytes.len() {
        to.flush()?;
    }
    from.read_exact(bytes)
}

fn serve(stream: TcpStream) -> io::Result<()> {
    stream.set_nodelay(true)?;
    let (mut from, mut to) = (BufReader::new(stream.try_clone()?), BufWriter::new(stream));
    let mut target = Target {
        counts: HashMap::from([(1, 0), (2, 0)]),
    };
    let mut front = [0; HANDSHAKE.len()];
    fill(&mut from, &mut to, &mut front)?;
    if front != *HANDSHAKE {
        return Err(ErrorKind::InvalidData.into());
    }
    to.write_all(HANDSHAKE)?;
    start(&mut to, 1)?;
    let (mut header, mut data) = ([0; HEADER], Vec::new());
    loop {
        fill(&mut from, &mut to, &mut header)?;
        let packet = Header::read(&header)?;
        data.resize(packet.length - HEADER, 0);
        fill(&mut from, &mut to, &mut data)?;
        if packet.flags == IS_REPLY {
            continue;
        }
        match target.handle(packet.set, packet.command, &data) {
            Outcome::Answer(answer) => reply(&mut to, packet.id, 0, &answer)?,
            Outcome::Count(count) => reply(&mut to, packet.id, 0, &count.to_be_bytes())?,
            Outcome::Error(error) => reply(&mut to, packet.id, error, &[])?,
            Outcome::End => {
                reply(&mut to, packet.id, 0, &[])?;
                return to.flush();
            }
        }
    }
}

fn main() -> io::Result<()> {
    let port = std::env::args()
        .nth(1)
        .and_then(|word| word.parse::<u16>().ok())
        .ok_or(ErrorKind::InvalidInput)?;
    let (stream, _) = TcpListener::bind((Ipv4Addr::LOCALHOST, port))?.accept()?;
    serve(stream)
}
