//! stop PORT CLASS METHOD INDEX: a debugger at a port of 127.0.0.1 that stops all threads at a place, and prints the frames of the one that got there.
use milunovesk::{Debugger, Heard};
use std::error::Error;
use std::io::{Read, Write};
use std::net::TcpStream;

struct Session(Debugger, TcpStream);

impl Session {
    /// The next message, with the data of its last item.
    fn hear(&mut self) -> Result<(Heard, Vec<u8>), Box<dyn Error>> {
        let mut bytes = [0; 4096];
        loop {
            let count = self.0.take(&mut bytes);
            self.1.write_all(&bytes[..count])?;
            match self.0.turn()? {
                Heard::Nothing => {}
                Heard::Sizes(items) if items > 0 => {
                    return Ok((
                        Heard::Sizes(items),
                        self.0.data(items - 1)?.unwrap_or_default(),
                    ))
                }
                heard => return Ok((heard, self.0.data(0)?.unwrap_or_default())),
            }
            let count = self.1.read(&mut bytes)?;
            if count == 0 || self.0.feed(&bytes[..count]) < count {
                return Err("the connection is lost".into());
            }
        }
    }

    /// The answer to a command.
    fn ask(&mut self, set: u8, number: u8, data: &[u8]) -> Result<Vec<u8>, Box<dyn Error>> {
        let asked = self.0.ask(set, number, data)?;
        loop {
            match self.hear()? {
                (
                    Heard::Answered {
                        ticket,
                        error: None,
                    },
                    data,
                ) if ticket == asked => return Ok(data),
                (Heard::Answered { ticket, error }, _) if ticket == asked => {
                    return Err(format!("error {error:?}").into())
                }
                _ => {}
            }
        }
    }
}

fn number(bytes: &[u8]) -> u64 {
    bytes
        .iter()
        .fold(0, |number, byte| number << 8 | u64::from(*byte))
}

fn main() -> Result<(), Box<dyn Error>> {
    let words = std::env::args()
        .skip(1)
        .map(|word| word.parse())
        .collect::<Result<Vec<u64>, _>>()?;
    let mut session = Session(
        Debugger::new(1)?,
        TcpStream::connect(("127.0.0.1", words[0] as u16))?,
    );
    session.0.attach();
    while session.0.widths().is_none() {
        session.hear()?;
    }
    let mut breakpoint = vec![2, 2, 0, 0, 0, 1, 7, 1]; // one that suspends all threads, at a location
    breakpoint.extend(words[1..4].iter().flat_map(|id| id.to_be_bytes()));
    session.ask(15, 1, &breakpoint)?; // EventRequest.Set
    session.ask(1, 9, &[])?; // VirtualMachine.Resume
    let event = loop {
        match session.hear()? {
            (Heard::Seen, event) if event[5] == 2 => break event,
            _ => {}
        }
    };
    let thread = number(&event[10..18]);
    println!("{:?}", session.0.thread(thread));
    let frames = session.ask(
        11,
        6,
        &[&event[10..18], &[0, 0, 0, 0, 255, 255, 255, 255]].concat(),
    )?; // ThreadReference.Frames
    for frame in frames[4..].chunks(33) {
        let [class, method, index] = [9, 17, 25].map(|at| number(&frame[at..at + 8]));
        println!(
            "frame {} at {}:#{class}:#{method}:{index}",
            number(&frame[..8]),
            frame[8]
        );
    }
    Ok(())
}
