//! Both ends of Java Debug Wire Protocol sessions, without IO: a [`Debugger`], a [`Target`] that runs a machine script, and captures.
//!
//! It stands on the proved static library. What the library's C header asks of its caller the types here keep: a handle is owned, neither copied
//! nor sent to another thread, slices have their lengths, and a call borrows its end alone.

mod debugger;
mod handle;
mod packets;
mod target;

pub use debugger::{Debugger, Heard, Request, Thread, Unanswered, Widths};
pub use packets::{packets, Packet, PacketKind, Packets, Rest};
pub use target::{Handled, Stepped, Target, Unmade};

use milunovesk_sys as sys;
use std::error::Error;
use std::fmt;

/// Why a call did not do what it says.
#[derive(Clone, Copy, Debug, PartialEq, Eq)]
pub enum Failure {
    /// An allocation was refused; nothing changed.
    NoMemory,
    /// A command was not asked, for the reason of this number, 31 to 36; nothing changed.
    Refused(u16),
    /// What came is refused, for the fault of this number: 1 to 4, or 42 to 45.
    Fault(u16),
}

impl fmt::Display for Failure {
    fn fmt(&self, f: &mut fmt::Formatter<'_>) -> fmt::Result {
        match self {
            Failure::NoMemory => f.write_str("no memory"),
            Failure::Refused(number) | Failure::Fault(number) => match fault_text(*number) {
                Some(text) => write!(f, "fault {number}: {text}"),
                None => write!(f, "fault {number}"),
            },
        }
    }
}

impl Error for Failure {}

/// The first fault of a capture, by its number and the line, from 1, in which its last byte stands.
#[derive(Clone, Copy, Debug, PartialEq, Eq)]
pub struct CaptureFault {
    pub number: u16,
    pub line: usize,
}

fn judged(out: &sys::Judged) -> Option<CaptureFault> {
    (!out.yes).then_some(CaptureFault {
        number: out.fault,
        line: out.line,
    })
}

/// Judges a capture: its first fault, None where it begins a session.
///
/// # Errors
/// `NoMemory` where an allocation was refused.
pub fn check(text: &str) -> Result<Option<CaptureFault>, Failure> {
    let mut out = sys::Judged::default();
    // SAFETY: the slice has its length, and `out` is a place of its own.
    let answer = unsafe { sys::mv_check(text.as_ptr(), text.len(), &mut out) };
    done(answer, 0)?;
    Ok(judged(&out))
}

/// A capture in words, a line a message, and its first fault.
///
/// # Errors
/// `NoMemory` where an allocation was refused.
pub fn show(text: &str) -> Result<(String, Option<CaptureFault>), Failure> {
    let mut out = sys::Judged::default();
    let lines = filled(0, |bytes, needed| {
        // SAFETY: both slices have their lengths, and the three places that are written do not overlap.
        unsafe {
            sys::mv_show(
                text.as_ptr(),
                text.len(),
                bytes.as_mut_ptr(),
                bytes.len(),
                needed,
                &mut out,
            )
        }
    });
    let lines = lines.map_err(|answer| failure(answer, 0))?;
    Ok((String::from_utf8_lossy(&lines).into_owned(), judged(&out)))
}

/// The name of a command, as `show` has it: `VirtualMachine.Suspend`. None where there is no such command.
pub fn command_name(set: u8, number: u8) -> Option<String> {
    // SAFETY: the slice has its length, and `needed` is a place of its own.
    text(|out, needed| unsafe {
        sys::mv_command_name(set, number, out.as_mut_ptr(), out.len(), needed)
    })
}

/// The name of an error code: `INVALID_THREAD`. None where the specification has no such code.
pub fn error_name(error: u16) -> Option<String> {
    // SAFETY: the slice has its length, and `needed` is a place of its own.
    text(|out, needed| unsafe { sys::mv_error_name(error, out.as_mut_ptr(), out.len(), needed) })
}

/// What the fault of this number is, in words. None where there is no such fault.
pub fn fault_text(number: u16) -> Option<String> {
    // SAFETY: the slice has its length, and `needed` is a place of its own.
    text(|out, needed| unsafe { sys::mv_fault_text(number, out.as_mut_ptr(), out.len(), needed) })
}

/// A name or a text; None where there is none, the one other answer.
fn text(call: impl FnMut(&mut [u8], &mut usize) -> u32) -> Option<String> {
    let bytes = filled(128, call).ok()?;
    Some(String::from_utf8_lossy(&bytes).into_owned())
}

/// What a call writes into a buffer, which grows until it has room. The answer, where it is not that it was done.
fn filled(room: usize, mut call: impl FnMut(&mut [u8], &mut usize) -> u32) -> Result<Vec<u8>, u32> {
    let mut bytes = vec![0; room];
    loop {
        let mut needed = 0;
        match call(&mut bytes, &mut needed) {
            sys::DONE => {
                bytes.truncate(needed);
                return Ok(bytes);
            }
            sys::SHORT_BUFFER => bytes.resize(needed, 0),
            answer => return Err(answer),
        }
    }
}

fn done(answer: u32, number: u16) -> Result<(), Failure> {
    match answer {
        sys::DONE => Ok(()),
        answer => Err(failure(answer, number)),
    }
}

/// What an answer says that was not done. The others come never: an end here is kept from its making to its drop, and of its kind.
fn failure(answer: u32, number: u16) -> Failure {
    match answer {
        sys::NO_MEMORY => Failure::NoMemory,
        sys::REFUSED => Failure::Refused(number),
        sys::FAULT => Failure::Fault(number),
        answer => unreachable!("the answer {answer}"),
    }
}
