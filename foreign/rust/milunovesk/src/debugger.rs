//! The debugger's end.
use crate::handle::Handle;
use crate::{done, filled, Failure};
use milunovesk_sys as sys;

/// The debugger's end of sessions.
pub struct Debugger(Handle);

/// What a turn read. `Debugger::data` gives the data of its items.
#[derive(Clone, Copy, Debug, PartialEq, Eq)]
pub enum Heard {
    /// Nothing: no message is whole, the session is closed, or too much waits to leave.
    Nothing,
    /// The target's handshake.
    Hello,
    /// A composite event, which waits for the widths of ids.
    Parked,
    /// The widths of ids, and so many composites that waited for them.
    Sizes(usize),
    /// The answer to the command that was asked under this ticket: data, as item 0, or an error code.
    Answered { ticket: u64, error: Option<u16> },
    /// A composite event, as item 0.
    Seen,
}

/// How many bytes each kind of id has.
#[derive(Clone, Copy, Debug, PartialEq, Eq)]
pub struct Widths {
    pub field: u8,
    pub method: u8,
    pub object: u8,
    pub reference: u8,
    pub frame: u8,
}

/// A thread as the debugger knows it: its suspend count, or what that is surely no less than, and whether the debugger holds it for suspended.
#[derive(Clone, Copy, Debug, PartialEq, Eq)]
pub struct Thread {
    pub count: u32,
    pub held: bool,
}

/// A command that is neither answered nor lost.
#[derive(Clone, Copy, Debug, PartialEq, Eq)]
pub struct Unanswered {
    pub ticket: u64,
    pub set: u8,
    pub number: u8,
}

/// An event request that the target has: the id in its reply, and the event kind and the suspend policy as they were asked.
#[derive(Clone, Copy, Debug, PartialEq, Eq)]
pub struct Request {
    pub id: i32,
    pub kind: u8,
    pub policy: u8,
}

// Each `unsafe` below is a call with a handle that is borrowed alone, slices with their lengths, and places of this function's own.
impl Debugger {
    /// A debugger before its first session, whose first packet has this id.
    ///
    /// # Errors
    /// `NoMemory`.
    pub fn new(first_id: u32) -> Result<Debugger, Failure> {
        let mut handle = Handle::new();
        done(unsafe { sys::mv_debugger_new(handle.lend(), first_id) }, 0)?;
        Ok(Debugger(handle))
    }

    /// The same of a target that sends replies and composite events by threads of their own, as Java machines do: `thread` tells what is surely
    /// so.
    ///
    /// # Errors
    /// `NoMemory`.
    pub fn new_apart(first_id: u32) -> Result<Debugger, Failure> {
        let mut handle = Handle::new();
        done(
            unsafe { sys::mv_debugger_new_apart(handle.lend(), first_id) },
            0,
        )?;
        Ok(Debugger(handle))
    }

    /// Begins a session. False where one is open, or tickets of the last one wait for `lose`.
    pub fn attach(&mut self) -> bool {
        let mut opened = false;
        sure(unsafe { sys::mv_debugger_attach(self.0.lend(), &mut opened) });
        opened
    }

    /// Takes as many of the bytes that came as fit, and tells how many.
    pub fn feed(&mut self, bytes: &[u8]) -> usize {
        let mut count = 0;
        sure(unsafe {
            sys::mv_debugger_feed(self.0.lend(), bytes.as_ptr(), bytes.len(), &mut count)
        });
        count
    }

    /// Moves as many of the bytes that are to be sent to the front of `out` as fit, and tells how many.
    pub fn take(&mut self, out: &mut [u8]) -> usize {
        let mut count = 0;
        sure(unsafe {
            sys::mv_debugger_take(self.0.lend(), out.as_mut_ptr(), out.len(), &mut count)
        });
        count
    }

    /// How many bytes `feed` would take, how many wait to leave, and whether a session is open.
    pub fn waiting(&mut self) -> (usize, usize, bool) {
        let (mut room, mut waiting, mut open) = (0, 0, false);
        sure(unsafe {
            sys::mv_debugger_waiting(self.0.lend(), &mut room, &mut waiting, &mut open)
        });
        (room, waiting, open)
    }

    /// Asks a command by its data, and gives its ticket.
    ///
    /// # Errors
    /// `Refused` with 33 closed, 31 not ready, 32 busy, 36 no such command or other data, 34 too long; `NoMemory`.
    pub fn ask(&mut self, set: u8, number: u8, data: &[u8]) -> Result<u64, Failure> {
        let (mut ticket, mut reason) = (0, 0);
        let answer = unsafe {
            let (at, length) = (data.as_ptr(), data.len());
            sys::mv_debugger_ask(
                self.0.lend(),
                set,
                number,
                at,
                length,
                &mut ticket,
                &mut reason,
            )
        };
        done(answer, reason)?;
        Ok(ticket)
    }

    /// Handles the message in front. What it read is kept until a turn reads again.
    ///
    /// # Errors
    /// `Fault` where the target may not send what it sent, and the session is closed; `NoMemory`, and nothing changed.
    pub fn turn(&mut self) -> Result<Heard, Failure> {
        let mut out = sys::Heard::default();
        let answer = unsafe { sys::mv_debugger_turn(self.0.lend(), &mut out) };
        done(answer, if out.frame > 0 { out.frame } else { out.fault })?;
        Ok(match out.kind {
            0 => Heard::Nothing,
            1 => Heard::Hello,
            2 => Heard::Parked,
            3 => Heard::Sizes(out.items),
            4 => Heard::Answered {
                ticket: out.ticket,
                error: (out.error > 0).then_some(out.error),
            },
            _ => Heard::Seen,
        })
    }

    /// The data of an item of what the last turn read; None where there is none.
    ///
    /// # Errors
    /// `NoMemory`.
    pub fn data(&mut self, item: usize) -> Result<Option<Vec<u8>>, Failure> {
        let handle = self.0.lend();
        let found = filled(64, |bytes, needed| unsafe {
            sys::mv_debugger_data(handle, item, bytes.as_mut_ptr(), bytes.len(), needed)
        });
        match found {
            Ok(bytes) => Ok(Some(bytes)),
            Err(sys::NO_ITEM) => Ok(None),
            Err(answer) => Err(crate::failure(answer, 0)),
        }
    }

    /// What the last turn read, as `show` has it, a line a message, each with its newline; empty where it read nothing.
    ///
    /// # Errors
    /// `NoMemory`.
    pub fn lines(&mut self) -> Result<String, Failure> {
        let handle = self.0.lend();
        let found = filled(256, |bytes, needed| unsafe {
            sys::mv_debugger_lines(handle, bytes.as_mut_ptr(), bytes.len(), needed)
        });
        match found {
            Ok(bytes) => Ok(String::from_utf8_lossy(&bytes).into_owned()),
            Err(answer) => Err(crate::failure(answer, 0)),
        }
    }

    /// The widths of ids; None until they are known.
    pub fn widths(&mut self) -> Option<Widths> {
        let (mut known, mut out) = (false, sys::IdWidths::default());
        sure(unsafe { sys::mv_debugger_widths(self.0.lend(), &mut known, &mut out) });
        known.then_some(Widths {
            field: out.field,
            method: out.method,
            object: out.object,
            reference: out.reference,
            frame: out.frame,
        })
    }

    /// What is known of a thread; None where it is not. Of a debugger by `new_apart`: None where the thread was not named, by a composite of its
    /// own or an answer without an error about it; else what is sure of it as long as it lives, with the count 0 and not held where nothing is.
    /// It is no longer sure from the end of the thread on, which THREAD_DEATH tells.
    pub fn thread(&mut self, thread: u64) -> Option<Thread> {
        let (mut known, mut count, mut held) = (false, 0, false);
        sure(unsafe {
            sys::mv_debugger_thread(self.0.lend(), thread, &mut known, &mut count, &mut held)
        });
        known.then_some(Thread { count, held })
    }

    /// The command at this place among those that are neither answered nor lost, in the order asked, from 0.
    pub fn unanswered(&mut self, place: usize) -> Option<Unanswered> {
        let mut out = sys::Asked::default();
        sure(unsafe { sys::mv_debugger_unanswered(self.0.lend(), place, &mut out) });
        (out.ticket > 0).then_some(Unanswered {
            ticket: out.ticket,
            set: out.set,
            number: out.number,
        })
    }

    /// The event request at this place among those that the target has by all that was read in the session, the last one asked last, from 0.
    pub fn request(&mut self, place: usize) -> Option<Request> {
        let mut out = sys::Request::default();
        match unsafe { sys::mv_debugger_request(self.0.lend(), place, &mut out) } {
            sys::NO_ITEM => return None,
            answer => sure(answer),
        }
        Some(Request {
            id: out.id,
            kind: out.kind,
            policy: out.policy,
        })
    }

    /// The connection is lost: the tickets that will never be answered.
    pub fn lose(&mut self) -> Vec<u64> {
        let (mut tickets, mut count) = (vec![0; sys::MOST_TICKETS], 0);
        sure(unsafe {
            sys::mv_debugger_lose(
                self.0.lend(),
                tickets.as_mut_ptr(),
                tickets.len(),
                &mut count,
            )
        });
        tickets.truncate(count);
        tickets
    }
}

/// A call at an end of its kind that can't be refused.
pub(crate) fn sure(answer: u32) {
    assert_eq!(
        answer,
        sys::DONE,
        "the end is kept from its making to its drop"
    );
}
