//! The target's end, over the machine of a script.
use crate::debugger::sure;
use crate::handle::Handle;
use crate::{done, Failure};
use milunovesk_sys as sys;
use std::error::Error;
use std::fmt;

/// The target's end of sessions, over the machine of a script.
pub struct Target(Handle);

/// Why no target is made.
#[derive(Clone, Copy, Debug, PartialEq, Eq)]
pub enum Unmade {
    /// The first fault of the script, by its number, 21 to 26.
    Script(u16),
    /// The limit of suspend counts is outside 1 to 2,147,483,647.
    BadLimit,
    /// An allocation was refused.
    NoMemory,
}

impl fmt::Display for Unmade {
    fn fmt(&self, f: &mut fmt::Formatter<'_>) -> fmt::Result {
        match self {
            Unmade::Script(number) => fmt::Display::fmt(&Failure::Fault(*number), f),
            Unmade::BadLimit => f.write_str("a limit outside 1 to 2,147,483,647"),
            Unmade::NoMemory => f.write_str("no memory"),
        }
    }
}

impl Error for Unmade {}

/// What a turn did.
#[derive(Clone, Copy, Debug, PartialEq, Eq)]
pub enum Handled {
    /// Nothing: no message is whole, the session is closed, or too much waits to leave.
    Nothing,
    /// The handshake.
    Hello,
    /// The command of this id, replied to with this error code, 0 for none.
    Replied { id: u32, error: u16 },
    /// A reply, which means nothing to a target.
    Ignored,
}

/// What a step did.
#[derive(Clone, Copy, Debug, PartialEq, Eq)]
pub enum Stepped {
    /// Nothing: the thread is suspended or does not live, or too much waits to leave.
    Frozen,
    /// It made a step that is not reported.
    Quiet,
    /// It made a step, and an event is to leave.
    Reported,
    /// It ended.
    Ended,
}

// Each `unsafe` below is a call with a handle that is borrowed alone, slices with their lengths, and places of this function's own.
impl Target {
    /// A target before its first session. All its threads begin suspended where `start_all`; no Suspend raises a count above `count_limit`.
    ///
    /// # Errors
    /// As `Unmade` says.
    pub fn new(script: &str, start_all: bool, count_limit: u32) -> Result<Target, Unmade> {
        let mut handle = Handle::new();
        let mut out = sys::Judged::default();
        let (at, length) = (script.as_ptr(), script.len());
        let answer = unsafe {
            sys::mv_target_new(handle.lend(), at, length, start_all, count_limit, &mut out)
        };
        match answer {
            sys::DONE => Ok(Target(handle)),
            sys::NO_MEMORY => Err(Unmade::NoMemory),
            sys::REFUSED => Err(Unmade::BadLimit),
            _ => Err(Unmade::Script(out.fault)),
        }
    }

    /// Begins a session. False where one is open, or the machine is dead.
    pub fn accept(&mut self) -> bool {
        let mut opened = false;
        sure(unsafe { sys::mv_target_accept(self.0.lend(), &mut opened) });
        opened
    }

    /// Takes as many of the bytes that came as fit, and tells how many.
    pub fn feed(&mut self, bytes: &[u8]) -> usize {
        let mut count = 0;
        sure(unsafe {
            sys::mv_target_feed(self.0.lend(), bytes.as_ptr(), bytes.len(), &mut count)
        });
        count
    }

    /// Moves as many of the bytes that are to be sent to the front of `out` as fit, and tells how many.
    pub fn take(&mut self, out: &mut [u8]) -> usize {
        let mut count = 0;
        sure(unsafe {
            sys::mv_target_take(self.0.lend(), out.as_mut_ptr(), out.len(), &mut count)
        });
        count
    }

    /// How many bytes `feed` would take, how many wait to leave, and whether a session is open.
    pub fn waiting(&mut self) -> (usize, usize, bool) {
        let (mut room, mut waiting, mut open) = (0, 0, false);
        sure(unsafe { sys::mv_target_waiting(self.0.lend(), &mut room, &mut waiting, &mut open) });
        (room, waiting, open)
    }

    /// Handles the message in front.
    ///
    /// # Errors
    /// `Fault` with 1 to 4 where the bytes in front begin no message, and the session is lost; `NoMemory`, and nothing changed.
    pub fn turn(&mut self) -> Result<Handled, Failure> {
        let mut out = sys::Handled::default();
        let answer = unsafe { sys::mv_target_turn(self.0.lend(), &mut out) };
        done(answer, out.fault)?;
        Ok(match out.kind {
            1 => Handled::Hello,
            2 => Handled::Replied {
                id: out.id,
                error: out.error,
            },
            3 => Handled::Ignored,
            _ => Handled::Nothing, // nothing is deferred here
        })
    }

    /// Lets a thread make a step.
    ///
    /// # Errors
    /// `NoMemory`, and nothing changed.
    pub fn step(&mut self, thread: u64) -> Result<Stepped, Failure> {
        let mut stepped = 0;
        done(
            unsafe { sys::mv_target_step(self.0.lend(), thread, &mut stepped) },
            0,
        )?;
        Ok(match stepped {
            0 => Stepped::Frozen,
            1 => Stepped::Quiet,
            2 => Stepped::Reported,
            _ => Stepped::Ended,
        })
    }

    /// The thread at this place, from 0, among those that live.
    pub fn live(&mut self, place: usize) -> Option<u64> {
        let (mut lives, mut thread) = (false, 0);
        sure(unsafe { sys::mv_target_live(self.0.lend(), place, &mut lives, &mut thread) });
        lives.then_some(thread)
    }

    /// The suspend count of a thread; None where it does not live.
    pub fn count(&mut self, thread: u64) -> Option<u32> {
        let (mut lives, mut count) = (false, 0);
        sure(unsafe { sys::mv_target_thread(self.0.lend(), thread, &mut lives, &mut count) });
        lives.then_some(count)
    }

    /// The connection is lost.
    pub fn lose(&mut self) {
        sure(unsafe { sys::mv_target_lose(self.0.lend()) });
    }
}
