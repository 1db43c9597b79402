//! A handle of the library: owned, and freed once.
use milunovesk_sys as sys;
use std::ptr;

pub(crate) struct Handle(sys::Handle);

// SAFETY: that its handles may go to any thread is proved of the library. It is not `Sync`: calls on one come one after the other.
unsafe impl Send for Handle {}

impl Handle {
    /// One that keeps nothing.
    pub fn new() -> Handle {
        Handle(sys::Handle {
            live: false,
            at: ptr::null_mut(),
        })
    }

    /// The handle for a call, which borrows it alone.
    pub fn lend(&mut self) -> *mut sys::Handle {
        &mut self.0
    }
}

impl Drop for Handle {
    fn drop(&mut self) {
        // SAFETY: the handle is as the last call left it, and no one else has it.
        unsafe { sys::mv_free(&mut self.0) }
    }
}
