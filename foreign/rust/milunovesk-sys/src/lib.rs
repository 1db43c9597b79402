//! `milunovesk.h` in Rust, declaration by declaration. What the header asks of its caller each caller of these owes.
#![no_std]

use core::ffi::c_void;

pub const DONE: u32 = 0;
pub const EMPTY: u32 = 1;
pub const LIVE: u32 = 2;
pub const OTHER_KIND: u32 = 3;
pub const NO_MEMORY: u32 = 4;
pub const NOT_UTF8: u32 = 5;
pub const SHORT_BUFFER: u32 = 6;
pub const REFUSED: u32 = 7;
pub const FAULT: u32 = 8;
pub const NO_ITEM: u32 = 9;

pub const MOST_TICKETS: usize = 1024;

#[repr(C)]
pub struct Handle {
    pub live: bool,
    pub at: *mut c_void,
}

#[repr(C)]
#[derive(Default)]
pub struct Framed {
    pub kind: u8,
    pub set: u8,
    pub number: u8,
    pub error: u16,
    pub fault: u16,
    pub id: u32,
    pub length: u32,
}

#[repr(C)]
#[derive(Default)]
pub struct Found {
    pub count: usize,
    pub used: usize,
    pub left: u8,
    pub fault: u16,
}

#[repr(C)]
#[derive(Default)]
pub struct Judged {
    pub yes: bool,
    pub fault: u16,
    pub line: usize,
}

#[repr(C)]
#[derive(Default)]
pub struct Heard {
    pub kind: u8,
    pub error: u16,
    pub fault: u16,
    pub frame: u16,
    pub ticket: u64,
    pub items: usize,
}

#[repr(C)]
#[derive(Default)]
pub struct IdWidths {
    pub field: u8,
    pub method: u8,
    pub object: u8,
    pub reference: u8,
    pub frame: u8,
}

#[repr(C)]
#[derive(Default)]
pub struct Asked {
    pub ticket: u64,
    pub set: u8,
    pub number: u8,
}

#[repr(C)]
#[derive(Default)]
pub struct Request {
    pub id: i32,
    pub kind: u8,
    pub policy: u8,
}

#[repr(C)]
#[derive(Default)]
pub struct Handled {
    pub kind: u8,
    pub error: u16,
    pub fault: u16,
    pub id: u32,
}

extern "C" {
    pub fn mv_version() -> u32;
    pub fn mv_kind(handle: *mut Handle, kind: *mut u8) -> u32;
    pub fn mv_free(handle: *mut Handle);

    pub fn mv_next_packet(bytes: *const u8, length: usize, out: *mut Framed) -> u32;
    pub fn mv_next_packets(
        bytes: *const u8,
        length: usize,
        places: *mut usize,
        room: usize,
        out: *mut Found,
    ) -> u32;

    pub fn mv_command_name(
        set: u8,
        number: u8,
        out: *mut u8,
        room: usize,
        needed: *mut usize,
    ) -> u32;
    pub fn mv_error_name(error: u16, out: *mut u8, room: usize, needed: *mut usize) -> u32;
    pub fn mv_fault_text(fault: u16, out: *mut u8, room: usize, needed: *mut usize) -> u32;

    pub fn mv_check(text: *const u8, length: usize, out: *mut Judged) -> u32;
    pub fn mv_show(
        text: *const u8,
        length: usize,
        out: *mut u8,
        room: usize,
        needed: *mut usize,
        judged: *mut Judged,
    ) -> u32;

    pub fn mv_debugger_new(handle: *mut Handle, first_id: u32) -> u32;
    pub fn mv_debugger_new_apart(handle: *mut Handle, first_id: u32) -> u32;
    pub fn mv_debugger_attach(handle: *mut Handle, opened: *mut bool) -> u32;
    pub fn mv_debugger_feed(
        handle: *mut Handle,
        bytes: *const u8,
        length: usize,
        count: *mut usize,
    ) -> u32;
    pub fn mv_debugger_take(
        handle: *mut Handle,
        out: *mut u8,
        room: usize,
        count: *mut usize,
    ) -> u32;
    pub fn mv_debugger_waiting(
        handle: *mut Handle,
        room: *mut usize,
        waiting: *mut usize,
        open: *mut bool,
    ) -> u32;
    pub fn mv_debugger_ask(
        handle: *mut Handle,
        set: u8,
        number: u8,
        data: *const u8,
        length: usize,
        ticket: *mut u64,
        refused: *mut u16,
    ) -> u32;
    pub fn mv_debugger_turn(handle: *mut Handle, out: *mut Heard) -> u32;
    pub fn mv_debugger_data(
        handle: *mut Handle,
        item: usize,
        out: *mut u8,
        room: usize,
        needed: *mut usize,
    ) -> u32;
    pub fn mv_debugger_lines(
        handle: *mut Handle,
        out: *mut u8,
        room: usize,
        needed: *mut usize,
    ) -> u32;
    pub fn mv_debugger_widths(handle: *mut Handle, known: *mut bool, out: *mut IdWidths) -> u32;
    pub fn mv_debugger_thread(
        handle: *mut Handle,
        thread: u64,
        known: *mut bool,
        count: *mut u32,
        held: *mut bool,
    ) -> u32;
    pub fn mv_debugger_unanswered(handle: *mut Handle, place: usize, out: *mut Asked) -> u32;
    pub fn mv_debugger_request(handle: *mut Handle, place: usize, out: *mut Request) -> u32;
    pub fn mv_debugger_lose(
        handle: *mut Handle,
        tickets: *mut u64,
        room: usize,
        count: *mut usize,
    ) -> u32;

    pub fn mv_target_new(
        handle: *mut Handle,
        json: *const u8,
        length: usize,
        start_all: bool,
        count_limit: u32,
        script: *mut Judged,
    ) -> u32;
    pub fn mv_target_accept(handle: *mut Handle, opened: *mut bool) -> u32;
    pub fn mv_target_feed(
        handle: *mut Handle,
        bytes: *const u8,
        length: usize,
        count: *mut usize,
    ) -> u32;
    pub fn mv_target_take(handle: *mut Handle, out: *mut u8, room: usize, count: *mut usize)
        -> u32;
    pub fn mv_target_waiting(
        handle: *mut Handle,
        room: *mut usize,
        waiting: *mut usize,
        open: *mut bool,
    ) -> u32;
    pub fn mv_target_turn(handle: *mut Handle, out: *mut Handled) -> u32;
    pub fn mv_target_step(handle: *mut Handle, thread: u64, stepped: *mut u8) -> u32;
    pub fn mv_target_live(
        handle: *mut Handle,
        place: usize,
        lives: *mut bool,
        thread: *mut u64,
    ) -> u32;
    pub fn mv_target_thread(
        handle: *mut Handle,
        thread: u64,
        lives: *mut bool,
        count: *mut u32,
    ) -> u32;
    pub fn mv_target_lose(handle: *mut Handle) -> u32;
}
