//! The declarations of `include/tongsthyme.h`.

use std::ffi::c_void;

#[repr(C)]
#[derive(Default)]
pub(crate) struct Verdict {
    pub(crate) status: u32,
    pub(crate) events: u32,
    pub(crate) line: u32,
    pub(crate) kind: u32,
}

#[repr(C)]
pub(crate) struct Handle {
    pub(crate) at: *mut c_void,
}

#[repr(C)]
#[derive(Default)]
pub(crate) struct Operation {
    pub(crate) caller: u32,
    pub(crate) kind: u32,
    pub(crate) object: u32,
    pub(crate) operation: u32,
    pub(crate) a: u32,
    pub(crate) b: u32,
    pub(crate) c: u32,
    pub(crate) d: u32,
    pub(crate) requestor: u64,
}

#[repr(C)]
#[derive(Default)]
pub(crate) struct Answer {
    pub(crate) place: u32,
    pub(crate) reply: u32,
    pub(crate) a: u32,
    pub(crate) b: u32,
    pub(crate) c: u32,
}

#[repr(C)]
#[derive(Default)]
pub(crate) struct Wake {
    pub(crate) caller: u32,
    pub(crate) request: u32,
    pub(crate) code: u32,
    pub(crate) posts: u32,
    pub(crate) ecb: u32,
}

#[repr(C)]
#[derive(Default)]
pub(crate) struct Request {
    pub(crate) requestor: u64,
    pub(crate) request: u32,
    pub(crate) caller: u32,
    pub(crate) mode: u32,
    pub(crate) form: u32,
    pub(crate) ecb: u32,
}

unsafe extern "C" {
    pub(crate) fn tongsthyme_judge(journal: *const u8, length: usize, verdict: &mut Verdict)
        -> u32;
    pub(crate) fn tongsthyme_machine_open(
        journal: *const u8,
        length: usize,
        machine: &mut Handle,
        verdict: &mut Verdict,
    ) -> u32;
    pub(crate) fn tongsthyme_machine_step(
        machine: &mut Handle,
        operation: &Operation,
        answer: &mut Answer,
    ) -> u32;
    pub(crate) fn tongsthyme_machine_object(
        machine: &mut Handle,
        kind: u32,
        number: u32,
        answer: &mut Answer,
    ) -> u32;
    pub(crate) fn tongsthyme_machine_wake(machine: &mut Handle, index: u32, wake: &mut Wake)
        -> u32;
    pub(crate) fn tongsthyme_machine_request(
        machine: &mut Handle,
        latch: u32,
        index: u32,
        request: &mut Request,
    ) -> u32;
    pub(crate) fn tongsthyme_machine_close(machine: &mut Handle);
    pub(crate) fn tongsthyme_line(
        operation: &Operation,
        answer: &Answer,
        text: *mut u8,
        room: usize,
        length: &mut usize,
    ) -> u32;
}
