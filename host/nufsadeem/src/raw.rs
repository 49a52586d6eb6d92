//! The C interface, as `include/nufsadeem.h` has it: each function by its name, each struct by its name without
//! the prefix.
//!
//! `number` is 0 where a call answers. Else it is the number of a refusal, `place` is its place, and
//! every other field is 0. A pointer must be good for its length; at length 0 any pointer will do.

use crate::Fault;

#[repr(C)]
#[derive(Clone, Copy, PartialEq, Eq, Debug)]
pub struct Run {
    pub number: u32,
    pub place: u32,
    pub state: u32,
}

#[repr(C)]
#[derive(Clone, Copy, PartialEq, Eq, Debug)]
pub struct Catch {
    pub number: u32,
    pub place: u32,
    pub caught: u32,
}

#[repr(C)]
#[derive(Clone, Copy, PartialEq, Eq, Debug)]
pub struct Vector {
    pub number: u32,
    pub place: u32,
    pub vector: u32,
}

#[repr(C)]
#[derive(Clone, Copy, PartialEq, Eq, Debug)]
pub struct Count {
    pub number: u32,
    pub place: u32,
    pub count: u32,
}

#[repr(C)]
#[derive(Clone, Copy, PartialEq, Eq, Debug)]
pub struct Job {
    pub number: u32,
    pub place: u32,
    pub lines: u32,
    pub classes: u32,
    pub gates: u32,
    pub vectors: u32,
}

#[repr(C)]
#[derive(Clone, Copy, PartialEq, Eq, Debug)]
pub struct Circuit {
    pub number: u32,
    pub place: u32,
    pub lines: u32,
    pub gates: u32,
}

#[repr(C)]
#[derive(Clone, Copy, PartialEq, Eq, Debug)]
pub struct Verdict {
    pub number: u32,
    pub place: u32,
    pub caught: u32,
    pub total: u32,
    pub complete: u32,
    pub first: Fault,
}

#[link(name = "nufsadeem", kind = "static")]
extern "C" {
    pub fn nuf_forward(
        lines: u32,
        gates: *const u32,
        gates_len: usize,
        level: u32,
        state: u32,
    ) -> Run;

    pub fn nuf_backward(
        lines: u32,
        gates: *const u32,
        gates_len: usize,
        level: u32,
        state: u32,
    ) -> Run;

    pub fn nuf_catches(
        lines: u32,
        gates: *const u32,
        gates_len: usize,
        vector: u32,
        fault: Fault,
    ) -> Catch;

    pub fn nuf_catches_multiple(
        lines: u32,
        gates: *const u32,
        gates_len: usize,
        vector: u32,
        entries: *const u32,
        entries_len: usize,
    ) -> Catch;

    pub fn nuf_judge(
        lines: u32,
        gates: *const u32,
        gates_len: usize,
        vectors: *const u32,
        vectors_len: usize,
        class: u32,
    ) -> Verdict;

    pub fn nuf_cover(
        lines: u32,
        gates: *const u32,
        gates_len: usize,
        vectors: *const u32,
        vectors_len: usize,
        class: u32,
    ) -> Verdict;

    pub fn nuf_test_for(lines: u32, gates: *const u32, gates_len: usize, fault: Fault) -> Vector;

    pub fn nuf_backward_set(
        lines: u32,
        gates: *const u32,
        gates_len: usize,
        room: *mut u32,
        room_len: usize,
    ) -> Count;

    pub fn nuf_compact_set(
        lines: u32,
        gates: *const u32,
        gates_len: usize,
        room: *mut u32,
        room_len: usize,
    ) -> Count;

    pub fn nuf_drop(
        lines: u32,
        gates: *const u32,
        gates_len: usize,
        vector: u32,
        list: *mut u32,
        list_len: usize,
    ) -> Count;

    pub fn nuf_drop_records(
        lines: u32,
        gates: *const u32,
        gates_len: usize,
        vector: u32,
        list: *mut Fault,
        list_len: usize,
    ) -> Count;

    pub fn nuf_read_job(
        bytes: *const u8,
        bytes_len: usize,
        gates: *mut u32,
        gates_len: usize,
        vectors: *mut u32,
        vectors_len: usize,
    ) -> Job;

    pub fn nuf_write_job(
        lines: u32,
        classes: u32,
        gates: *const u32,
        gates_len: usize,
        vectors: *const u32,
        vectors_len: usize,
        out: *mut u8,
        out_len: usize,
    ) -> Count;

    pub fn nuf_report(bytes: *const u8, bytes_len: usize, out: *mut u8, out_len: usize) -> Count;

    pub fn nuf_import_real(
        text: *const u8,
        text_len: usize,
        gates: *mut u32,
        gates_len: usize,
    ) -> Circuit;

    pub fn nuf_export_real(
        lines: u32,
        gates: *const u32,
        gates_len: usize,
        out: *mut u8,
        out_len: usize,
    ) -> Count;
}
