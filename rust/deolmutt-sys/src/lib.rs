//! The functions of `deolmutt.h` that the crate `deolmutt` calls safely, as they are: its comments say what each does, and what it asks
//! of its caller. Those that stand over others, for C, are left out.

#![no_std]

/// `DEOLMUTT_ABI`: the version of the interface that is declared here.
pub const ABI: u32 = 1;

/// A store: folders, their messages, and the jobs on them.
#[repr(C)]
pub struct World {
    _private: [u8; 0],
}

/// A job whose directory calls its caller makes.
#[repr(C)]
pub struct Driven {
    _private: [u8; 0],
}

/// How a job ended, and its value.
#[repr(C)]
#[derive(Clone, Copy, Debug, Default)]
pub struct Answer {
    pub kind: u64,
    pub value: u64,
}

/// What a step did.
#[repr(C)]
#[derive(Clone, Copy, Debug, Default)]
pub struct Step {
    pub call: u32,
    pub reply: u32,
    pub value: u64,
    pub effect: u64,
    pub answer: Answer,
}

/// A directory call that a driven job asks for.
#[repr(C)]
#[derive(Clone, Copy, Debug, Default)]
pub struct Request {
    pub call: u32,
    pub folder: u32,
    pub place: u32,
    pub to_folder: u32,
    pub to_place: u32,
    pub reserved: u32,
    pub name: u64,
    pub second: u64,
}

extern "C" {
    pub fn deolmutt_abi() -> u32;
    pub fn deolmutt_text(refusal: u32, out: *mut u8, room: usize) -> usize;
    pub fn deolmutt_load(lines: *const u8, length: usize, world: *mut *mut World, line: *mut u64) -> u32;
    pub fn deolmutt_free(world: *mut World) -> u32;
    pub fn deolmutt_submit(
        world: *mut World,
        kind: u32,
        folder: u32,
        unique: *const u8,
        unique_length: usize,
        to: u32,
        first: *const u8,
        first_length: usize,
        second: *const u8,
        second_length: usize,
        number: u64,
        job: *mut u64,
    ) -> u32;
    pub fn deolmutt_step(world: *mut World, job: u64, now: u64, own: *const u64, step: *mut Step) -> u32;
    pub fn deolmutt_call(
        world: *mut World,
        kind: u32,
        folder: u32,
        unique: *const u8,
        unique_length: usize,
        to: u32,
        first: *const u8,
        first_length: usize,
        second: *const u8,
        second_length: usize,
        number: u64,
        now: u64,
        own: *const u64,
        job: *mut u64,
        answer: *mut Answer,
    ) -> u32;
    pub fn deolmutt_job_answer(world: *const World, job: u64, answer: *mut Answer) -> u32;
    pub fn deolmutt_settle(world: *mut World, job: *mut u64) -> u32;
    pub fn deolmutt_list(world: *const World, folder: u32, out: *mut u8, room: usize, length: *mut usize) -> u32;
    pub fn deolmutt_read(
        world: *const World,
        unique: *const u8,
        unique_length: usize,
        out: *mut u8,
        room: usize,
        length: *mut usize,
    ) -> u32;
    pub fn deolmutt_names(
        world: *const World,
        folder: u32,
        place: u32,
        at: u64,
        out: *mut u8,
        room: usize,
        length: *mut usize,
    ) -> u32;
    pub fn deolmutt_calls(
        world: *mut World,
        records: *const u8,
        length: usize,
        now: u64,
        answers: *mut Answer,
        room: usize,
        done: *mut usize,
    ) -> u32;
    pub fn deolmutt_transcript(
        script: *const u8,
        length: usize,
        out: *mut u8,
        room: usize,
        out_length: *mut usize,
        line: *mut u64,
    ) -> u32;
    pub fn deolmutt_index(
        lines: *const u8,
        length: usize,
        out: *mut u8,
        room: usize,
        out_length: *mut usize,
        line: *mut u64,
    ) -> u32;
    pub fn deolmutt_judge(
        log: *const u8,
        length: usize,
        out: *mut u8,
        room: usize,
        out_length: *mut usize,
        line: *mut u64,
    ) -> u32;
    pub fn deolmutt_clause_name(clause: u32) -> *const u8;
    pub fn deolmutt_clause_text(clause: u32) -> *const u8;
    pub fn deolmutt_unique(
        second: u64,
        microsecond: u64,
        process: u64,
        count: u64,
        host: *const u8,
        host_length: usize,
        out: *mut u8,
        room: usize,
        length: *mut usize,
    ) -> u32;
    pub fn deolmutt_split(
        name: *const u8,
        length: usize,
        unique_length: *mut usize,
        info: *mut u32,
        flags: *mut u64,
    ) -> u32;
    pub fn deolmutt_summary(
        message: *const u8,
        length: usize,
        out: *mut u8,
        room: usize,
        out_length: *mut usize,
    ) -> u32;
    pub fn deolmutt_drive(
        kind: u32,
        folder: u32,
        unique: *const u8,
        unique_length: usize,
        to: u32,
        first: *const u8,
        first_length: usize,
        second: *const u8,
        second_length: usize,
        number: u64,
        job: *mut *mut Driven,
    ) -> u32;
    pub fn deolmutt_driven_free(job: *mut Driven) -> u32;
    pub fn deolmutt_driven_ask(job: *mut Driven, second: u64) -> u32;
    pub fn deolmutt_driven_request(
        job: *const Driven,
        request: *mut Request,
        out: *mut u8,
        room: usize,
        length: *mut usize,
    ) -> u32;
    pub fn deolmutt_driven_row(job: *mut Driven, name: *const u8, length: usize, stamp: u64, size: u64) -> u32;
    pub fn deolmutt_driven_take(job: *mut Driven, reply: u32, step: *mut Step) -> u32;
    pub fn deolmutt_driven_answer(job: *const Driven, answer: *mut Answer) -> u32;
}
