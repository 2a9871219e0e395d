//! tombolopan.h for Rust: its layouts and calls, and a session, a tenant alone and a memory with
//! tags without raw pointers. A program names it by `mod tombolopan;`.
#![allow(dead_code)]

// Written by tools/border.py: the numbers

pub const TB_VERSION: u32 = 2;

pub const TB_OK: u32 = 0;
pub const TB_FAULT: u32 = 1;
pub const TB_SVC: u32 = 2;
pub const TB_BREAKPOINT: u32 = 3;
pub const TB_ILLEGAL: u32 = 4;
pub const TB_NOT_MAPPED: u32 = 5;
pub const TB_ALREADY_MAPPED: u32 = 6;
pub const TB_NO_ROOM: u32 = 7;
pub const TB_BAD_ARGUMENT: u32 = 8;
pub const TB_ABORT: u32 = 9;
pub const TB_OUT_OF_MEMORY: u32 = 10;
pub const TB_SCRIPT: u32 = 11;
pub const TB_REFUSED: u32 = 12;
pub const TB_STOPPED: u32 = 13;
pub const TB_NO_MACHINE: u32 = 14;

pub const TB_TRANSLATION: u32 = 1;
pub const TB_PERMISSION: u32 = 2;
pub const TB_TAG_CHECK: u32 = 3;
pub const TB_ALIGNMENT: u32 = 4;
pub const TB_SP_ALIGNMENT: u32 = 5;
pub const TB_PC_ALIGNMENT: u32 = 6;

pub const TB_MALLOC: u32 = 1;
pub const TB_FREE: u32 = 2;
pub const TB_CALLOC: u32 = 3;
pub const TB_REALLOC: u32 = 4;
pub const TB_MEMALIGN: u32 = 5;
pub const TB_USABLE_SIZE: u32 = 6;
pub const TB_LOAD: u32 = 7;
pub const TB_STORE: u32 = 8;
pub const TB_LOAD_TAG: u32 = 9;

pub const TB_MISALIGNED: u32 = 1;
pub const TB_UNMAPPED: u32 = 2;
pub const TB_HEADER_CORRUPT: u32 = 3;
pub const TB_INVALID_STATE: u32 = 4;
pub const TB_NOT_A_BLOCK: u32 = 5;
pub const TB_ALREADY_FREE: u32 = 6;

pub const TB_SYNTAX: u32 = 1;
pub const TB_BAD_NUMBER: u32 = 2;
pub const TB_NO_SUCH_FILE: u32 = 3;
pub const TB_TOO_MANY_EVENTS: u32 = 4;

pub const TB_BAD_RESERVATION: u32 = 2;
pub const TB_RESERVATION_TOO_SMALL: u32 = 3;
pub const TB_SHORT: u32 = 6;
pub const TB_NOT_ELF64: u32 = 7;
pub const TB_NOT_AARCH64: u32 = 8;
pub const TB_NOT_EXEC: u32 = 9;
pub const TB_BAD_HEADERS: u32 = 10;
pub const TB_INTERPRETER: u32 = 11;
pub const TB_SEGMENT_RANGE: u32 = 12;
pub const TB_OVERLAP: u32 = 13;
pub const TB_NO_ENTRY: u32 = 14;

pub const TB_STATUS_RUNNING: u32 = 1;
pub const TB_STATUS_EXIT: u32 = 2;
pub const TB_STATUS_FAULT: u32 = 3;
pub const TB_STATUS_ILLEGAL: u32 = 4;
pub const TB_STATUS_BREAK: u32 = 5;
pub const TB_STATUS_ASYNC: u32 = 6;
pub const TB_STATUS_ABORT: u32 = 7;

pub const TB_READ: u32 = 1;
pub const TB_WRITE: u32 = 2;
pub const TB_EXEC: u32 = 4;
pub const TB_TAGGED: u32 = 8;

pub const TB_ACCESS_READ: u32 = 1;
pub const TB_ACCESS_WRITE: u32 = 2;
pub const TB_ACCESS_READ_TAG: u32 = 4;
pub const TB_ACCESS_WRITE_TAG: u32 = 8;

pub const TB_ACT_SLICE: u32 = 1;
pub const TB_ACT_GET: u32 = 2;
pub const TB_ACT_SET: u32 = 3;
pub const TB_ACT_LOAD: u32 = 4;
pub const TB_ACT_STORE: u32 = 5;
pub const TB_ACT_LOAD_TAG: u32 = 6;

pub const TB_PAST_SIZE: u32 = 1;
pub const TB_FREED: u32 = 2;
pub const TB_NO_CHUNK: u32 = 3;

pub const TB_COMPARED_SUBS: u32 = 1;
pub const TB_COMPARED_ADDS: u32 = 2;
pub const TB_COMPARED_ANDS: u32 = 3;
pub const TB_COMPARED_CCMP: u32 = 4;
pub const TB_COMPARED_CCMN: u32 = 5;
pub const TB_COMPARED_CBZ: u32 = 6;
pub const TB_COMPARED_TBZ: u32 = 7;
pub const TB_COMPARED_SUB_CBZ: u32 = 8;
pub const TB_COMPARED_EOR_CBZ: u32 = 9;
pub const TB_COMPARED_CALL: u32 = 10;

// End of what tools/border.py writes.

// Written by tools/border.py: the texts

/// What a code says that a call answered, in a few words.
pub fn text(code: u32) -> &'static str {
    match code {
        TB_OK => "ok",
        TB_FAULT => "fault",
        TB_SVC => "svc",
        TB_BREAKPOINT => "breakpoint",
        TB_ILLEGAL => "illegal instruction",
        TB_NOT_MAPPED => "page not mapped",
        TB_ALREADY_MAPPED => "page already mapped",
        TB_NO_ROOM => "no room",
        TB_BAD_ARGUMENT => "bad argument",
        TB_ABORT => "heap abort",
        TB_OUT_OF_MEMORY => "out of memory",
        TB_SCRIPT => "faulty script line",
        TB_REFUSED => "tenant refused",
        TB_STOPPED => "stopped",
        TB_NO_MACHINE => "no machine",
        _ => "unknown",
    }
}

/// The name of `Fault::kind` as reports have it; "none" for 0.
pub fn fault_kind_name(kind: u32) -> &'static str {
    match kind {
        0 => "none",
        TB_TRANSLATION => "Translation",
        TB_PERMISSION => "Permission",
        TB_TAG_CHECK => "TagCheck",
        TB_ALIGNMENT => "Alignment",
        TB_SP_ALIGNMENT => "SpAlignment",
        TB_PC_ALIGNMENT => "PcAlignment",
        _ => "unknown",
    }
}

/// The name of why the heap refused a pointer, as reports have it; "none" for 0.
pub fn heap_abort_name(why: u32) -> &'static str {
    match why {
        0 => "none",
        TB_MISALIGNED => "Misaligned",
        TB_UNMAPPED => "Unmapped",
        TB_HEADER_CORRUPT => "HeaderCorrupt",
        TB_INVALID_STATE => "InvalidState",
        TB_NOT_A_BLOCK => "NotABlock",
        TB_ALREADY_FREE => "AlreadyFree",
        _ => "unknown",
    }
}

/// The name of `SessionEnd::fault` as mte_host writes it; "none" for 0.
pub fn script_fault_name(fault: u32) -> &'static str {
    match fault {
        0 => "none",
        TB_SYNTAX => "Syntax",
        TB_BAD_NUMBER => "BadNumber",
        TB_NO_SUCH_FILE => "NoSuchFile",
        TB_TOO_MANY_EVENTS => "TooManyEvents",
        _ => "unknown",
    }
}

/// The name of `AloneEnd::refusal` as reports have it; "none" for 0.
pub fn refusal_name(refusal: u32) -> &'static str {
    match refusal {
        0 => "none",
        TB_BAD_RESERVATION => "BadReservation",
        TB_RESERVATION_TOO_SMALL => "ReservationTooSmall",
        TB_SHORT => "Short",
        TB_NOT_ELF64 => "NotElf64",
        TB_NOT_AARCH64 => "NotAarch64",
        TB_NOT_EXEC => "NotExec",
        TB_BAD_HEADERS => "BadHeaders",
        TB_INTERPRETER => "Interpreter",
        TB_SEGMENT_RANGE => "SegmentRange",
        TB_OVERLAP => "Overlap",
        TB_NO_ENTRY => "NoEntry",
        _ => "unknown",
    }
}

/// The name of `Status::status` as reports have it; "none" for 0.
pub fn tenant_status_name(status: u32) -> &'static str {
    match status {
        0 => "none",
        TB_STATUS_RUNNING => "running",
        TB_STATUS_EXIT => "exit",
        TB_STATUS_FAULT => "fault",
        TB_STATUS_ILLEGAL => "illegal",
        TB_STATUS_BREAK => "break",
        TB_STATUS_ASYNC => "async",
        TB_STATUS_ABORT => "abort",
        _ => "unknown",
    }
}

/// The name of `FuzzFinding::kind`; "none" for 0.
pub fn trespass_name(kind: u32) -> &'static str {
    match kind {
        0 => "none",
        TB_PAST_SIZE => "PastSize",
        TB_FREED => "Freed",
        TB_NO_CHUNK => "NoChunk",
        _ => "unknown",
    }
}

/// The name of `Comparison::kind`; "none" for 0.
pub fn comparison_name(kind: u32) -> &'static str {
    match kind {
        0 => "none",
        TB_COMPARED_SUBS => "subs",
        TB_COMPARED_ADDS => "adds",
        TB_COMPARED_ANDS => "ands",
        TB_COMPARED_CCMP => "ccmp",
        TB_COMPARED_CCMN => "ccmn",
        TB_COMPARED_CBZ => "cbz",
        TB_COMPARED_TBZ => "tbz",
        TB_COMPARED_SUB_CBZ => "sub cbz",
        TB_COMPARED_EOR_CBZ => "eor cbz",
        TB_COMPARED_CALL => "call",
        _ => "unknown",
    }
}

// End of what tools/border.py writes.

// Written by tools/border.py: the structs

/// A place for a page.
#[repr(C)]
#[derive(Clone, Copy)]
pub struct Page {
    pub number: u64,
    pub mapped: u32,
    pub attrs: u32,
    pub bytes: [u8; 4096],
    pub tags: [u8; 256],
}

/// The tag mode and the flag (SCTLR_EL1.TCF0 and TFSRE0_EL1.TF0); any number but 0 sets either.
#[repr(C)]
#[derive(Clone, Copy, Debug, Default, PartialEq, Eq)]
pub struct TagState {
    pub asynchronous: u32,
    pub pending: u32,
}

/// The registers of a core.
#[repr(C)]
#[derive(Clone, Copy, Debug, Default, PartialEq, Eq)]
pub struct Regs {
    pub x: [u64; 31],
    pub sp: u64,
    pub pc: u64,
    pub nzcv: u32,
    pub rgsr_seed: u16,
    pub rgsr_tag: u16,
}

/// A fault, or zero in all fields where there is none.
#[repr(C)]
#[derive(Clone, Copy, Debug, Default, PartialEq, Eq)]
pub struct Fault {
    pub addr: u64,
    pub kind: u32,
    pub write: u32,
    pub ptr_tag: u32,
    pub mem_tag: u32,
}

/// How a step or a run ended.
#[repr(C)]
#[derive(Clone, Copy, Debug, Default, PartialEq, Eq)]
pub struct Stop {
    pub left: u64,
    pub code: u32,
    pub number: u32,
    pub fault: Fault,
}

/// A store of tags.
#[repr(C)]
#[derive(Clone, Copy, Debug, Default, PartialEq, Eq)]
pub struct TagStore {
    pub addr: u64,
    pub granules: u64,
    pub tag: u32,
    pub zero: u32,
}

/// What a heap and its memory begin with.
#[repr(C)]
#[derive(Clone, Copy, Debug, Default, PartialEq, Eq)]
pub struct HeapSetup {
    pub cookie: u32,
    pub pages: u32,
    pub asynchronous: u32,
    pub rgsr_seed: u16,
    pub rgsr_tag: u16,
}

/// A call of a heap or an access to its memory. op, first and second are read, the rest written.
#[repr(C)]
#[derive(Clone, Copy, Debug, Default, PartialEq, Eq)]
pub struct HeapCall {
    pub op: u32,
    pub code: u32,
    pub first: u64,
    pub second: u64,
    pub answer: u64,
    pub fault: Fault,
}

/// Some bytes, which are only read.
#[repr(C)]
struct Bytes {
    bytes: *const u8,
    length: usize,
}

/// How a session ended.
#[repr(C)]
#[derive(Clone, Copy, Debug, Default, PartialEq, Eq)]
pub struct SessionEnd {
    pub length: u64,
    pub line: u64,
    pub code: u32,
    pub fault: u32,
}

/// What a tenant alone is admitted with, and its slices.
#[repr(C)]
struct RawTerms {
    image: *const u8,
    image_length: usize,
    input: *const u8,
    input_length: usize,
    slices: *const u32,
    slice_count: usize,
    seed: u64,
    pages: u32,
    room: u32,
    asynchronous: u32,
    unused: u32,
}

/// A tenant's status, or zero in all fields where there is no tenant.
#[repr(C)]
#[derive(Clone, Copy, Debug, Default, PartialEq, Eq)]
pub struct Status {
    pub status: u32,
    pub number: u32,
    pub pc: u64,
    pub pointer: u64,
    pub fault: Fault,
}

/// A heap call of a tenant.
#[repr(C)]
#[derive(Clone, Copy, Debug, Default, PartialEq, Eq)]
pub struct KeptCall {
    pub service: u64,
    pub first: u64,
    pub second: u64,
    pub answer: u64,
}

/// How a tenant alone ended.
#[repr(C)]
#[derive(Clone, Copy, Debug, Default, PartialEq, Eq)]
pub struct AloneEnd {
    pub steps: u64,
    pub output: u64,
    pub calls: u64,
    pub kept: u64,
    pub status: Status,
    pub code: u32,
    pub refusal: u32,
}

/// A tenant's machine that is kept between calls, or none where `machine` is null: {0} at first.
/// What `machine` points to is the library's. It is neither read nor copied, and it is changed by
/// tb_fuzz_new and tb_fuzz_free alone. A machine is used by the thread that made it; any number of
/// threads may have machines of their own.
#[repr(C)]
struct RawFuzz {
    machine: *mut u8,
}

/// What a run of such a machine begins with.
#[repr(C)]
struct RawFuzzInput {
    input: *const u8,
    input_length: usize,
    slices: *const u32,
    slice_count: usize,
    saturating: u32,
    unused: u32,
}

/// What an exact run found: its first access to bytes of the heap that no live chunk has, or that
/// the chunk there has not. Zero but for `missed` where it found none.
#[repr(C)]
#[derive(Clone, Copy, Debug, Default, PartialEq, Eq)]
pub struct FuzzFinding {
    pub step: u64,
    pub pc: u64,
    pub addr: u64,
    pub pointer: u64,
    pub size: u64,
    pub kind: u32,
    pub write: u32,
    pub missed: u32,
    pub unused: u32,
}

/// What an instruction compared, or with what a function that compares texts was called.
#[repr(C)]
#[derive(Clone, Copy, Debug, Default, PartialEq, Eq)]
pub struct Comparison {
    pub step: u64,
    pub pc: u64,
    pub left: u64,
    pub right: u64,
    pub length: u64,
    pub kind: u32,
    pub width: u32,
}

/// What is lent for the comparisons of a run.
#[repr(C)]
struct RawComparisons {
    functions: *const u64,
    function_count: usize,
    entries: *mut Comparison,
    entry_count: usize,
}

/// A heap call in a list, whose arguments may be the answers of earlier ones: `first_of` and
/// `second_of` are 0, or the number of an earlier call of the list, from 1 on, whose answer is
/// added to call.first or call.second, modulo 2^64.
#[repr(C)]
#[derive(Clone, Copy, Debug, Default, PartialEq, Eq)]
pub struct HeapStep {
    pub call: HeapCall,
    pub first_of: u32,
    pub second_of: u32,
}

/// A chunk that is live behind heap calls.
#[repr(C)]
#[derive(Clone, Copy, Debug, Default, PartialEq, Eq)]
pub struct LiveChunk {
    pub address: u64,
    pub size: u64,
    pub call: u64,
    pub tag: u32,
    pub unused: u32,
}

/// Something that is done to a machine between its slices, or a slice. act, number, addr and value
/// are read, the rest is written.
#[repr(C)]
#[derive(Clone, Copy, Debug, Default, PartialEq, Eq)]
pub struct MachineAct {
    pub act: u32,
    pub number: u32,
    pub addr: u64,
    pub value: u64,
    pub answer: u64,
    pub code: u32,
    pub unused: u32,
    pub fault: Fault,
}

/// How a tenant's machine ended.
#[repr(C)]
#[derive(Clone, Copy, Debug, Default, PartialEq, Eq)]
pub struct MachineEnd {
    pub alone: AloneEnd,
    pub regs: Regs,
}

/// A page that is mapped.
#[repr(C)]
#[derive(Clone, Copy, Debug, Default, PartialEq, Eq)]
pub struct PageEntry {
    pub number: u64,
    pub attrs: u32,
    pub unused: u32,
}

/// What is asked of tb_run_traced. Each range has its last address in it; none may be empty.
#[repr(C)]
struct RawTraceRequest {
    stops: *const u64,
    stop_count: usize,
    steps: u64,
    code_low: u64,
    code_high: u64,
    low: u64,
    high: u64,
    kinds: u32,
    unused: u32,
}

/// An instruction that was fetched and attempted, as tb_run_traced enters it.
#[repr(C)]
#[derive(Clone, Copy, Debug, Default, PartialEq, Eq)]
pub struct TracedInstruction {
    pub step: u64,
    pub pc: u64,
    pub word: u32,
    pub unused: u32,
}

/// An access of an instruction to memory that was completed, as tb_run_traced enters it.
#[repr(C)]
#[derive(Clone, Copy, Debug, Default, PartialEq, Eq)]
pub struct TracedAccess {
    pub step: u64,
    pub pc: u64,
    pub addr: u64,
    pub value: [u64; 2],
    pub size: u32,
    pub kind: u32,
}

/// The arrays in which tb_run_traced enters instructions and accesses.
#[repr(C)]
struct RawTraceArrays {
    instructions: *mut TracedInstruction,
    instruction_room: usize,
    accesses: *mut TracedAccess,
    access_room: usize,
}

/// How a traced run ended.
#[repr(C)]
#[derive(Clone, Copy, Debug, Default, PartialEq, Eq)]
pub struct TraceReport {
    pub steps: u64,
    pub instructions: u64,
    pub accesses: u64,
    pub code: u32,
    pub number: u32,
    pub fault: Fault,
}

const _: () = assert!(size_of::<Page>() == 4368);
const _: () = assert!(size_of::<TagState>() == 8);
const _: () = assert!(size_of::<Regs>() == 272);
const _: () = assert!(size_of::<Fault>() == 24);
const _: () = assert!(size_of::<Stop>() == 40);
const _: () = assert!(size_of::<TagStore>() == 24);
const _: () = assert!(size_of::<HeapSetup>() == 16);
const _: () = assert!(size_of::<HeapCall>() == 56);
const _: () = assert!(size_of::<Bytes>() == 16);
const _: () = assert!(size_of::<SessionEnd>() == 24);
const _: () = assert!(size_of::<RawTerms>() == 72);
const _: () = assert!(size_of::<Status>() == 48);
const _: () = assert!(size_of::<KeptCall>() == 32);
const _: () = assert!(size_of::<AloneEnd>() == 88);
const _: () = assert!(size_of::<RawFuzz>() == 8);
const _: () = assert!(size_of::<RawFuzzInput>() == 40);
const _: () = assert!(size_of::<FuzzFinding>() == 56);
const _: () = assert!(size_of::<Comparison>() == 48);
const _: () = assert!(size_of::<RawComparisons>() == 32);
const _: () = assert!(size_of::<HeapStep>() == 64);
const _: () = assert!(size_of::<LiveChunk>() == 32);
const _: () = assert!(size_of::<MachineAct>() == 64);
const _: () = assert!(size_of::<MachineEnd>() == 360);
const _: () = assert!(size_of::<PageEntry>() == 16);
const _: () = assert!(size_of::<RawTraceRequest>() == 64);
const _: () = assert!(size_of::<TracedInstruction>() == 24);
const _: () = assert!(size_of::<TracedAccess>() == 48);
const _: () = assert!(size_of::<RawTraceArrays>() == 32);
const _: () = assert!(size_of::<TraceReport>() == 56);

// End of what tools/border.py writes.

// Written by tools/border.py: the calls

unsafe extern "C" {
    safe fn tb_version() -> u32;
    fn tb_build_info(text: *mut u8, room: usize) -> u32;
    fn tb_session(
        frames: u32,
        script: *const u8,
        script_length: usize,
        files: *const Bytes,
        count: usize,
        report: *mut u8,
        room: usize,
        end: *mut SessionEnd,
    ) -> u32;
    fn tb_alone(
        terms: *const RawTerms,
        output: *mut u8,
        output_room: usize,
        calls: *mut KeptCall,
        call_room: usize,
        end: *mut AloneEnd,
    ) -> u32;
    fn tb_fuzz_new(terms: *const RawTerms, fuzz: *mut RawFuzz, end: *mut AloneEnd) -> u32;
    fn tb_fuzz_run(
        fuzz: *mut RawFuzz,
        run: *const RawFuzzInput,
        map: *mut u8,
        map_length: usize,
        end: *mut AloneEnd,
    ) -> u32;
    fn tb_fuzz_run_exact(
        fuzz: *mut RawFuzz,
        run: *const RawFuzzInput,
        map: *mut u8,
        map_length: usize,
        end: *mut AloneEnd,
        finding: *mut FuzzFinding,
    ) -> u32;
    fn tb_fuzz_run_compared(
        fuzz: *mut RawFuzz,
        run: *const RawFuzzInput,
        map: *mut u8,
        map_length: usize,
        compared: *mut RawComparisons,
        end: *mut AloneEnd,
    ) -> u32;
    fn tb_fuzz_read(fuzz: *mut RawFuzz, addr: u64, buffer: *mut u8, length: usize) -> u32;
    fn tb_fuzz_free(fuzz: *mut RawFuzz);
    fn tb_machine_acts(
        terms: *const RawTerms,
        acts: *mut MachineAct,
        count: usize,
        output: *mut u8,
        output_room: usize,
        calls: *mut KeptCall,
        call_room: usize,
        end: *mut MachineEnd,
    ) -> u32;
    fn tb_machine_pages(
        terms: *const RawTerms,
        acts: *mut MachineAct,
        count: usize,
        pages: *mut PageEntry,
        room: usize,
        mapped: *mut u64,
    ) -> u32;
    fn tb_memory_init(pages: *mut Page, count: usize, state: *mut TagState, asynchronous: bool);
    fn tb_map(pages: *mut Page, count: usize, number: u64, attrs: u32) -> u32;
    fn tb_unmap(pages: *mut Page, count: usize, number: u64) -> u32;
    fn tb_read(
        pages: *mut Page,
        count: usize,
        state: *mut TagState,
        addr: u64,
        buffer: *mut u8,
        length: usize,
        check: bool,
        fault: *mut Fault,
    ) -> u32;
    fn tb_write(
        pages: *mut Page,
        count: usize,
        state: *mut TagState,
        addr: u64,
        bytes: *const u8,
        length: usize,
        check: bool,
        fault: *mut Fault,
    ) -> u32;
    fn tb_load(
        pages: *mut Page,
        count: usize,
        state: *mut TagState,
        addr: u64,
        bytes: *const u8,
        length: usize,
    ) -> u32;
    fn tb_load_tag(
        pages: *mut Page,
        count: usize,
        state: *mut TagState,
        addr: u64,
        tag: *mut u8,
        fault: *mut Fault,
    ) -> u32;
    fn tb_store_tags(
        pages: *mut Page,
        count: usize,
        state: *mut TagState,
        store: *const TagStore,
        fault: *mut Fault,
    ) -> u32;
    fn tb_step(
        pages: *mut Page,
        count: usize,
        state: *mut TagState,
        regs: *mut Regs,
        stop: *mut Stop,
    ) -> u32;
    fn tb_run(
        pages: *mut Page,
        count: usize,
        state: *mut TagState,
        regs: *mut Regs,
        steps: u64,
        stop: *mut Stop,
    ) -> u32;
    fn tb_run_until(
        pages: *mut Page,
        count: usize,
        state: *mut TagState,
        regs: *mut Regs,
        steps: u64,
        stops: *const u64,
        stop_count: usize,
        stop: *mut Stop,
    ) -> u32;
    fn tb_heap_calls(setup: *const HeapSetup, calls: *mut HeapCall, count: usize) -> u32;
    fn tb_heap_replay(
        setup: *const HeapSetup,
        steps: *mut HeapStep,
        count: usize,
        bad: *mut u64,
    ) -> u32;
    fn tb_heap_pages(
        setup: *const HeapSetup,
        steps: *mut HeapStep,
        count: usize,
        pages: *mut PageEntry,
        room: usize,
        mapped: *mut u64,
        bad: *mut u64,
    ) -> u32;
    fn tb_heap_live(
        steps: *const HeapStep,
        count: usize,
        chunks: *mut LiveChunk,
        room: usize,
        live: *mut u64,
    ) -> u32;
    fn tb_run_traced(
        pages: *mut Page,
        count: usize,
        state: *mut TagState,
        regs: *mut Regs,
        request: *const RawTraceRequest,
        entered: *mut RawTraceArrays,
        end: *mut TraceReport,
    ) -> u32;
    fn tb_disassemble(word: u32, pc: u64, text: *mut u8, room: usize) -> u32;
}

// End of what tools/border.py writes.

impl std::fmt::Display for Fault {
    /// `TagCheck: a write at 0x20020, pointer tag 5, memory tag 0`
    fn fmt(&self, f: &mut std::fmt::Formatter<'_>) -> std::fmt::Result {
        let (kind, what) =
            (fault_kind_name(self.kind), if self.write == 0 { "read" } else { "write" });
        let Fault { addr, ptr_tag, mem_tag, .. } = self;
        write!(f, "{kind}: a {what} at {addr:#x}, pointer tag {ptr_tag}, memory tag {mem_tag}")
    }
}

/// An access of an instruction to memory, as `Memory::trace` enters it.
#[derive(Clone, Copy, Debug, Default, PartialEq, Eq)]
pub struct Access {
    /// The address of the instruction.
    pub pc: u64,
    /// The address that was used, its tag in bits 59 to 56.
    pub addr: u64,
    /// The first 16 bytes there after it, the lowest first; 0 beyond `size`.
    pub value: [u64; 2],
    /// The instruction.
    pub word: u32,
    /// How many bytes: 1 to 16; of LDG and STG the granule's 16, of ST2G 32.
    pub size: u32,
    pub write: bool,
    /// The allocation tag of the granule that holds `addr`, after it.
    pub mem_tag: u32,
}

/// How many bytes a load or a store of the profile accesses, by its word: 1 to 16, of LDG, STG and
/// STZG 16, of ST2G and STZ2G 32. Of other words it says nothing.
pub fn access_size(word: u32) -> u32 {
    let bit = |n: u32| word >> n & 1 != 0;
    if word >> 24 == 0xd9 {
        return if bit(23) { 32 } else { 16 };
    }
    match word >> 27 & 7 {
        5 if bit(31) || (bit(30) && !bit(22)) => 16,
        5 => 8,
        3 if bit(30) => 8,
        3 => 4,
        _ => 1 << (word >> 30),
    }
}

// In each call below no pointer is null, since none of a slice, a vector or a reference is; each
// has the length that is passed; and what is lent for writing is borrowed by `&mut`, so it overlaps
// nothing.

/// The version of the library that was linked.
pub fn version() -> u32 {
    tb_version()
}

/// How the library was built: lines with the version of the release, the commit, whether files
/// differed from it, the toolchain's sum, and proved or unproved.
pub fn build_info() -> String {
    let mut text = [0; 160];
    let length = unsafe { tb_build_info(text.as_mut_ptr(), text.len()) } as usize;
    String::from_utf8_lossy(&text[..length.min(text.len())]).into_owned()
}

/// The report of a session: as much as there is room for, and how it ended.
pub fn session_into(
    frames: u32,
    script: &[u8],
    files: &[&[u8]],
    report: &mut [u8],
) -> SessionEnd {
    let lent: Vec<Bytes> =
        files.iter().map(|it| Bytes { bytes: it.as_ptr(), length: it.len() }).collect();
    let mut end = SessionEnd::default();
    let (text, length, room) = (script.as_ptr(), script.len(), report.len());
    let held = report.as_mut_ptr();
    unsafe { tb_session(frames, text, length, lent.as_ptr(), lent.len(), held, room, &mut end) };
    end
}

/// The whole report of a session, or how it ended.
pub fn session(frames: u32, script: &[u8], files: &[&[u8]]) -> Result<Vec<u8>, SessionEnd> {
    let mut report = vec![0; 4096];
    loop {
        let end = session_into(frames, script, files, &mut report);
        match end.code {
            TB_OK => {
                report.truncate(end.length as usize);
                return Ok(report);
            }
            TB_NO_ROOM => report.resize(end.length as usize, 0),
            _ => return Err(end),
        }
    }
}

/// What a tenant alone is admitted with.
#[derive(Clone, Copy)]
pub struct Terms<'a> {
    pub image: &'a [u8],
    pub input: &'a [u8],
    pub seed: u64,
    pub pages: u32,
    pub room: u32,
    pub asynchronous: bool,
}

impl Terms<'_> {
    fn raw(&self, slices: &[u32]) -> RawTerms {
        RawTerms {
            image: self.image.as_ptr(),
            image_length: self.image.len(),
            input: self.input.as_ptr(),
            input_length: self.input.len(),
            slices: slices.as_ptr(),
            slice_count: slices.len(),
            seed: self.seed,
            pages: self.pages,
            room: self.room,
            asynchronous: self.asynchronous.into(),
            unused: 0,
        }
    }
}

/// Admits a tenant alone, does acts to its machine in order, and copies its registers, and as much
/// of its output and of its last 64 heap calls as there is room for.
pub fn machine_acts(
    terms: &Terms<'_>,
    acts: &mut [MachineAct],
    output: &mut [u8],
    calls: &mut [KeptCall],
) -> MachineEnd {
    let raw = terms.raw(&[]);
    let mut end = MachineEnd::default();
    let (done, count) = (acts.as_mut_ptr(), acts.len());
    let (bytes, room) = (output.as_mut_ptr(), output.len());
    let (kept, most) = (calls.as_mut_ptr(), calls.len());
    unsafe { tb_machine_acts(&raw, done, count, bytes, room, kept, most, &mut end) };
    end
}

/// Does acts to a tenant's machine as `machine_acts` does, and copies as many of its pages as there
/// is room for: the answer, and how many there are.
pub fn machine_pages(
    terms: &Terms<'_>,
    acts: &mut [MachineAct],
    pages: &mut [PageEntry],
) -> (u32, u64) {
    let raw = terms.raw(&[]);
    let mut mapped = 0;
    let (done, count) = (acts.as_mut_ptr(), acts.len());
    let (entries, room) = (pages.as_mut_ptr(), pages.len());
    let code = unsafe { tb_machine_pages(&raw, done, count, entries, room, &mut mapped) };
    (code, mapped)
}

/// Runs a tenant alone for its slices, and copies as much of its output and of its last 64 heap
/// calls as there is room for.
pub fn alone(
    terms: &Terms<'_>,
    slices: &[u32],
    output: &mut [u8],
    calls: &mut [KeptCall],
) -> AloneEnd {
    let raw = terms.raw(slices);
    let mut end = AloneEnd::default();
    let (bytes, room) = (output.as_mut_ptr(), output.len());
    unsafe { tb_alone(&raw, bytes, room, calls.as_mut_ptr(), calls.len(), &mut end) };
    end
}

/// A tenant's machine that is kept as it is behind its setup: each run begins there. It stays on
/// its thread.
pub struct Fuzz {
    raw: RawFuzz,
}

impl Fuzz {
    /// Admits a tenant, runs the slices of its setup, and keeps its machine; and how it stands.
    /// The machine runs only where the code is TB_OK.
    pub fn new(terms: &Terms<'_>, setup: &[u32]) -> (Fuzz, AloneEnd) {
        let raw = terms.raw(setup);
        let mut fuzz = Fuzz { raw: RawFuzz { machine: std::ptr::null_mut() } };
        let mut end = AloneEnd::default();
        unsafe { tb_fuzz_new(&raw, &mut fuzz.raw, &mut end) };
        (fuzz, end)
    }

    /// Runs it from its setup on, with an input, and counts its edges in `map`, of a power of two
    /// of counts from 256 to 65536; a count stays at 255.
    pub fn run(&mut self, input: &[u8], slices: &[u32], map: &mut [u8]) -> AloneEnd {
        let raw = RawFuzzInput::of(input, slices);
        let mut end = AloneEnd::default();
        unsafe { tb_fuzz_run(&mut self.raw, &raw, map.as_mut_ptr(), map.len(), &mut end) };
        end
    }

    /// The same run, and the first of its accesses that goes beyond the bytes of the tenant's
    /// chunks, whatever the tags.
    pub fn run_exact(
        &mut self,
        input: &[u8],
        slices: &[u32],
        map: &mut [u8],
    ) -> (AloneEnd, FuzzFinding) {
        let raw = RawFuzzInput::of(input, slices);
        let (mut end, mut found) = (AloneEnd::default(), FuzzFinding::default());
        let (counts, length) = (map.as_mut_ptr(), map.len());
        unsafe { tb_fuzz_run_exact(&mut self.raw, &raw, counts, length, &mut end, &mut found) };
        (end, found)
    }

    /// The same run; what its instructions compare, and calls of `functions`, are entered in
    /// `entries`, of a power of two from 256 to 65536.
    pub fn run_compared(
        &mut self,
        input: &[u8],
        slices: &[u32],
        map: &mut [u8],
        functions: &[u64],
        entries: &mut [Comparison],
    ) -> AloneEnd {
        let raw = RawFuzzInput::of(input, slices);
        let mut end = AloneEnd::default();
        let mut compared = RawComparisons {
            functions: functions.as_ptr(),
            function_count: functions.len(),
            entries: entries.as_mut_ptr(),
            entry_count: entries.len(),
        };
        let (counts, length) = (map.as_mut_ptr(), map.len());
        let lent = &mut compared;
        unsafe { tb_fuzz_run_compared(&mut self.raw, &raw, counts, length, lent, &mut end) };
        end
    }

    /// Copies bytes of the machine as its last run left it, whatever their tags; and the code.
    pub fn read(&mut self, addr: u64, buffer: &mut [u8]) -> u32 {
        unsafe { tb_fuzz_read(&mut self.raw, addr, buffer.as_mut_ptr(), buffer.len()) }
    }
}

impl RawFuzzInput {
    fn of(input: &[u8], slices: &[u32]) -> RawFuzzInput {
        RawFuzzInput {
            input: input.as_ptr(),
            input_length: input.len(),
            slices: slices.as_ptr(),
            slice_count: slices.len(),
            saturating: 1,
            unused: 0,
        }
    }
}

impl Drop for Fuzz {
    fn drop(&mut self) {
        unsafe { tb_fuzz_free(&mut self.raw) };
    }
}

/// A memory with tags, of so many places for pages. A clone shares nothing.
#[derive(Clone)]
pub struct Memory {
    pub pages: Vec<Page>,
    pub state: TagState,
}

impl Memory {
    pub fn new(places: usize, asynchronous: bool) -> Memory {
        let free = Page { number: 0, mapped: 0, attrs: 0, bytes: [0; 4096], tags: [0; 256] };
        let mut memory = Memory { pages: vec![free; places], state: TagState::default() };
        let (pages, count) = memory.places();
        unsafe { tb_memory_init(pages, count, &mut memory.state, asynchronous) };
        memory
    }

    fn places(&mut self) -> (*mut Page, usize) {
        (self.pages.as_mut_ptr(), self.pages.len())
    }

    pub fn map(&mut self, number: u64, attrs: u32) -> u32 {
        let (pages, count) = self.places();
        unsafe { tb_map(pages, count, number, attrs) }
    }

    /// Maps `length` pages from the number `first` on, all of them or none.
    pub fn map_range(&mut self, first: u64, length: u64, attrs: u32) -> u32 {
        const LIMIT: u64 = 1 << 44;
        if first > LIMIT || length > LIMIT - first || attrs > 15 {
            return TB_BAD_ARGUMENT;
        }
        let range = first..first + length;
        if self.pages.iter().any(|it| it.mapped != 0 && range.contains(&it.number)) {
            return TB_ALREADY_MAPPED;
        }
        if length > self.pages.iter().filter(|it| it.mapped == 0).count() as u64 {
            return TB_NO_ROOM;
        }
        range.map(|number| self.map(number, attrs)).find(|code| *code != TB_OK).unwrap_or(TB_OK)
    }

    pub fn unmap(&mut self, number: u64) -> u32 {
        let (pages, count) = self.places();
        unsafe { tb_unmap(pages, count, number) }
    }

    pub fn read(&mut self, addr: u64, buffer: &mut [u8], fault: &mut Fault) -> u32 {
        let (pages, count) = self.places();
        let (bytes, length) = (buffer.as_mut_ptr(), buffer.len());
        unsafe { tb_read(pages, count, &mut self.state, addr, bytes, length, true, fault) }
    }

    pub fn write(&mut self, addr: u64, bytes: &[u8], fault: &mut Fault) -> u32 {
        let (pages, count) = self.places();
        let (bytes, length) = (bytes.as_ptr(), bytes.len());
        unsafe { tb_write(pages, count, &mut self.state, addr, bytes, length, true, fault) }
    }

    pub fn load(&mut self, addr: u64, bytes: &[u8]) -> u32 {
        let (pages, count) = self.places();
        unsafe { tb_load(pages, count, &mut self.state, addr, bytes.as_ptr(), bytes.len()) }
    }

    pub fn load_tag(&mut self, addr: u64, tag: &mut u8, fault: &mut Fault) -> u32 {
        let (pages, count) = self.places();
        unsafe { tb_load_tag(pages, count, &mut self.state, addr, tag, fault) }
    }

    pub fn store_tags(&mut self, addr: u64, granules: u64, tag: u8, fault: &mut Fault) -> u32 {
        let (pages, count) = self.places();
        let store = TagStore { addr, granules, tag: u32::from(tag), zero: 0 };
        unsafe { tb_store_tags(pages, count, &mut self.state, &store, fault) }
    }

    pub fn step(&mut self, regs: &mut Regs) -> Stop {
        let mut stop = Stop::default();
        let (pages, count) = self.places();
        unsafe { tb_step(pages, count, &mut self.state, regs, &mut stop) };
        stop
    }

    pub fn run(&mut self, regs: &mut Regs, steps: u64) -> Stop {
        let mut stop = Stop::default();
        let (pages, count) = self.places();
        unsafe { tb_run(pages, count, &mut self.state, regs, steps, &mut stop) };
        stop
    }

    /// The page that holds an address.
    fn page_of(&self, addr: u64) -> Option<&Page> {
        let number = (addr & ((1 << 56) - 1)) / 4096;
        self.pages.iter().find(|it| it.mapped != 0 && it.number == number)
    }

    /// The number of some bytes at an address, at most 8, the lowest first, whatever the attributes
    /// and tags of their pages; a byte that is not mapped is 0.
    pub fn peek(&self, addr: u64, length: u32) -> u64 {
        (0..u64::from(length.min(8))).fold(0, |value, i| {
            let at = addr.wrapping_add(i);
            let byte = self.page_of(at).map_or(0, |it| it.bytes[(at % 4096) as usize]);
            value | u64::from(byte) << (8 * i)
        })
    }

    /// A step that also enters the instruction's access to memory, if it has one and succeeds. Its
    /// code is `TB_NO_ROOM`, and nothing is attempted, where it may have one and `accesses` has
    /// `room` entries. It is attempted first while all pages lack READ and WRITE, so that an access
    /// faults and changes nothing, and then with the attributes that it finds.
    pub fn trace_step(
        &mut self,
        regs: &mut Regs,
        accesses: &mut Vec<Access>,
        room: usize,
    ) -> Stop {
        self.pages.iter_mut().for_each(|it| it.attrs = (it.attrs & 15) << 4 | it.attrs & TB_EXEC);
        let stop = self.step(regs);
        self.pages.iter_mut().for_each(|it| it.attrs = it.attrs >> 4 & 15);
        let is_fetched = self.page_of(regs.pc).is_some_and(|it| it.attrs & TB_EXEC != 0);
        if stop.code != TB_FAULT || stop.fault.kind != TB_PERMISSION || !is_fetched {
            return stop;
        }
        if accesses.len() >= room {
            return Stop { code: TB_NO_ROOM, ..Stop::default() };
        }
        let (pc, fault) = (regs.pc, stop.fault);
        let addr = fault.addr | u64::from(fault.ptr_tag) << 56;
        let word = self.peek(pc, 4) as u32;
        let (size, write) = (access_size(word), fault.write != 0);
        let stop = self.step(regs);
        if stop.code == TB_OK {
            let high = self.peek(addr.wrapping_add(8), size.saturating_sub(8));
            let value = [self.peek(addr, size), high];
            let tagged = self.page_of(addr).filter(|it| it.attrs & TB_TAGGED != 0);
            let granule = (addr % 4096 / 16) as usize;
            let mem_tag = tagged.map_or(0, |it| u32::from(it.tags[granule] & 15));
            accesses.push(Access { pc, addr, value, word, size, write, mem_tag });
        }
        stop
    }

    /// A run that also enters each access to memory, not the fetches of instructions. It stops
    /// with `TB_NO_ROOM` before an instruction that may have one when `accesses` has `room`
    /// entries. It is slower than `run`.
    pub fn trace(
        &mut self,
        regs: &mut Regs,
        steps: u64,
        accesses: &mut Vec<Access>,
        room: usize,
    ) -> Stop {
        let mut stop = Stop::default();
        let mut left = steps;
        while left > 0 && stop.code == TB_OK {
            stop = self.trace_step(regs, accesses, room);
            left -= u64::from(stop.code != TB_NO_ROOM);
        }
        Stop { left, ..stop }
    }

    /// A run that also stops where the PC is one of some addresses after an instruction.
    pub fn run_until(&mut self, regs: &mut Regs, steps: u64, stops: &[u64]) -> Stop {
        let mut stop = Stop::default();
        let (pages, count) = self.places();
        let (at, n) = (stops.as_ptr(), stops.len());
        unsafe { tb_run_until(pages, count, &mut self.state, regs, steps, at, n, &mut stop) };
        stop
    }
}

/// How far a traced run goes, and what of it is entered. Each range has its last address in it.
#[derive(Clone, Copy)]
pub struct TraceRequest<'a> {
    pub stops: &'a [u64],
    pub steps: u64,
    pub code: (u64, u64),
    pub data: (u64, u64),
    /// A sum of `TB_ACCESS_READ` to `TB_ACCESS_WRITE_TAG`.
    pub kinds: u32,
}

impl TraceRequest<'_> {
    /// All instructions and accesses of so many steps.
    pub fn of(steps: u64) -> TraceRequest<'static> {
        TraceRequest { stops: &[], steps, code: (0, u64::MAX), data: (0, u64::MAX), kinds: 15 }
    }
}

impl Memory {
    /// A run that also enters instructions and accesses, from the start of the slices on. It stops
    /// with `TB_NO_ROOM` where one is full; an empty one is not wanted, and never full.
    pub fn run_traced(
        &mut self,
        regs: &mut Regs,
        request: &TraceRequest<'_>,
        instructions: &mut [TracedInstruction],
        accesses: &mut [TracedAccess],
    ) -> TraceReport {
        let raw = RawTraceRequest {
            stops: request.stops.as_ptr(),
            stop_count: request.stops.len(),
            steps: request.steps,
            code_low: request.code.0,
            code_high: request.code.1,
            low: request.data.0,
            high: request.data.1,
            kinds: request.kinds,
            unused: 0,
        };
        let mut end = TraceReport::default();
        let mut entered = RawTraceArrays {
            instructions: instructions.as_mut_ptr(),
            instruction_room: instructions.len(),
            accesses: accesses.as_mut_ptr(),
            access_room: accesses.len(),
        };
        let (pages, count) = self.places();
        let state = &mut self.state;
        unsafe { tb_run_traced(pages, count, state, regs, &raw, &mut entered, &mut end) };
        end
    }
}

/// Makes the calls of a list in order on a new heap. The second number is that of the first step
/// that is none, from 1 on, or 0.
pub fn heap_replay(setup: &HeapSetup, steps: &mut [HeapStep]) -> (u32, u64) {
    let mut bad = 0;
    let code = unsafe { tb_heap_replay(setup, steps.as_mut_ptr(), steps.len(), &mut bad) };
    (code, bad)
}

/// Makes the calls of a list as `heap_replay` does, and copies as many of the heap's pages as there
/// is room for: the answer, how many there are, and the number of the first step that is none.
pub fn heap_pages(
    setup: &HeapSetup,
    steps: &mut [HeapStep],
    pages: &mut [PageEntry],
) -> (u32, u64, u64) {
    let (mut mapped, mut bad) = (0, 0);
    let (made, count) = (steps.as_mut_ptr(), steps.len());
    let (entries, room) = (pages.as_mut_ptr(), pages.len());
    let code = unsafe { tb_heap_pages(setup, made, count, entries, room, &mut mapped, &mut bad) };
    (code, mapped, bad)
}

/// Copies as many of the chunks that are live behind the calls of a list as there is room for, by
/// the answers that `heap_replay` has entered: the answer, and how many there are.
pub fn heap_live(steps: &[HeapStep], chunks: &mut [LiveChunk]) -> (u32, u64) {
    let mut live = 0;
    let (found, room) = (chunks.as_mut_ptr(), chunks.len());
    let code = unsafe { tb_heap_live(steps.as_ptr(), steps.len(), found, room, &mut live) };
    (code, live)
}

/// The text of an instruction word at an address; `None` where it is no instruction.
pub fn disassemble(word: u32, pc: u64) -> Option<String> {
    let mut text = [0; 96];
    let code = unsafe { tb_disassemble(word, pc, text.as_mut_ptr(), text.len()) };
    let length = text.iter().position(|it| *it == 0).unwrap_or(text.len());
    (code == TB_OK).then(|| String::from_utf8_lossy(&text[..length]).into_owned())
}

/// Makes heap calls in order on a new heap.
pub fn heap_calls(setup: &HeapSetup, calls: &mut [HeapCall]) -> u32 {
    unsafe { tb_heap_calls(setup, calls.as_mut_ptr(), calls.len()) }
}

/// The form of an answer of `explain`.
#[derive(Clone, Copy, Debug, PartialEq, Eq)]
#[repr(u32)]
pub enum AnswerForm {
    /// The lines that `mte_run` writes on standard error.
    Report = 0,
    /// The tenant's output.
    Output = 1,
    /// The document of `--json`.
    Json = 2,
    /// The log of `--sarif`.
    Sarif = 3,
    /// The page of `--html`.
    Page = 4,
    /// The picture of `--map`.
    Picture = 5,
    /// The counts of `--profile`.
    Profile = 6,
}

/// An image, what it may read, the name that is told as that of its file, and options of a command
/// line of `mte_run`.
#[derive(Clone, Copy, Debug)]
pub struct Question<'a> {
    pub image: &'a [u8],
    pub input: &'a [u8],
    pub name: &'a str,
    pub options: &'a [&'a str],
    pub form: AnswerForm,
}

/// What is told of a run.
#[derive(Clone, Debug, PartialEq, Eq)]
pub struct Explained {
    /// The text; where the code is `TB_BAD_ARGUMENT`, what is wrong.
    pub text: Vec<u8>,
    /// How many instructions the tenant attempted.
    pub steps: u64,
    /// `TB_OK`, `TB_BAD_ARGUMENT` or `TB_OUT_OF_MEMORY`.
    pub code: u32,
    /// The status that `mte_run` exits with.
    pub status: u32,
}

#[repr(C)]
struct RawQuestion {
    image: *const u8,
    image_length: usize,
    input: *const u8,
    input_length: usize,
    name: *const u8,
    name_length: usize,
    options: *const u8,
    options_length: usize,
    form: u32,
}

#[repr(C)]
#[derive(Default)]
struct RawExplainEnd {
    length: u64,
    steps: u64,
    code: u32,
    status: u32,
}

const _: () = assert!(size_of::<RawQuestion>() == 72);
const _: () = assert!(size_of::<RawExplainEnd>() == 24);

unsafe extern "C" {
    fn tb_explain(
        question: *const RawQuestion,
        answer: *mut u8,
        room: usize,
        end: *mut RawExplainEnd,
    ) -> u32;
}

/// Runs an image alone, and tells what `mte_run` tells of it.
pub fn explain(question: &Question<'_>) -> Explained {
    let options: String = question.options.iter().map(|it| format!("{it}\n")).collect();
    let raw = RawQuestion {
        image: question.image.as_ptr(),
        image_length: question.image.len(),
        input: question.input.as_ptr(),
        input_length: question.input.len(),
        name: question.name.as_ptr(),
        name_length: question.name.len(),
        options: options.as_ptr(),
        options_length: options.len(),
        form: question.form as u32,
    };
    let mut end = RawExplainEnd::default();
    let mut text = vec![0; 1 << 16];
    while unsafe { tb_explain(&raw, text.as_mut_ptr(), text.len(), &mut end) } == TB_NO_ROOM {
        text.resize(end.length as usize, 0);
    }
    text.truncate(end.length as usize);
    Explained { text, steps: end.steps, code: end.code, status: end.status }
}
