//! The same program as embed.c, in Rust, through the same calls.
//! usage: embed IMAGE

mod tombolopan;

use tombolopan::*;

const PLACES: usize = 3;
const CODE: u64 = 0x10000;
const DATA: u64 = 0x20000;

/// Stores x2, x2 + 1, .. at x0, x1 numbers of 8 bytes.
const WORDS: [u32; 5] = [
    0xf8008402, // loop: str x2, [x0], #8
    0x91000442, //       add x2, x2, #1
    0xf1000421, //       subs x1, x1, #1
    0x54ffffa1, //       b.ne loop
    0xd4000001, //       svc #0
];

fn with_tag(address: u64, tag: u64) -> u64 {
    address | tag << 56
}

fn tell(what: &str, stop: &Stop, regs: &Regs) {
    let (code, left, pc, x1) = (stop.code, stop.left, regs.pc, regs.x[1]);
    println!("{what}: {}, {left} steps left, pc {pc:#x}, x1 {x1}", text(code));
    if code == TB_FAULT {
        let Fault { addr, kind, write, ptr_tag, mem_tag } = &stop.fault;
        let kind = fault_kind_name(*kind);
        print!("  fault {kind} at {addr:#x}, write {write}, pointer tag {ptr_tag}");
        println!(", memory tag {mem_tag}");
    }
}

/// Runs the loop from its start for `count` numbers.
fn store(memory: &mut Memory, what: &str, count: u64) {
    let mut regs = Regs { pc: CODE, ..Regs::default() };
    regs.x[0] = with_tag(DATA, 5);
    regs.x[1] = count;
    let stop = memory.run(&mut regs, 100);
    tell(what, &stop, &regs);
}

/// Ranges of pages in a memory of their own: all of a range or none.
fn map_ranges() {
    let mut own = Memory::new(PLACES, false);
    print!("ranges: {}", text(own.map_range(16, 2, TB_READ)));
    print!(", {}", text(own.map_range(15, 2, TB_READ)));
    print!(", {}", text(own.map_range(32, 2, TB_READ)));
    print!(", {}", text(own.map_range((1 << 44) - 1, 2, TB_READ)));
    print!(", {}", text(own.map_range(32, 1, TB_READ)));
    println!(", {}", text(own.unmap(15)));
}

/// The loop for three numbers, its stores entered in a list of two: it stops before the third, and
/// goes on when the list is empty again. A run over a copy leaves the same.
fn trace(memory: &mut Memory) {
    let mut accesses = Vec::new();
    let mut regs = Regs { pc: CODE, ..Regs::default() };
    regs.x[0] = with_tag(DATA, 5);
    regs.x[1] = 3;
    regs.x[2] = 70;
    let (mut copy, mut others) = (memory.clone(), regs);
    loop {
        accesses.clear();
        let stop = memory.trace(&mut regs, 100, &mut accesses, 2);
        println!("trace: {}, {} steps left", text(stop.code), stop.left);
        for Access { pc, addr, value, word, size, write, mem_tag } in &accesses {
            let write = u32::from(*write);
            print!("  pc {pc:#x}: word {word:x}, write {write} of {size} bytes at {addr:#x}");
            println!(", memory tag {mem_tag}, value {}", value[0]);
        }
        if stop.code != TB_NO_ROOM {
            break;
        }
    }
    copy.run(&mut others, 100);
    let same = |a: &Page, b: &Page| {
        a.mapped == b.mapped && a.attrs == b.attrs && a.bytes == b.bytes && a.tags == b.tags
    };
    let same_pages = copy.pages.iter().zip(&memory.pages).all(|(a, b)| same(a, b));
    let same_regs = others.x == regs.x && others.pc == regs.pc && others.nzcv == regs.nzcv;
    println!("  as a run: {} {}", u32::from(same_pages), u32::from(same_regs));
}

/// How many bytes loads and stores access, by their words.
fn tell_sizes() {
    const WORDS: [u32; 14] = [
        0xf9400022, // ldr x2, [x1]
        0xb9000022, // str w2, [x1]
        0x39400022, // ldrb w2, [x1]
        0x79800022, // ldrsh x2, [x1]
        0xa9001022, // stp x2, x4, [x1]
        0x29401022, // ldp w2, w4, [x1]
        0x69401022, // ldpsw x2, x4, [x1]
        0x69001022, // stgp x2, x4, [x1]
        0x58000102, // ldr x2, .+32
        0x18000102, // ldr w2, .+32
        0x98000102, // ldrsw x2, .+32
        0xd9600022, // ldg x2, [x1]
        0xd9600821, // stzg x1, [x1]
        0xd9e00821, // stz2g x1, [x1]
    ];
    print!("sizes:");
    WORDS.iter().for_each(|word| print!(" {}", access_size(*word)));
    println!();
}

/// The text of each code, and the names of what codes do not say.
fn tell_texts() {
    for i in 0..16 {
        let (code, kind, abort) = (text(i), fault_kind_name(i), heap_abort_name(i));
        let (script, refusal) = (script_fault_name(i), refusal_name(i));
        let status = tenant_status_name(i);
        println!("{i}: {code}; {kind}, {abort}, {script}, {refusal}, {status}");
    }
}

/// A chunk is stored to, loaded, freed, loaded again and freed again.
fn use_a_heap() {
    const CHUNK: u64 = 0x0100000012000010;
    let mut setup =
        HeapSetup { cookie: 1, pages: 64, asynchronous: 0, rgsr_seed: 1, rgsr_tag: 0 };
    let mut calls: Vec<HeapCall> = [
        (TB_MALLOC, 24, 0),
        (TB_STORE, CHUNK, 42),
        (TB_LOAD, CHUNK, 0),
        (TB_FREE, CHUNK, 0),
        (TB_LOAD, CHUNK, 0),
        (TB_FREE, CHUNK, 0),
        (0, 0, 0),
    ]
    .map(|(op, first, second)| HeapCall { op, first, second, ..HeapCall::default() })
    .into();
    println!("heap calls: {}", heap_calls(&setup, &mut calls));
    for call in &calls {
        println!(
            "  op {}: code {}, answer {:#x}, fault {}, memory tag {}",
            call.op, call.code, call.answer, call.fault.kind, call.fault.mem_tag
        );
    }
    setup.pages = 4097;
    println!("too many pages: {}", heap_calls(&setup, &mut calls));
}

/// What the tenant of an image is admitted with.
fn terms_of(image: &[u8]) -> Terms<'_> {
    Terms { image, input: &[], seed: 1, pages: 5, room: 16, asynchronous: false }
}

/// Runs the tenant of an image: with room for its output, without, and of half its image.
fn use_a_tenant(image: &[u8]) {
    let (mut output, mut calls) = ([0; 16], [KeptCall::default()]);
    let end = alone(&terms_of(image), &[5, 100], &mut output, &mut calls);
    print!("tenant: {}, status {} number {}", end.code, end.status.status, end.status.number);
    let wrote = String::from_utf8_lossy(&output[..end.output as usize]);
    println!(", {} steps, {} heap calls, wrote {wrote}", end.steps, end.calls);
    let end = alone(&terms_of(image), &[5, 100], &mut output[..1], &mut []);
    println!("no room: {}, it wrote {} bytes", end.code, end.output);
    let end = alone(&terms_of(&image[..63]), &[], &mut output, &mut []);
    println!("half an image: {}, refusal {}", end.code, end.refusal);
}

/// A session whose script has a faulty line, and one on a host without frames.
fn use_sessions() {
    let end = session_into(1, b"# no event\nslice 1\n", &[], &mut [0]);
    println!("script: {}, line {}, fault {}", end.code, end.line, end.fault);
    println!("no frames: {}", session_into(0, b"", &[], &mut [0]).code);
    let end = session_into(1, b"", &[], &mut [0]);
    println!("no events: {}, a report of {} bytes", end.code, end.length);
}

fn main() {
    let image = std::fs::read(std::env::args().nth(1).expect("usage: embed IMAGE"))
        .expect("the image cannot be read");
    let mut fault = Fault::default();
    let mut regs = Regs::default();
    let mut tag = 0;
    let mut bytes = [0; 32];

    assert_eq!(version(), TB_VERSION);
    println!("version {}", version());
    let mut memory = Memory::new(PLACES, false);
    print!("map: {}", memory.map(CODE / 4096, TB_READ | TB_EXEC));
    print!(" {}", memory.map(DATA / 4096, TB_READ | TB_WRITE | TB_TAGGED));
    print!(" again {}", memory.map(DATA / 4096, TB_READ));
    println!(" attributes {}", memory.map(1, 16));

    // The code page may be loaded, and not written.
    let code: Vec<u8> = WORDS.iter().flat_map(|word| word.to_le_bytes()).collect();
    print!("load: {}", memory.load(CODE, &code));
    println!(" {}", memory.load(CODE + 4092, &code));
    print!("write to code: {}", memory.write(CODE, &bytes, &mut fault));
    println!(", fault {}", fault.kind);

    // Two granules of 16 bytes get the tag 5; the third keeps 0.
    print!("tags: {}", memory.store_tags(DATA, 2, 5, &mut fault));
    print!(" {}", memory.load_tag(DATA + 31, &mut tag, &mut fault));
    println!(" tag {tag}");

    store(&mut memory, "four numbers", 4);
    print!("read: {}", memory.read(with_tag(DATA, 5), &mut bytes, &mut fault));
    println!(", last number {}", bytes[24]);
    print!("read by another tag: {}", memory.read(with_tag(DATA, 6), &mut bytes, &mut fault));
    println!(", fault {}", fault.kind);

    // To the second store and to the instruction behind the loop.
    regs.pc = CODE;
    regs.x[0] = with_tag(DATA, 5);
    regs.x[1] = 2;
    for _ in 0..3 {
        let stop = memory.run_until(&mut regs, 100, &[0x10000, 0x10010]);
        tell("until", &stop, &regs);
    }

    trace(&mut memory);
    store(&mut memory, "five numbers", 5);
    memory.state.asynchronous = 1;
    store(&mut memory, "five numbers, asynchronous", 5);
    println!("pending {}", memory.state.pending);

    regs.pc = CODE + 20;
    let stop = memory.step(&mut regs);
    println!("step: {}, word {}", stop.code, stop.number);
    print!("unmap: {}", memory.unmap(CODE / 4096));
    println!(" {}", memory.unmap(CODE / 4096));
    store(&mut memory, "no code", 1);
    use_a_heap();
    use_a_tenant(&image);
    use_sessions();
    map_ranges();
    tell_sizes();
    tell_texts();
}
