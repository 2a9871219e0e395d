//! Answers the lines of calls.c by tombolopan.rs, where it has the calls: accesses compare tags,
//! and a store of tags leaves the bytes.

mod tombolopan;

use std::io::BufRead;
use std::str::SplitWhitespace;
use tombolopan::*;

struct Calls {
    memory: Memory,
    regs: Regs,
}

fn number(words: &mut SplitWhitespace<'_>) -> u64 {
    let word = words.next().expect("a number");
    match word.strip_prefix("0x") {
        Some(digits) => u64::from_str_radix(digits, 16).expect("hexadecimal digits"),
        None => word.parse().expect("digits"),
    }
}

fn bytes(words: &mut SplitWhitespace<'_>) -> Vec<u8> {
    let word = words.next().expect("bytes");
    let pair = |at: usize| u8::from_str_radix(&word[2 * at..2 * at + 2], 16).expect("digits");
    if word == "-" { Vec::new() } else { (0..word.len() / 2).map(pair).collect() }
}

fn told(numbers: &[u64]) -> String {
    numbers.iter().map(|it| format!(" {it:x}")).collect()
}

fn hexed(bytes: &[u8]) -> String {
    let digits: String = bytes.iter().map(|it| format!("{it:02x}")).collect();
    format!(" {}", if digits.is_empty() { "-" } else { &digits })
}

fn fault_of(it: &Fault) -> String {
    told(&[it.addr, it.kind.into(), it.write.into(), it.ptr_tag.into(), it.mem_tag.into()])
}

fn stop_of(it: &Stop) -> String {
    told(&[it.code.into(), it.left, it.code.into(), it.number.into()]) + &fault_of(&it.fault)
}

/// A fault with a number of its own everywhere, so that a field which is not written is seen.
fn filled_fault() -> Fault {
    Fault { addr: !0, kind: !0, write: !0, ptr_tag: !0, mem_tag: !0 }
}

impl Calls {
    fn pages(&mut self, what: &str, words: &mut SplitWhitespace<'_>) -> Option<String> {
        let code = match what {
            "version" => version(),
            "map" => self.memory.map(number(words), number(words) as u32),
            "range" => self.memory.map_range(number(words), number(words), number(words) as u32),
            "unmap" => self.memory.unmap(number(words)),
            "load" => self.memory.load(number(words), &bytes(words)),
            "build_info" => {
                let text = build_info();
                return Some(format!(" {} {:x}", text.lines().next()?, text.len()));
            }
            "size" => access_size(number(words) as u32),
            _ => return None,
        };
        Some(told(&[code.into()]))
    }

    fn places(&mut self, words: &mut SplitWhitespace<'_>) -> String {
        self.memory = Memory::new(number(words) as usize, number(words) != 0);
        let state = self.memory.state;
        told(&[state.asynchronous.into(), state.pending.into()])
    }

    fn write(&mut self, words: &mut SplitWhitespace<'_>) -> String {
        let (mut fault, addr) = (filled_fault(), number(words));
        assert_eq!(number(words), 1, "tags are compared");
        let code = self.memory.write(addr, &bytes(words), &mut fault);
        told(&[code.into()]) + &fault_of(&fault) + &told(&[self.memory.state.pending.into()])
    }

    fn read(&mut self, words: &mut SplitWhitespace<'_>) -> String {
        let (mut fault, addr) = (filled_fault(), number(words));
        assert_eq!(number(words), 1, "tags are compared");
        let mut buffer = vec![0; number(words) as usize];
        let code = self.memory.read(addr, &mut buffer, &mut fault);
        let text = told(&[code.into()]) + &fault_of(&fault) + &hexed(&buffer);
        text + &told(&[self.memory.state.pending.into()])
    }

    fn load_tag(&mut self, words: &mut SplitWhitespace<'_>) -> String {
        let (mut fault, mut tag) = (filled_fault(), 0xee);
        let code = self.memory.load_tag(number(words), &mut tag, &mut fault);
        told(&[code.into(), tag.into()]) + &fault_of(&fault)
    }

    fn store_tags(&mut self, words: &mut SplitWhitespace<'_>) -> String {
        let (mut fault, addr, granules) = (filled_fault(), number(words), number(words));
        let tag = number(words) as u8;
        assert_eq!(number(words), 0, "the bytes stay");
        let code = self.memory.store_tags(addr, granules, tag, &mut fault);
        told(&[code.into()]) + &fault_of(&fault)
    }

    fn set(&mut self, words: &mut SplitWhitespace<'_>) -> String {
        self.regs.x.iter_mut().for_each(|it| *it = number(words));
        self.regs.sp = number(words);
        self.regs.pc = number(words);
        self.regs.nzcv = number(words) as u32;
        self.regs.rgsr_seed = number(words) as u16;
        self.regs.rgsr_tag = number(words) as u16;
        String::new()
    }

    fn registers(&self) -> String {
        let Regs { x, sp, pc, nzcv, rgsr_seed, rgsr_tag } = self.regs;
        told(&x) + &told(&[sp, pc, nzcv.into(), rgsr_seed.into(), rgsr_tag.into()])
    }

    fn until(&mut self, words: &mut SplitWhitespace<'_>) -> String {
        let (steps, count) = (number(words), number(words));
        let stops: Vec<u64> = (0..count).map(|_| number(words)).collect();
        stop_of(&self.memory.run_until(&mut self.regs, steps, &stops))
    }

    fn trace(&mut self, words: &mut SplitWhitespace<'_>) -> String {
        let (steps, room) = (number(words), number(words) as usize);
        let mut accesses = Vec::new();
        let stop = self.memory.trace(&mut self.regs, steps, &mut accesses, room);
        let mut text = stop_of(&stop);
        for Access { pc, addr, value, word, size, write, mem_tag } in accesses {
            text += " |";
            text += &told(&[pc, addr, value[0], value[1], word.into(), size.into()]);
            text += &told(&[write.into(), mem_tag.into()]);
        }
        text
    }

    fn traced(&mut self, words: &mut SplitWhitespace<'_>) -> String {
        let (most, room) = (number(words) as usize, number(words) as usize);
        let (steps, kinds) = (number(words), number(words) as u32);
        let (code, data) = ((number(words), number(words)), (number(words), number(words)));
        let stops: Vec<u64> = (0..number(words)).map(|_| number(words)).collect();
        let request = TraceRequest { stops: &stops, steps, code, data, kinds };
        let mut instructions = vec![TracedInstruction::default(); most];
        let mut accesses = vec![TracedAccess::default(); room];
        let TraceReport { steps, instructions: count, accesses: entered, code, number, fault } =
            self.memory.run_traced(&mut self.regs, &request, &mut instructions, &mut accesses);
        let mut text = told(&[code.into(), steps, count, entered, code.into(), number.into()]);
        text += &fault_of(&fault);
        for TracedInstruction { step, pc, word, unused } in instructions.iter().take(count as usize)
        {
            text += " |";
            text += &told(&[*step, *pc, (*word).into(), (*unused).into()]);
        }
        for TracedAccess { step, pc, addr, value, size, kind } in
            accesses.iter().take(entered as usize)
        {
            text += " >";
            text += &told(&[*step, *pc, *addr, value[0], value[1], (*size).into(), (*kind).into()]);
        }
        text
    }

    fn place(&self, words: &mut SplitWhitespace<'_>) -> String {
        let it = &self.memory.pages[number(words) as usize];
        let sum = |of: &[u8]| of.iter().zip(1..).map(|(byte, at)| u64::from(*byte) * at).sum();
        told(&[it.number, it.mapped.into(), it.attrs.into(), sum(&it.bytes), sum(&it.tags)])
    }

    fn answer(&mut self, what: &str, words: &mut SplitWhitespace<'_>) -> String {
        if let Some(text) = self.pages(what, words) {
            return text;
        }
        match what {
            "places" => self.places(words),
            "write" => self.write(words),
            "read" => self.read(words),
            "load_tag" => self.load_tag(words),
            "store_tags" => self.store_tags(words),
            "set" => self.set(words),
            "registers" => self.registers(),
            "step" => stop_of(&self.memory.step(&mut self.regs)),
            "run" => stop_of(&self.memory.run(&mut self.regs, number(words))),
            "until" => self.until(words),
            "trace" => self.trace(words),
            "traced" => self.traced(words),
            "replay" => replay(words),
            "heap_mapped" => heap_mapped(words),
            "live" => live_of(words),
            "peek" => told(&[self.memory.peek(number(words), number(words) as u32)]),
            "place" => self.place(words),
            "heap" => heap(words),
            "session" => session_of(words),
            "alone" => alone_of(words),
            "machine" => machine_of(words),
            "mapped" => mapped_of(words),
            "texts" => texts(number(words) as u32),
            _ => panic!("{what}"),
        }
    }
}

fn steps_of(words: &mut SplitWhitespace<'_>) -> Vec<HeapStep> {
    (0..number(words))
        .map(|_| {
            let op = number(words) as u32;
            let (first, second) = (number(words), number(words));
            let call = HeapCall { op, first, second, ..HeapCall::default() };
            HeapStep { call, first_of: number(words) as u32, second_of: number(words) as u32 }
        })
        .collect()
}

fn live_of(words: &mut SplitWhitespace<'_>) -> String {
    let setup = setup(words);
    let mut chunks = vec![LiveChunk::default(); number(words) as usize];
    let mut steps = steps_of(words);
    let (code, _) = heap_replay(&setup, &mut steps);
    let (answer, live) = heap_live(&steps, &mut chunks);
    let mut text = told(&[code.into(), answer.into(), live]);
    for it in &chunks[..chunks.len().min(live as usize)] {
        text += &told(&[it.address, it.size, it.call, it.tag.into(), it.unused.into()]);
    }
    text
}

fn heap_mapped(words: &mut SplitWhitespace<'_>) -> String {
    let setup = setup(words);
    let mut pages = vec![PageEntry::default(); number(words) as usize];
    let mut steps = steps_of(words);
    let (code, mapped, bad) = heap_pages(&setup, &mut steps, &mut pages);
    let told_pages = &pages[..pages.len().min(mapped as usize)];
    let sum = told_pages.iter().map(|it| it.number * 16 + u64::from(it.attrs)).sum();
    let mut text = told(&[code.into(), mapped, bad, sum]);
    for HeapStep { call, .. } in &steps {
        text += &told(&[call.code.into(), call.answer]);
    }
    text
}

fn replay(words: &mut SplitWhitespace<'_>) -> String {
    let setup = setup(words);
    let mut steps = steps_of(words);
    let (code, bad) = heap_replay(&setup, &mut steps);
    let mut text = told(&[code.into(), bad]);
    for HeapStep { call, first_of, second_of } in &steps {
        text += " |";
        text += &told(&[call.op.into(), call.code.into(), call.first, call.second, call.answer]);
        text += &fault_of(&call.fault);
        text += &told(&[(*first_of).into(), (*second_of).into()]);
    }
    text
}

fn setup(words: &mut SplitWhitespace<'_>) -> HeapSetup {
    HeapSetup {
        cookie: number(words) as u32,
        pages: number(words) as u32,
        asynchronous: number(words) as u32,
        rgsr_seed: number(words) as u16,
        rgsr_tag: number(words) as u16,
    }
}

fn heap(words: &mut SplitWhitespace<'_>) -> String {
    let setup = setup(words);
    let count = number(words);
    let mut call = || HeapCall {
        op: number(words) as u32,
        first: number(words),
        second: number(words),
        ..HeapCall::default()
    };
    let mut calls: Vec<HeapCall> = (0..count).map(|_| call()).collect();
    let mut text = told(&[heap_calls(&setup, &mut calls).into()]);
    for it in &calls {
        let HeapCall { op, code, first, second, answer, fault } = it;
        text += " |";
        text += &told(&[(*op).into(), (*code).into(), *first, *second, *answer]);
        text += &fault_of(fault);
    }
    text
}

fn session_of(words: &mut SplitWhitespace<'_>) -> String {
    let (frames, room) = (number(words) as u32, number(words) as usize);
    let script = bytes(words);
    let count = number(words);
    let files: Vec<Vec<u8>> = (0..count).map(|_| bytes(words)).collect();
    let lent: Vec<&[u8]> = files.iter().map(Vec::as_slice).collect();
    let mut report = vec![0xee; room];
    let end = session_into(frames, &script, &lent, &mut report);
    let SessionEnd { length, line, code, fault } = end;
    told(&[code.into(), length, line, code.into(), fault.into()]) + &hexed(&report)
}

fn alone_of(words: &mut SplitWhitespace<'_>) -> String {
    let (image, input) = (bytes(words), bytes(words));
    let terms = Terms {
        image: &image,
        input: &input,
        seed: number(words),
        pages: number(words) as u32,
        room: number(words) as u32,
        asynchronous: number(words) != 0,
    };
    let (mut output, call_room) = (vec![0; number(words) as usize], number(words) as usize);
    let mut calls = vec![KeptCall::default(); call_room];
    let count = number(words);
    let slices: Vec<u32> = (0..count).map(|_| number(words) as u32).collect();
    let end = alone(&terms, &slices, &mut output, &mut calls);
    let Status { status, number, pc, pointer, fault } = end.status;
    let code = u64::from(end.code);
    let mut text = told(&[code, end.steps, end.output, end.calls, end.kept, code]);
    text += &told(&[end.refusal.into(), status.into(), number.into(), pc, pointer]);
    text += &fault_of(&fault);
    text += &hexed(&output);
    for it in &calls {
        text += " |";
        text += &told(&[it.service, it.first, it.second, it.answer]);
    }
    text
}

fn terms_of<'a>(image: &'a [u8], input: &'a [u8], words: &mut SplitWhitespace<'_>) -> Terms<'a> {
    Terms {
        image,
        input,
        seed: number(words),
        pages: number(words) as u32,
        room: number(words) as u32,
        asynchronous: number(words) != 0,
    }
}

fn acts_of(words: &mut SplitWhitespace<'_>) -> Vec<MachineAct> {
    let count = number(words);
    let act = |words: &mut SplitWhitespace<'_>| MachineAct {
        act: number(words) as u32,
        number: number(words) as u32,
        addr: number(words),
        value: number(words),
        ..MachineAct::default()
    };
    (0..count).map(|_| act(words)).collect()
}

fn machine_of(words: &mut SplitWhitespace<'_>) -> String {
    let (image, input) = (bytes(words), bytes(words));
    let terms = terms_of(&image, &input, words);
    let mut acts = acts_of(words);
    let (mut output, mut calls) = (vec![0; 16], vec![KeptCall::default(); 4]);
    let MachineEnd { alone: end, regs } = machine_acts(&terms, &mut acts, &mut output, &mut calls);
    let Status { status, number, pc, pointer, fault } = end.status;
    let code = u64::from(end.code);
    let mut text = told(&[code, end.steps, end.output, end.calls, end.kept, code]);
    text += &told(&[end.refusal.into(), status.into(), number.into(), pc, pointer]);
    text += &fault_of(&fault);
    text += &told(&[regs.x[0], regs.x[30], regs.sp, regs.pc]);
    text += &hexed(&output);
    for it in &acts {
        text += " |";
        text += &told(&[it.code.into(), it.answer]);
        text += &fault_of(&it.fault);
    }
    text
}

fn mapped_of(words: &mut SplitWhitespace<'_>) -> String {
    let (image, input) = (bytes(words), bytes(words));
    let terms = terms_of(&image, &input, words);
    let mut pages = vec![PageEntry::default(); number(words) as usize];
    let (code, mapped) = machine_pages(&terms, &mut acts_of(words), &mut pages);
    let told_pages = &pages[..pages.len().min(mapped as usize)];
    let sum = told_pages.iter().map(|it| it.number * 16 + u64::from(it.attrs)).sum();
    told(&[code.into(), mapped, sum])
}

fn texts(it: u32) -> String {
    let names = [
        text(it),
        fault_kind_name(it),
        heap_abort_name(it),
        script_fault_name(it),
        refusal_name(it),
        tenant_status_name(it),
        trespass_name(it),
        comparison_name(it),
    ];
    format!(" {}", names.join("; "))
}

fn main() {
    let mut calls = Calls { memory: Memory::new(1, false), regs: Regs::default() };
    for line in std::io::stdin().lock().lines() {
        let line = line.expect("a line of text");
        let mut words = line.split_whitespace();
        if let Some(what) = words.next() {
            println!("{what}:{}", calls.answer(what, &mut words));
        }
    }
}
