// As fuzzed.c, over tombolopan.rs.
#[allow(dead_code)]
mod tombolopan;

use tombolopan::{AloneEnd, Comparison, Fuzz, FuzzFinding, Terms};

fn tell(what: &str, end: &AloneEnd, counts: &[u8]) {
    let sum: u32 = counts.iter().map(|it| u32::from(*it)).sum();
    let status = &end.status;
    println!("{what} {0} {0} {1} {2} {3} {sum}", end.code, status.status, end.steps, status.number);
}

fn run(fuzz: &mut Fuzz, text: &[u8], map_length: usize) {
    let mut counts = vec![0; map_length];
    let end = fuzz.run(text, &[100000], &mut counts);
    tell("run", &end, &counts);
    counts.fill(0);
    let (end, found) = fuzz.run_exact(text, &[100000], &mut counts);
    tell("exact", &end, &counts);
    assert_eq!(found, FuzzFinding::default());
    counts.fill(0);
    let mut places = vec![Comparison::default(); map_length];
    let end = fuzz.run_compared(text, &[100000], &mut counts, &[], &mut places);
    tell("compared", &end, &counts);
    let entered: Vec<_> = places.iter().filter(|it| it.kind != 0).collect();
    let at = entered.first().map_or(0, |it| it.pc);
    println!("entered {} {}", entered.len(), fuzz.read(at, &mut [0; 4]));
}

fn make(image: &[u8], pages: u32) -> Fuzz {
    let terms = Terms { image, input: &[], seed: 1, pages, room: 16, asynchronous: false };
    let (fuzz, end) = Fuzz::new(&terms, &[100000]);
    tell("new", &end, &[]);
    fuzz
}

fn main() {
    let image = std::fs::read(std::env::args().nth(1).unwrap()).unwrap();
    let mut fuzz = make(&image, 0);
    run(&mut fuzz, b"A", 256);
    fuzz = make(&image, 64);
    run(&mut fuzz, b"CARD", 256);
    run(&mut fuzz, b"CARDD\x0212", 512);
    run(&mut fuzz, b"", 512);
    run(&mut fuzz, b"CARD", 511);
    run(&mut fuzz, b"CARD", 128);
    fuzz = make(&image, 24);
    run(&mut fuzz, b"CARDN\x03abc", 512);
    drop(fuzz);
    make(&image, 24);
}
