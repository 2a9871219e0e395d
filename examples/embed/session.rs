//! A session from Rust: the command line of mte_host, its report and its status, by tb_session.
//! usage: session --frames N SCRIPT FILE...

mod tombolopan;

use std::io::Write;
use std::process::exit;
use tombolopan::{TB_OUT_OF_MEMORY, TB_SCRIPT, script_fault_name, session};

fn read_file(name: &String) -> Vec<u8> {
    std::fs::read(name).unwrap_or_else(|_| {
        eprintln!("mte_host: cannot read {name}");
        exit(5)
    })
}

fn main() {
    let words: Vec<String> = std::env::args().collect();
    if words.len() < 4 || words[1] != "--frames" {
        exit(2);
    }
    let Ok(frames) = words[2].parse() else { exit(2) };
    let script = read_file(&words[3]);
    let files: Vec<Vec<u8>> = words[4..].iter().map(read_file).collect();
    let lent: Vec<&[u8]> = files.iter().map(Vec::as_slice).collect();
    match session(frames, &script, &lent) {
        Ok(report) => {
            if std::io::stdout().write_all(&report).is_err() {
                exit(6);
            }
        }
        Err(end) if end.code == TB_SCRIPT => {
            eprintln!("mte_host: script line {}: {}", end.line, script_fault_name(end.fault));
            exit(3);
        }
        Err(end) if end.code == TB_OUT_OF_MEMORY => {
            eprintln!("mte_host: out of memory");
            exit(4);
        }
        Err(_) => exit(2),
    }
}
