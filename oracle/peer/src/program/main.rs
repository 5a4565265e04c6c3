//! The peer as a program: a session on standard input, what it prints on standard output; with `crew`, the board
//! as a crew sees it; or `cases FOLDER`, which writes each
//! case's session and what it prints to FOLDER/NAME/stdin and FOLDER/NAME/stdout; or `map`, a register's bytes on standard input and its
//! map on standard output, or `refused=1`; or `monthly`, which reads buffers one after another, each as its length in four bytes, lowest
//! first, and its bytes, and prints of each its monthly numbers, and an empty line.

use peer::register::Register;
use std::io::{Read, Write};

fn write_cases(folder: &str) -> std::io::Result<()> {
    for (name, input) in peer::cases::cases() {
        let place = std::path::Path::new(folder).join(name);
        std::fs::create_dir_all(&place)?;
        std::fs::write(place.join("stdout"), peer::session::session(input.as_bytes()))?;
        std::fs::write(place.join("stdin"), input)?;
    }
    Ok(())
}

fn monthly(mut input: &[u8]) -> String {
    let mut text = String::new();
    while let Some((head, rest)) = input.split_first_chunk() {
        let (buffer, rest) = rest.split_at(u32::from_le_bytes(*head) as usize);
        text += &peer::monthly::monthly(buffer);
        text.push('\n');
        input = rest;
    }
    text
}

fn print(session: fn(&[u8]) -> String) -> std::io::Result<()> {
    let mut input = Vec::new();
    std::io::stdin().read_to_end(&mut input)?;
    std::io::stdout().write_all(session(&input).as_bytes())
}

fn main() -> std::io::Result<()> {
    let words: Vec<String> = std::env::args().skip(1).collect();
    match words.iter().map(String::as_str).collect::<Vec<_>>().as_slice() {
        [] => print(peer::session::session),
        ["crew"] => print(peer::session::crew_session),
        ["cases", folder] => write_cases(folder),
        [text @ ("map" | "board")] => {
            let mut memory = Vec::new();
            std::io::stdin().read_to_end(&mut memory)?;
            let write = if *text == "map" { peer::map::text } else { peer::board::text };
            let text = Register::read(&memory).map_or("refused=1".to_string(), |register| write(&register));
            std::io::stdout().write_all(text.as_bytes())
        }
        ["monthly"] => {
            let mut input = Vec::new();
            std::io::stdin().read_to_end(&mut input)?;
            std::io::stdout().write_all(monthly(&input).as_bytes())
        }
        _ => {
            eprintln!("peer [crew]: a session on standard input, or: peer cases FOLDER, or: peer map, or: peer board, or: peer monthly");
            std::process::exit(2)
        }
    }
}
