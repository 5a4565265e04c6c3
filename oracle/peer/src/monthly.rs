//! The monthly numbers: of each engine how many held records it signed itself, and what became of them, in all transmissions.

use crate::board::{self, Standing};
use crate::register::{RECORDS, Register};
use oracle::layout::RECORD;

const ENGINES: usize = 32;

/// What became of a held record.
#[derive(Clone, Copy, Debug, PartialEq, Eq)]
pub enum Ending {
    Ranked,
    Dominated,
    Refused,
    /// Another record represents its identity.
    Other,
    /// It does not count because of a model.
    Uncounted,
}

/// What became of each record of a well-formed register, in their order.
pub fn endings(register: &Register) -> Vec<Ending> {
    let standings = board::standings(register);
    let counting = board::counting(register);
    let ending = |bytes: &[u8; RECORD]| match standings.iter().find(|(representative, _)| representative == bytes) {
        Some((_, Standing::Ranked)) => Ending::Ranked,
        Some((_, Standing::Dominated)) => Ending::Dominated,
        Some((_, Standing::Refused)) => Ending::Refused,
        None if counting.contains(bytes) => Ending::Other,
        None => Ending::Uncounted,
    };
    register.records.iter().map(|(bytes, _)| ending(bytes)).collect()
}

/// The text of a well-formed register: a line for each engine.
pub fn text(register: &Register) -> String {
    let endings = endings(register);
    assert!(endings.len() <= RECORDS);
    let mut counts = [[0; 5]; ENGINES];
    for ((_, signers), ending) in register.records.iter().zip(&endings) {
        for (engine, numbers) in counts.iter_mut().enumerate() {
            numbers[*ending as usize] += signers >> engine & 1;
        }
    }
    let line = |(engine, [ranked, dominated, refused, other, uncounted]): (usize, &[u32; 5])| {
        let held = ranked + dominated + refused + other + uncounted;
        format!(
            "engine={engine} held={held} ranked={ranked} dominated={dominated} refused={refused} other={other} uncounted={uncounted}\n"
        )
    };
    counts.iter().enumerate().map(line).collect()
}

/// What the program prints of any bytes.
pub fn monthly(memory: &[u8]) -> String {
    Register::read(memory).map_or("refused=1\n".to_string(), |register| text(&register))
}
