//! Previews of a conviction: the library's beside the peer's, and beside the library's own conviction and board on
//! a copy; and which kinds of them came up.

use crate::random::Random;
use crate::{binding, measured};
use peer::board::{self, ROOM};
use peer::register::{ANALYST, CREW, MANAGER, Register, struck};
use std::hint::black_box;

/// An engine that calls often name, one that they hardly name, or one that there is not.
pub fn engine(random: &mut Random) -> u32 {
    match random.below(6) {
        0 => random.pick(&[32, 255, 256, u32::MAX]),
        1 => random.pick(&[6, 30, 31]),
        _ => random.below(6) as u32,
    }
}

/// A desk: mostly a manager, else an analyst, a crew, or none that there is.
pub fn desk(random: &mut Random) -> u32 {
    match random.below(12) {
        0 => random.pick(&[3, 255, 256, 257, 258, u32::MAX]),
        1 => CREW,
        2..=4 => ANALYST,
        _ => MANAGER,
    }
}

/// The length of an output.
pub fn room(random: &mut Random) -> usize {
    match random.below(6) {
        0 => random.pick(&[0, ROOM - 1]),
        1 => random.pick(&[ROOM + 1, 20_000]),
        _ => ROOM,
    }
}

/// An answer, and the whole output after the call.
type Told = (usize, Vec<u8>);

/// A call on an output of this length. Each output begins with the same bytes, which no board has.
fn told(room: usize, call: impl FnOnce(&mut [u8]) -> usize) -> Told {
    let mut out = vec![7u8; room];
    (call(&mut out), out)
}

/// What the library's conviction and then its board say on a copy, both as a manager.
fn on_a_copy(memory: &[u8], engine: u32, room: usize) -> Told {
    let mut copy = memory.to_vec();
    told(room, |out| match binding::convict(MANAGER, &mut copy, engine) {
        0 => binding::board(MANAGER, &copy, out),
        refused => refused as usize,
    })
}

fn same(ours: &Told, other: &Told, whose: &str) -> Result<(), String> {
    if ours == other {
        return Ok(());
    }
    let alike = if ours.1 == other.1 { "alike" } else { "differ" };
    Err(format!("the library's preview answers {}, {whose} {}; outputs {alike}", ours.0, other.0))
}

/// A preview on two memories that are alike: its answer and what is counted of it, or the difference in words.
pub fn compare(a: &[u8], b: &[u8], desk: u32, engine: u32, room: usize) -> Result<(usize, Vec<&'static str>), String> {
    let ours = told(room, |out| binding::preview(desk, a, engine, out));
    same(&ours, &told(room, |out| board::preview(desk, b, engine, out)), "the peer's")?;
    // The compiler must not take it as given that the library only reads what it is lent to read.
    if black_box(a) != b {
        return Err("the library's preview changes the memory".to_string());
    }
    let asked = Asked { desk, engine, room, answer: ours.0 };
    if matches!(ours.0, 15 | 16) {
        return Ok((ours.0, of(&REFUSED, &asked)));
    }
    same(&ours, &on_a_copy(a, engine, room), "the library's board after its conviction on a copy")?;
    if matches!(ours.0, 1 | 2 | 10) {
        return Ok((ours.0, of(&REFUSED, &asked)));
    }
    let present = told(room, |out| binding::board(desk, a, out));
    let drawn = Drawn::new(asked, b, &ours, &present);
    if drawn.convicted() {
        same(&ours, &present, "its present board, though the engine is convicted,")?;
    }
    Ok((ours.0, of(&DRAWN, &drawn)))
}

struct Asked {
    desk: u32,
    engine: u32,
    room: usize,
    answer: usize,
}

/// A preview that was not refused: the register now and as it would be, the board now and the preview.
struct Drawn {
    asked: Asked,
    now: Register,
    then: Register,
    board: Vec<u8>,
    preview: Vec<u8>,
}

impl Drawn {
    fn new(asked: Asked, memory: &[u8], preview: &Told, board: &Told) -> Self {
        let text = |told: &Told| told.1[..told.0].to_vec();
        let now = Register::read(memory).expect("a register, since its preview is not refused");
        let then = struck(memory, asked.engine).expect("an engine, since its preview is not refused");
        Self { asked, now, then, board: text(board), preview: text(preview) }
    }

    fn convicted(&self) -> bool {
        self.now.convicted >> self.asked.engine & 1 == 1
    }

    /// Whether the register has a summary or a signature of the engine.
    fn holds(&self) -> bool {
        let engine = self.asked.engine;
        self.now.summaries.iter().any(|s| u32::from(s[0]) == engine)
            || self.now.records.iter().any(|(_, signers)| signers >> engine & 1 == 1)
    }

    fn text(&self) -> &str {
        str::from_utf8(&self.preview).expect("the peer's text")
    }

    fn alike(&self) -> bool {
        self.preview == self.board
    }

    /// Whether a record counts then that does not now. A conviction only takes summaries away, so a dispute kept it from counting.
    fn settles(&self) -> bool {
        let now = board::counting(&self.now);
        board::counting(&self.then).iter().any(|record| !now.contains(record))
    }
}

fn lines(text: &[u8]) -> usize {
    text.iter().filter(|&&b| b == b'\n').count()
}

/// Kinds of previews, each a name and whether one is of it.
type Kinds<T, const N: usize> = [(&'static str, fn(&T) -> bool); N];

const REFUSED: Kinds<Asked, 12> = [
    ("previews refused with 15", |a| a.answer == 15),
    ("previews refused with 15, of a desk whose last byte is one", |a| a.answer == 15 && a.desk % 256 < 3),
    ("previews refused with 15, of an engine over 31", |a| a.answer == 15 && a.engine > 31),
    ("previews refused with 16", |a| a.answer == 16),
    ("previews refused with 16, of an engine over 31", |a| a.answer == 16 && a.engine > 31),
    ("previews refused with 1", |a| a.answer == 1),
    ("previews refused with 1, of an engine over 31", |a| a.answer == 1 && a.engine > 31),
    ("previews refused with 1, with too little room", |a| a.answer == 1 && a.room < ROOM),
    ("previews refused with 2, of an engine over 31", |a| a.answer == 2),
    ("previews refused with 2, of an engine over 255", |a| a.answer == 2 && a.engine > 255),
    ("previews refused with 2, with too little room", |a| a.answer == 2 && a.room < ROOM),
    ("previews refused with 10", |a| a.answer == 10),
];

const DRAWN: Kinds<Drawn, 12> = [
    ("previews of an analyst", |d| d.asked.desk == ANALYST),
    ("previews of a convicted engine", Drawn::convicted),
    ("previews of an idle engine", |d| !d.convicted() && !d.holds()),
    ("previews of an engine with something held", Drawn::holds),
    ("previews of an engine with something held, like the present board", |d| d.holds() && d.alike()),
    ("previews like the present board", Drawn::alike),
    ("previews of no bytes though the board has some", |d| d.preview.is_empty() && !d.board.is_empty()),
    ("previews of more lines than the board", |d| lines(&d.preview) > lines(&d.board)),
    ("previews that settle a dispute: a record counts that does not now", Drawn::settles),
    ("previews into more bytes than a board needs", |d| d.asked.room > ROOM),
    ("previews with chi2=none", |d| measured::writes_none(d.text())),
    ("previews with a chi-square that is a number", |d| measured::writes_number(d.text())),
];

fn of<T, const N: usize>(kinds: &Kinds<T, N>, one: &T) -> Vec<&'static str> {
    kinds.iter().filter(|kind| kind.1(one)).map(|kind| kind.0).collect()
}

/// The kinds that a run must have, with a name for one of them.
pub fn kinds() -> (&'static str, impl Iterator<Item = &'static str>) {
    ("a kind of preview", REFUSED.iter().map(|kind| kind.0).chain(DRAWN.iter().map(|kind| kind.0)))
}
