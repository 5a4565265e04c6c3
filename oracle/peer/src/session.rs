//! The session program: key=value lines in, answers and the board out.

use crate::board;
use crate::register::{self, Register};
use oracle::layout::{COVARIANCE_AT, MAX_TAGS, MODEL_COUNT_AT, MODELS_AT, Mask, RECORD, SPEC_AT, TAG_COUNT_AT, TAGS_AT, USED_AT};

const MOST: usize = 65_536;

/// What is printed in place of a board without bytes.
const QUIET: &str = "transmissions=0\n";

/// An operation, read and not yet done.
enum Operation {
    Summary { engine: u8, model: u8, spec: u16, inputs: Vec<u8> },
    Convict { engine: u8 },
    Report { engine: u8, record: [u8; RECORD] },
}

/// The number of a bad line.
struct Bad(usize);

struct Lines<'a> {
    rest: &'a [u8],
    /// The number of the line that is due.
    due: usize,
}

impl<'a> Lines<'a> {
    /// The value of the line that is due, which must have this key and end with a line feed.
    fn value(&mut self, key: &str) -> Result<&'a [u8], Bad> {
        let end = self.rest.iter().position(|&b| b == b'\n').ok_or(Bad(self.due))?;
        let line = &self.rest[..end];
        let value = line.strip_prefix(key.as_bytes()).and_then(|v| v.strip_prefix(b"=")).ok_or(Bad(self.due))?;
        self.rest = &self.rest[end + 1..];
        self.due += 1;
        Ok(value)
    }

    /// The value, if `read` makes something of it.
    fn read<T>(&mut self, key: &str, read: impl Fn(&[u8]) -> Option<T>) -> Result<T, Bad> {
        let at = self.due;
        read(self.value(key)?).ok_or(Bad(at))
    }
}

/// Decimal without leading zeros, a minus only on a negative number, within the width.
fn number<T: TryFrom<i128>>(text: &[u8]) -> Option<T> {
    let (negative, digits) = match text {
        [b'-', digits @ ..] => (true, digits),
        digits => (false, digits),
    };
    let plain = !digits.is_empty() && digits.len() <= 20 && digits.iter().all(u8::is_ascii_digit);
    if !plain || (digits[0] == b'0' && (digits.len() > 1 || negative)) {
        return None;
    }
    let value = digits.iter().fold(0i128, |n, d| n * 10 + i128::from(d - b'0'));
    T::try_from(if negative { -value } else { value }).ok()
}

/// Lowercase hex of one of these numbers of digits.
fn hex(text: &[u8], lengths: &[usize]) -> Option<Vec<u8>> {
    lengths.contains(&text.len()).then_some(())?;
    oracle::hex::read(std::str::from_utf8(text).ok()?)
}

fn list<T: TryFrom<i128>>(text: &[u8], most: usize) -> Option<Vec<T>> {
    let all: Vec<T> = text.split(|&b| b == b',').map(number).collect::<Option<_>>()?;
    (all.len() <= most).then_some(all)
}

fn report(lines: &mut Lines) -> Result<Operation, Bad> {
    let mut b = [0u8; RECORD];
    let engine = lines.read("engine", number::<u8>)?;
    b[..8].copy_from_slice(&lines.read("time", number::<u64>)?.to_le_bytes());
    b[8..12].copy_from_slice(&lines.read("lat", number::<i32>)?.to_le_bytes());
    b[12..16].copy_from_slice(&lines.read("lon", number::<i32>)?.to_le_bytes());
    let height = lines.read("height", |v| if v == b"none" { Some(None) } else { number::<i32>(v).map(Some) })?;
    if let Some(height) = height {
        b[16] = 1;
        b[17..21].copy_from_slice(&height.to_le_bytes());
    }
    let message = lines.read("message", |v| hex(v, &[14, 28]))?;
    b[21] = message.len() as u8;
    b[22..22 + message.len()].copy_from_slice(&message);
    let tags = lines.read("tags", |v| list::<u64>(v, MAX_TAGS))?;
    b[TAG_COUNT_AT] = tags.len() as u8;
    for (i, tag) in tags.iter().enumerate() {
        b[TAGS_AT + 8 * i..][..8].copy_from_slice(&tag.to_le_bytes());
    }
    b[USED_AT..TAGS_AT].copy_from_slice(&lines.read("used", number::<Mask>)?.to_le_bytes());
    let models = lines.read("models", |v| if v == b"none" { Some(Vec::new()) } else { list::<u8>(v, 4) })?;
    b[MODEL_COUNT_AT] = models.len() as u8;
    b[MODELS_AT..][..models.len()].copy_from_slice(&models);
    b[SPEC_AT..COVARIANCE_AT].copy_from_slice(&lines.read("spec", number::<u16>)?.to_le_bytes());
    let covariance = lines.read("cov", |v| hex(v, &[96]))?;
    for (i, value) in covariance.chunks_exact(8).enumerate() {
        let bits = u64::from_be_bytes(value.try_into().unwrap());
        b[COVARIANCE_AT + 8 * i..][..8].copy_from_slice(&bits.to_le_bytes());
    }
    Ok(Operation::Report { engine, record: b })
}

fn operation(lines: &mut Lines) -> Result<Operation, Bad> {
    let at = lines.due;
    match lines.value("op")? {
        b"summary" => Ok(Operation::Summary {
            engine: lines.read("engine", number)?,
            model: lines.read("model", number)?,
            spec: lines.read("spec", number)?,
            inputs: lines.read("inputs", |v| hex(v, &[64]))?,
        }),
        b"convict" => Ok(Operation::Convict { engine: lines.read("engine", number)? }),
        b"report" => report(lines),
        _ => Err(Bad(at)),
    }
}

/// An empty file has none.
fn operations(input: &[u8]) -> Result<Vec<Operation>, Bad> {
    let mut lines = Lines { rest: input, due: 1 };
    let mut all = Vec::new();
    while !lines.rest.is_empty() {
        all.push(operation(&mut lines)?);
    }
    Ok(all)
}

fn answer(memory: &mut [u8], operation: &Operation) -> u32 {
    match operation {
        Operation::Summary { engine, model, spec, inputs } => {
            register::summary(memory, u32::from(*engine), u32::from(*model), *spec, inputs)
        }
        Operation::Convict { engine } => register::convict(register::MANAGER, memory, u32::from(*engine)),
        Operation::Report { engine, record } => register::report(memory, u32::from(*engine), record),
    }
}

/// The register that operations leave, and what each of them answered.
fn done(all: &[Operation]) -> (Vec<u8>, Vec<u32>) {
    let mut memory = vec![0u8; register::SIZE];
    let answers = all.iter().map(|operation| answer(&mut memory, operation)).collect();
    (memory, answers)
}

/// The register that a session leaves, if its lines are good.
#[cfg(test)]
pub fn register_after(input: &[u8]) -> Option<Vec<u8>> {
    operations(input).ok().map(|all| done(&all).0)
}

/// What the program prints for an input: it acts as a manager.
pub fn session(input: &[u8]) -> String {
    session_with(input, board::text)
}

/// The same with the board as a crew sees it.
pub fn crew_session(input: &[u8]) -> String {
    session_with(input, board::crew_text)
}

fn session_with(input: &[u8], text: fn(&Register) -> String) -> String {
    if input.len() > MOST {
        return "refused=12\n".to_string();
    }
    let all = match operations(input) {
        Ok(all) => all,
        Err(Bad(line)) => return format!("refused=11 line={line}\n"),
    };
    let (memory, answers) = done(&all);
    let out: String = answers.iter().map(|answer| format!("answer={answer}\n")).collect();
    let board = text(&Register::read(&memory).expect("a register"));
    out + if board.is_empty() { QUIET } else { &board }
}
