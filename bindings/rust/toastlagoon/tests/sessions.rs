//! The worked sessions of examples/session, call by call: what is printed is what stands beside each session.

use std::collections::BTreeMap;
use std::fmt::Write;
use std::fs;

use toastlagoon::{Covariance, Desk, Error, Fields, Record, Register, session_reason};

const SESSIONS: [&str; 5] = ["north", "south", "struck", "quiet", "worked"];

type Operation<'a> = BTreeMap<&'a str, &'a str>;

fn number<T: std::str::FromStr<Err = impl std::fmt::Debug>>(operation: &Operation, key: &str) -> T {
    operation[key].parse().unwrap()
}

fn list<T: std::str::FromStr<Err = impl std::fmt::Debug>>(operation: &Operation, key: &str) -> Vec<T> {
    operation[key].split(',').filter(|word| *word != "none").map(|word| word.parse().unwrap()).collect()
}

fn bytes(hex: &str) -> Vec<u8> {
    (0..hex.len()).step_by(2).map(|at| u8::from_str_radix(&hex[at..at + 2], 16).unwrap()).collect()
}

fn record(operation: &Operation) -> Result<Record, Error> {
    let numbers: Vec<f64> =
        (0..6).map(|i| f64::from_bits(u64::from_str_radix(&operation["cov"][16 * i..][..16], 16).unwrap())).collect();
    let [xx, xy, xz, yy, yz, zz] = numbers[..] else { unreachable!() };
    Record::new(&Fields {
        time: number(operation, "time"),
        lat: number(operation, "lat"),
        lon: number(operation, "lon"),
        height: operation["height"].parse().ok(),
        message: &bytes(operation["message"]),
        tags: &list(operation, "tags"),
        used: number(operation, "used"),
        models: &list(operation, "models"),
        spec: number(operation, "spec"),
        covariance: Covariance { xx, xy, xz, yy, yz, zz },
    })
}

fn perform(register: &mut Register, operation: &Operation) -> Result<(), Error> {
    let engine = number(operation, "engine");
    match operation["op"] {
        "summary" => {
            let inputs = bytes(operation["inputs"]).try_into().unwrap();
            register.summary(engine, number(operation, "model"), number(operation, "spec"), &inputs)
        }
        "report" => register.report(engine, &record(operation)?),
        "convict" => register.convict(Desk::Manager, engine),
        other => panic!("op={other}"),
    }
}

fn printed(session: &str) -> String {
    let mut operations: Vec<Operation> = Vec::new();
    for line in session.lines() {
        let (key, value) = line.split_once('=').unwrap();
        if key == "op" {
            operations.push(Operation::new());
        }
        operations.last_mut().unwrap().insert(key, value);
    }
    let mut register = Register::new();
    let answers: Vec<_> = operations.iter().map(|operation| perform(&mut register, operation)).collect();
    // The library performs the whole session in one call, and leaves the same register.
    let mut whole = Register::new();
    assert_eq!(whole.perform(session).unwrap(), answers);
    assert_eq!(whole, register);
    let mut text = String::new();
    for answer in answers {
        writeln!(text, "answer={}", answer.map_or_else(Error::number, |()| 0)).unwrap();
    }
    let board = register.board(Desk::Manager).unwrap();
    text + if board.is_empty() { "transmissions=0\n" } else { board.as_str() }
}

#[test]
fn worked_sessions() {
    let folder = concat!(env!("CARGO_MANIFEST_DIR"), "/../../../examples/session");
    for name in SESSIONS {
        let read = |ending| fs::read_to_string(format!("{folder}/{name}.{ending}")).unwrap();
        assert_eq!(printed(&read("session")), read("stdout"), "{name}");
    }
}

#[test]
fn refused_sessions() {
    let mut register = Register::new();
    assert_eq!(register.perform("op=convict\nengine=7\nop=convict\nengine=07\n"), Err(Error::BadLine));
    assert_eq!(register.perform(vec![b'o'; 65537]), Err(Error::SessionTooLong));
    assert_eq!(register, Register::new());
    assert_eq!(register.perform("op=convict\nengine=7\nop=convict\nengine=32\n"), Ok(vec![Ok(()), Err(Error::EngineOver31)]));
    assert_eq!(register.convicted(), 1 << 7);
    assert_eq!(register.perform(""), Ok(vec![]));
    assert_eq!(session_reason(""), None);
    let reason = session_reason("op=convict\r\n").unwrap();
    assert_eq!(
        reason,
        "line 1: op= is due, then summary, convict or report, then a line feed; \
         found 'op=convict\\x0d', with a carriage return before the line feed\n"
    );
}
