//! Requests on standard input, one a line; answers on standard output, one a line. README.md has the lines.

mod pictures;

use oracle::{Claim, Record, hex, track::Track};
use std::io::{BufRead, Write};

/// The words of a request, taken one by one.
struct Words<'a>(std::str::SplitAsciiWhitespace<'a>);

impl<'a> Words<'a> {
    fn word(&mut self) -> Result<&'a str, String> {
        self.0.next().ok_or_else(|| "a word is missing".to_string())
    }

    fn number<T: std::str::FromStr>(&mut self) -> Result<T, String> {
        let word = self.word()?;
        word.parse().map_err(|_| format!("not a number here: {word}"))
    }

    fn bytes(&mut self) -> Result<Vec<u8>, String> {
        match self.word()? {
            "-" => Ok(Vec::new()),
            word => hex::read(word).ok_or_else(|| "not lowercase hex".to_string()),
        }
    }

    fn height(&mut self) -> Result<Option<i32>, String> {
        match self.word()? {
            "none" => Ok(None),
            word => word.parse().map(Some).map_err(|_| format!("not a height: {word}")),
        }
    }

    fn covariance(&mut self) -> Result<[f64; 6], String> {
        let bytes = self.bytes()?;
        if bytes.len() != 48 {
            return Err("a covariance has 96 hex digits".to_string());
        }
        let mut values = [0.0; 6];
        for (value, eight) in values.iter_mut().zip(bytes.chunks_exact(8)) {
            *value = f64::from_bits(u64::from_be_bytes(eight.try_into().unwrap()));
        }
        Ok(values)
    }

    fn claim(&mut self) -> Result<Claim, String> {
        Ok(Claim { lat: self.number()?, lon: self.number()?, height: self.height()?, covariance: self.covariance()? })
    }
}

/// A list of numbers with commas, or `none`.
fn list<T: std::str::FromStr>(word: &str) -> Result<Vec<T>, String> {
    if word == "none" {
        return Ok(Vec::new());
    }
    word.split(',').map(|one| one.parse().map_err(|_| format!("not a list of numbers: {word}"))).collect()
}

fn record(words: &mut Words) -> Result<String, String> {
    let made = Record {
        time: words.number()?,
        lat: words.number()?,
        lon: words.number()?,
        height: words.height()?,
        message: words.bytes()?,
        tags: list(words.word()?)?,
        used: words.number()?,
        models: list(words.word()?)?,
        spec: words.number()?,
        covariance: words.covariance()?,
    };
    if !matches!(made.message.len(), 7 | 14) || made.tags.len() > oracle::layout::MAX_TAGS || made.models.len() > 4 {
        return Err("no record has room for that".to_string());
    }
    Ok(hex::write(&made.write()))
}

fn with_state(answer: impl std::fmt::Display, track: &Track) -> String {
    format!("answer={answer} state={}", hex::write(&track.bytes()))
}

fn decision(decided: Option<oracle::decide::Decision>) -> String {
    decided.map_or("answer=8".to_string(), |decision| decision.line())
}

fn answer(line: &str, track: &mut Track) -> Result<String, String> {
    let mut words = Words(line.split_ascii_whitespace());
    let told = match words.word()? {
        "agreement" => {
            let (smaller, larger) = (words.claim()?, words.claim()?);
            oracle::measured::outcome(&smaller, &larger).to_string()
        }
        "sigma" => format!("sigma={:016x}", oracle::bits(oracle::horizontal_sigma(&words.covariance()?))),
        "sincos" => {
            let (sine, cosine) = oracle::sincos(words.number::<i32>()?.into());
            format!("sine={:016x} cosine={:016x}", sine.to_bits(), cosine.to_bits())
        }
        "hash" => hex::write(&oracle::blake2s256(&words.bytes()?)),
        "record" => record(&mut words)?,
        "decide" => decision(oracle::decide::decide(&words.bytes()?)),
        "decide-any" => decision(oracle::decide::decide_any(&words.bytes()?)),
        "fresh" => {
            *track = Track::default();
            with_state(0, track)
        }
        "summary" => {
            let told = track.summary(words.number()?, words.number()?, words.number()?, &words.bytes()?);
            with_state(told, track)
        }
        "report" => {
            let told = track.report(words.number()?, &words.bytes()?);
            with_state(told, track)
        }
        "convict" => {
            let told = track.convict(words.number()?);
            with_state(told, track)
        }
        other => return Err(format!("no such request: {other}")),
    };
    match words.0.next() {
        None => Ok(told),
        Some(word) => Err(format!("a word too many: {word}")),
    }
}

/// Runs each of the 2^32 angles through the Rust's radians and back.
fn angles() {
    let lost = (i32::MIN..=i32::MAX).filter(|&v| !oracle::found_again(v)).count();
    println!("angles not found again: {lost}");
}

fn main() {
    match std::env::args().nth(1).as_deref() {
        Some("angles") => return angles(),
        Some("pictures") => return print!("{}", pictures::all()),
        _ => {}
    }
    let mut track = Track::default();
    let mut out = std::io::stdout().lock();
    for line in std::io::stdin().lock().lines() {
        let line = line.expect("a line of text");
        let told = answer(&line, &mut track).unwrap_or_else(|why| format!("error: {why}"));
        writeln!(out, "{told}").expect("room for the answer");
    }
}
