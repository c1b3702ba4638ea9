//! Lines around their limit, beside a plain model of what is to come.
use exports::{Fault, Lines};
use std::alloc::{AllocError, Global};
use std::io::{self, BufRead, BufReader};
use std::process::Abort;
use std::test::Fail;

// What comes of the lines: for each that isn't blank its number, and its text or that it is too long.
fn modelled(alloc: Global, text: &str, limit: usize) -> Result<String, AllocError> {
    let mut told = String::new(alloc);
    let mut number = 0;
    for line in text.split('\n') {
        number += 1;
        if line.len() > limit {
            told.push_str(&format!(in alloc; "{number} longer than {limit};")?)?;
        } else if !line.trim_ascii().is_empty() {
            told.push_str(&format!(in alloc; "{number} {line};")?)?;
        }
    }
    Ok(told)
}

// The same of what `next_text` gives, without the line feeds.
fn given<R: BufRead>(alloc: Global, lines: &mut Lines<R>) -> Result<String, AllocError> {
    let mut told = String::new(alloc);
    for _ in 0..1_000 {
        let next = lines.next_text();
        let number = lines.number();
        match next {
            Some(Ok(text)) => {
                let line = String::from_utf8_lossy(alloc, text.as_slice())?;
                let line = line.trim_end_matches('\n');
                told.push_str(&format!(in alloc; "{number} {line};")?)?;
            }
            Some(Err(Fault::TooLong(limit))) => {
                told.push_str(&format!(in alloc; "{number} longer than {limit};")?)?;
            }
            Some(Err(fault)) => told.push_str(&format!(in alloc; "{number} {fault};")?)?,
            None => return Ok(told),
        }
    }
    Ok(told)
}

// Texts of three lines: one of each length around the limit, alone, before and after a short one, with and without a
// line feed at the end, with a carriage return, and blank.
fn texts(alloc: Global, length: usize) -> Result<Vec<String>, AllocError> {
    let long = "x".repeat(alloc, length)?;
    let blank = " ".repeat(alloc, length)?;
    let mut texts = Vec::new(alloc);
    texts.push(format!(in alloc; "{long}")?)?;
    texts.push(format!(in alloc; "{long}\n")?)?;
    texts.push(format!(in alloc; "{long}\na\n")?)?;
    texts.push(format!(in alloc; "a\n{long}\nb")?)?;
    texts.push(format!(in alloc; "{long}\n{long}\n\n{long}c\n")?)?;
    texts.push(format!(in alloc; "{long}\r\na\r\n")?)?;
    texts.push(format!(in alloc; "{blank}\na\n{blank}")?)?;
    Ok(texts)
}

// How many texts were read around the limits, or what of the first one that reads otherwise.
fn read_around(alloc: Global) -> io::Result<Result<u32, String>> {
    let mut count = 0;
    for limit in [0_usize, 1, 2, 7, 8, 9, 33] {
        for length in limit.saturating_sub(9)..limit + 12 {
            for text in &texts(alloc, length)? {
                let wanted = modelled(alloc, text.as_str(), limit)?;
                for room in [1, 2, 3, 8, 8_192] {
                    let reader = BufReader::with_capacity(alloc, room, text.as_bytes())?;
                    let told = given(alloc, &mut Lines::with_limit(alloc, reader, limit))?;
                    if told != wanted {
                        let text = format!(in alloc; "limit {limit}, room {room}, {text:?}: {told}, not {wanted}")?;
                        return Ok(Err(text));
                    }
                    count += 1;
                }
            }
        }
    }
    Ok(Ok(count))
}

#[test]
fn lines_around_the_limit_are_given_or_too_long(rt: HostRuntime) {
    match read_around(rt.alloc()) {
        Ok(Ok(count)) => assert!(rt; count > 3_000, "{count} texts"),
        Ok(Err(text)) => assert!(rt; false, "{text}"),
        Err(error) => assert!(rt; false, "{error}"),
    }
}

#[test]
fn without_a_limit_a_line_has_any_length(rt: HostRuntime) -> Result<(), Fail> {
    let alloc = rt.alloc();
    for text in &texts(alloc, 100_000)? {
        let told = given(alloc, &mut Lines::new(alloc, text.as_bytes()))?;
        assert!(rt; told == modelled(alloc, text.as_str(), usize::MAX)?);
    }
    Ok(())
}

#[test]
fn a_long_line_is_a_fault_of_its_number(rt: HostRuntime) -> Result<(), Fail> {
    let alloc = rt.alloc();
    let text = "{\"Item\":{}}\n\n{\"Item\":{\"id\":{\"S\":\"longer\"}}}\n{\"Item\":{}}\n";
    let mut lines = Lines::with_limit(alloc, text.as_bytes(), 11);
    let mut told = String::new(alloc);
    for _ in 0..4 {
        match lines.next_line() {
            Some(Ok(line)) => {
                let count = line.item.inner().len();
                told.push_str(&format!(in alloc; "{} {count};", line.number)?)?;
            }
            Some(Err(fault)) => told.push_str(&format!(in alloc; "{fault};")?)?,
            None => told.push_str("end")?,
        }
    }
    assert!(rt; told.as_str() == "1 0;line 3: it is longer than 11 bytes;4 0;end", "{told}");
    Ok(())
}
