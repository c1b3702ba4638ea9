//! Lines of exports and request files with one fault each, and what is said of it.
use example_described::Order;
use exports::{Groups, Lines, next_value, requests_in_file, value_of};
use std::alloc::{AllocError, Global};
use std::io::{self, BufRead, BufReader, Read};
use std::test::Fail;

const ORDER: &str = r#""id":{"S":"a"},"count":{"N":"1"},"tags":{"L":[{"S":"x"}]},"stock":{"M":{"l":{"N":"2"}}}"#;

const HOME: &str = r#""home":{"M":{"city":{"S":"b"},"zip":{"N":"10115"}}}"#;

// The line of an order, with one text in place of another.
fn line(alloc: Global, from: &str, to: &str) -> Result<String, AllocError> {
    let whole = format!(in alloc; "{{\"Item\":{{{ORDER},{HOME}}}}}")?;
    whole.replace(alloc, from, to)
}

// What is said of a line that is the third one, after a blank one.
fn told(alloc: Global, line: &str) -> Result<String, AllocError> {
    let text = format!(in alloc; "{{\"Item\":{{{ORDER},{HOME}}}}}\n\n{line}\n")?;
    let mut lines = Lines::new(alloc, text.as_str().as_bytes());
    let first = next_value::<Order, &[u8]>(alloc, &mut lines);
    if !matches!(first, Some(Ok(_))) {
        return String::from_str(alloc, "the first line isn't read");
    }
    match next_value::<Order, &[u8]>(alloc, &mut lines) {
        Some(Ok(_)) => String::from_str(alloc, "read"),
        Some(Err(finding)) => finding.to_string(alloc),
        None => String::from_str(alloc, "no line"),
    }
}

#[test]
fn a_finding_says_the_line_and_the_place(rt: HostRuntime) -> Result<(), Fail> {
    let alloc = rt.alloc();
    let rows = [
        ("a", "a", "read"),
        (r#""S":"x""#, r#""N":"1""#, "line 3: tags[0]: Expected string"),
        (r#""N":"2""#, r#""N":"-1""#, "line 3: stock.l: Failed to parse '-1' as an integer"),
        (r#""city":{"S":"b"},"#, "", "line 3: home: missing field `city`"),
        (r#""id":{"S":"a"},"#, "", "line 3: missing field `id`"),
        (r#"{"N":"10115"}"#, r#"{"X":"1"}"#, "line 3: home.zip: The key 'X' is not a known DynamoDB prefix"),
        (r#"[{"S":"x"}]"#, r#"[{"S":"x"},{}]"#, "line 3: tags[1]: Expected exactly one key in the object, found none"),
        (r#""Item""#, r#""Other""#, "line 3: it has no Item"),
    ];
    for (from, to, wanted) in rows {
        let told = told(alloc, line(alloc, from, to)?.as_str())?;
        assert!(rt; told.as_str().starts_with(wanted), "{told}, not {wanted}");
    }
    Ok(())
}

#[test]
fn a_text_that_ends_too_early_says_its_length(rt: HostRuntime) -> Result<(), Fail> {
    let alloc = rt.alloc();
    let whole = line(alloc, "a", "a")?;
    for end in [1, 8, 11, 20, 21, whole.len() - 1] {
        let cut = whole.as_str().get(..end).unwrap_or("");
        let wanted = format!(in alloc; "line 3: it is not JSON (column {end})")?;
        assert_eq!(rt; told(alloc, cut)?.as_str(), wanted.as_str());
    }
    Ok(())
}

#[test]
fn an_item_without_its_line_is_located_too(rt: HostRuntime) -> Result<(), Fail> {
    let alloc = rt.alloc();
    let text = line(alloc, r#""S":"x""#, r#""N":"1""#)?;
    let mut lines = Lines::new(alloc, text.as_str().as_bytes());
    let Some(Ok(line)) = lines.next_line() else {
        assert!(rt; false, "the line has an item");
        return Ok(());
    };
    let read = value_of::<Order>(alloc, line);
    assert!(rt; matches!(read, Err(finding) if finding.to_string(alloc)?.as_str() == "line 1: tags[0]: Expected string"));
    Ok(())
}

#[test]
fn a_request_file_says_the_table_and_the_request(rt: HostRuntime) -> Result<(), Fail> {
    let alloc = rt.alloc();
    let rows = [
        (r#"{"Music": [{"PutRequest": {"Item": {"a": {"M": {"b": {"X": 1}}}}}}]}"#,
            "Music[0].PutRequest.Item.a.b: The key 'X' is not a known DynamoDB prefix"),
        (r#"{"A": [], "B": [{"DeleteRequest": {"Key": {"k": {"S": "a"}}}}, {"DeleteRequest": {"Key": {"k": 1}}}]}"#,
            "B[1].DeleteRequest.Key.k: invalid type"),
        (r#"{"A": [], "B C": 1}"#, "\"B C\": expected a list of requests"),
        (r#"{"A": [{"PutRequest": {}}]}"#, "A[0]: a request lacks its Item or its Key"),
        ("[]", "expected an object with a list of requests for each table"),
        ("{\n\"A\": [\n", "it is not JSON (line 2, column 6)"),
    ];
    for (text, wanted) in rows {
        let told = match requests_in_file(alloc, text.as_bytes()) {
            Ok(_) => String::from_str(alloc, "read")?,
            Err(fault) => fault.to_string(alloc)?,
        };
        assert!(rt; told.as_str().starts_with(wanted), "{told}, not {wanted}");
    }
    Ok(())
}

// The groups of an export's findings.
fn groups<R: BufRead + Drop>(alloc: Global, export: R, limit: usize) -> Result<Groups, AllocError> {
    let mut lines = Lines::new(alloc, export);
    let mut groups = Groups::new(alloc, limit);
    for _ in 0..u64::MAX {
        match next_value::<Order, R>(alloc, &mut lines) {
            Some(Ok(_)) => {}
            Some(Err(finding)) => groups.add(&finding)?,
            None => break,
        }
    }
    Ok(groups)
}

// So many times each of these lines.
fn push_lines(text: &mut String, times: usize, lines: &[&str]) -> Result<(), AllocError> {
    for _ in 0..times {
        for line in lines {
            text.push_str(line)?;
            text.push('\n')?;
        }
    }
    Ok(())
}

#[test]
fn findings_are_grouped_by_place_and_kind(rt: HostRuntime) -> Result<(), Fail> {
    let alloc = rt.alloc();
    let good = line(alloc, "a", "a")?;
    let tag = line(alloc, r#"[{"S":"x"}]"#, r#"[{"S":"x"},{"N":"1"}]"#)?;
    let first_tag = line(alloc, r#""S":"x""#, r#""N":"1""#)?;
    let count = line(alloc, r#"{"N":"1"}"#, r#"{"N":"one"}"#)?;
    let other_count = line(alloc, r#"{"N":"1"}"#, r#"{"N":"two"}"#)?;
    let mut export = String::new(alloc);
    push_lines(&mut export, 3, &[good.as_str(), tag.as_str(), first_tag.as_str(), "{}", "no JSON", "[1"])?;
    push_lines(&mut export, 1_201, &["{}"])?;
    push_lines(&mut export, 1, &[count.as_str(), other_count.as_str(), count.as_str(), count.as_str()])?;
    let wanted = "4 lines at count: Failed to parse an integer\n6 lines at tags[]: Expected string\n\
        1,204 lines: it has no Item\n6 lines: it is not JSON\n";
    let told = groups(alloc, export.as_str().as_bytes(), 10)?;
    assert_eq!(rt; told.to_string(alloc)?.as_str(), wanted);
    assert_eq!(rt; told.others(), 0);
    Ok(())
}

// An export that is written line by line as it is read, so that it is never in memory.
#[derive(Drop)]
struct Export {
    alloc: Global,
    number: usize,
    line: String,
    // How much of the line was read.
    read: usize,
}

const LINES: usize = 2_000;

// Of ten lines, one has a fault at a place that no other line has, one has a fault at a place that
// one line of each ten has, four have no item, and four aren't JSON.
fn line_at(alloc: Global, number: usize) -> Result<String, AllocError> {
    match number % 10 {
        0 => {
            let name = 100_000 + number;
            let entry = format!(in alloc; "{{\"n{name}\":{{\"S\":\"x\"}}}}")?;
            format!(in alloc; "{{\"Item\":{{\"stock\":{{\"M\":{entry}}}}}}}\n")
        }
        5 => String::from_str(alloc, "{\"Item\":{\"tags\":{\"L\":[{\"N\":\"1\"}]}}}\n"),
        2 | 4 | 6 | 8 => String::from_str(alloc, "{}\n"),
        _ => String::from_str(alloc, "x\n"),
    }
}

impl Read for Export {
    fn read(&mut self, buf: &mut [u8]) -> io::Result<usize> {
        if self.read == self.line.len() && self.number < LINES {
            self.line = line_at(self.alloc, self.number)?;
            self.number += 1;
            self.read = 0;
        }
        let rest = &self.line.as_str().as_bytes()[self.read..];
        let n = rest.len().min(buf.len());
        buf[..n].copy_from_slice(&rest[..n]);
        self.read += n;
        Ok(n)
    }
}

// The lines have faults of 203 kinds. The first 100 are kept, and all lines are counted.
#[test]
fn groups_are_bounded(rt: HostRuntime) -> Result<(), Fail> {
    let alloc = rt.alloc();
    let export = Export { alloc, number: 0, line: String::new(alloc), read: 0 };
    let told = groups(alloc, BufReader::new(alloc, export)?, 100)?;
    let mut wanted = String::new(alloc);
    for number in 0..97 {
        let name = 100_000 + 10 * number;
        let line = format!(in alloc; "1 line at stock.n{name}: Expected num\n")?;
        wanted.push_str(line.as_str())?;
    }
    let others = "200 lines at tags[]: Expected string\n800 lines: it has no Item\n\
        800 lines: it is not JSON\n103 lines of other groups\n";
    wanted.push_str(others)?;
    assert_eq!(rt; told.to_string(alloc)?.as_str(), wanted.as_str());
    assert_eq!(rt; told.others(), 103);
    Ok(())
}
