//! The rows that `tests/bindings` writes, by the calls of this crate.
use std::thread;

use tinyjson_proved::{
    check, equal, indented, is_normal, merge, normal, normal_lines, part, patch, select,
    select_lines, select_lines_paths, select_paths, valid, valid_lines, Error, Kind, SchemaError,
};

/// A line of the file: a text, its limit, and what is expected of it.
struct Row {
    text: Vec<u8>,
    depth: usize,
    normal: String,
    indented: String,
    kind: u32,
    line: usize,
    column: usize,
    length: usize,
    message: String,
}

fn bytes(digits: &str) -> Vec<u8> {
    (0..digits.len())
        .step_by(2)
        .map(|at| u8::from_str_radix(&digits[at..at + 2], 16).unwrap())
        .collect()
}

fn text(digits: &str) -> String {
    String::from_utf8(bytes(digits)).unwrap()
}

/// A file of rows, or a few where the tool does not run the tests.
fn file(name: &str, few: &str) -> String {
    std::env::var("TINYJSON_ROWS").map_or(few.to_owned(), |folder| {
        std::fs::read_to_string(format!("{folder}/{name}")).unwrap()
    })
}

fn rows() -> Vec<Row> {
    let few = "5b315d\t9\t5b315d\t\t0\t0\t0\t0\t0\t\nff\t9\t\t\t0\t0\t0\t0\t0\t\n";
    file("rows.txt", few)
        .lines()
        .map(|line| {
            let fields: Vec<&str> = line.split('\t').collect();
            Row {
                text: bytes(fields[0]),
                depth: fields[1].parse().unwrap(),
                normal: text(fields[2]),
                indented: text(fields[3]),
                kind: fields[4].parse().unwrap(),
                line: fields[6].parse().unwrap(),
                column: fields[7].parse().unwrap(),
                length: fields[8].parse().unwrap(),
                message: text(fields[9]),
            }
        })
        .collect()
}

fn accepts(row: &Row) {
    assert_eq!(check(&row.text, row.depth), Ok(()));
    assert_eq!(normal(&row.text, row.depth).as_ref(), Ok(&row.normal));
    assert_eq!(is_normal(&row.text), Ok(row.text == row.normal.as_bytes()));
    assert_eq!(is_normal(&row.normal), Ok(true));
    assert_eq!(equal(&row.text, &row.normal, row.depth), Ok(true));
    assert_eq!(
        equal(&row.normal, "[\"no value of a row\"]", row.depth.max(1)),
        Ok(false)
    );
    if !row.indented.is_empty() {
        assert_eq!(indented(&row.text, row.depth).as_ref(), Ok(&row.indented));
    }
}

fn refuses(row: &Row) {
    let error = check(&row.text, row.depth).unwrap_err();
    assert_eq!(normal(&row.text, row.depth), Err(error));
    assert_eq!(indented(&row.text, row.depth), Err(error));
    assert_eq!(equal(&row.text, "1", row.depth), Err(error));
    let Err(Error::Refused { text, .. } | Error::NotUtf8 { text, .. }) =
        equal("1", &row.text, row.depth)
    else {
        panic!("the second text is accepted");
    };
    assert_eq!(text, 1);
    match error {
        Error::Refused {
            kind, line, column, ..
        } => {
            assert_eq!((line, column), (row.line, row.column));
            assert_eq!(error.to_string(), row.message);
            assert!(matches!(kind, Kind::TooDeep(_)) || is_normal(&row.text) == Ok(false));
        }
        Error::NotUtf8 { valid_up_to, .. } => {
            assert_eq!((valid_up_to, row.kind), (row.length, 0));
            assert_eq!(is_normal(&row.text), Err(error));
        }
        _ => panic!("memory ran out"),
    }
}

fn judge(rows: &[Row]) {
    for row in rows {
        if row.normal.is_empty() {
            refuses(row);
        } else {
            accepts(row);
        }
    }
}

#[test]
fn answers_each_row() {
    judge(&rows());
}

#[test]
fn answers_from_four_threads() {
    let rows = rows();
    thread::scope(|scope| {
        for _ in 0..4 {
            scope.spawn(|| judge(&rows));
        }
    });
}

#[test]
fn reads_lines() {
    let mut text = Vec::new();
    let mut written = String::new();
    let rows = rows();
    let lines = rows
        .iter()
        .filter(|row| !row.normal.is_empty() && !row.text.contains(&b'\n'));
    for (number, row) in lines.enumerate() {
        text.extend_from_slice(&row.text);
        assert_eq!(
            normal_lines(&text, 1000),
            Ok(written.clone() + &row.normal + "\n")
        );
        text.push(b'\n');
        written += &format!("{}\n", row.normal);
        assert_eq!(normal_lines(&text, 1000).as_ref(), Ok(&written));
        let cut = [text.as_slice(), b"[1"].concat();
        let Err(Error::Refused {
            kind,
            line,
            column,
            text,
        }) = normal_lines(&cut, 1000)
        else {
            panic!("a line without a value is accepted");
        };
        assert_eq!(
            (kind, line, column, text),
            (Kind::UnexpectedEof, 1, 2, number + 1)
        );
    }
}

/// The error of a text, as that of the call's text of this number.
fn error_of(text: &[u8], depth: usize, number: usize) -> Error {
    let mut error = check(text, depth).unwrap_err();
    let (Error::Refused { text, .. } | Error::NotUtf8 { text, .. }) = &mut error else {
        panic!("memory ran out");
    };
    *text = number;
    error
}

/// The answer of a check of a text, or of lines, by a schema.
fn judges(fields: &[&str]) {
    let (one, other) = (bytes(fields[1]), bytes(fields[2]));
    let depth: usize = fields[3].parse().unwrap();
    let number = fields[11].parse().unwrap();
    let is_lines = fields[0] == "valid_lines";
    let checked = |number| match one.split(|byte| *byte == b'\n').nth(number) {
        Some(line) if is_lines => error_of(line, depth.min(100), number),
        _ => error_of(&one, depth.min(100), 0),
    };
    let expected = match fields[4] {
        "OK" => Ok(None),
        "INVALID" => Ok(Some(text(fields[5]))),
        "SCHEMA_FAULT" => Err(SchemaError::Fault(text(fields[5]))),
        "STEP_LIMIT" => Err(SchemaError::StepLimit { text: number }),
        "BAD_SCHEMA" => Err(SchemaError::Schema(error_of(&other, depth.min(100), 1))),
        _ => Err(SchemaError::Text(checked(number))),
    };
    let joined = |found: Vec<String>| match found.is_empty() {
        true => None,
        false => Some(found.iter().map(|line| format!("{line}\n")).collect()),
    };
    if is_lines {
        assert_eq!(valid_lines(&one, &other, depth).map(joined), expected);
    } else {
        assert_eq!(valid(&one, &other, depth), expected);
    }
}

#[test]
fn answers_each_pair() {
    let few = "part\t5b315d\t2f30\t9\tOK\t31\t0\t0\t0\t0\t1\t0\n";
    for line in file("pairs.txt", few).lines() {
        let fields: Vec<&str> = line.split('\t').collect();
        if fields[0].starts_with("valid") {
            judges(&fields);
            continue;
        }
        let (one, other) = (bytes(fields[1]), bytes(fields[2]));
        let depth = fields[3].parse().unwrap();
        let operation = fields[10].parse().unwrap();
        let expected = match (fields[4], fields[11]) {
            ("OK", _) => Ok(Some(text(fields[5]))),
            ("NOT_FOUND", _) => Ok(None),
            ("BAD_POINTER", _) => Err(Error::BadPointer),
            ("BAD_PATCH", _) => Err(Error::BadPatch { operation }),
            ("FAILED", _) => Err(Error::Failed { operation }),
            ("BAD_QUERY", _) => Err(Error::BadQuery { place: operation }),
            ("PATTERN_LIMIT", number) => Err(Error::PatternLimit {
                text: number.parse().unwrap(),
            }),
            (_, number) if fields[0].starts_with("select_lines") => {
                let number = number.parse().unwrap();
                let line = one.split(|byte| *byte == b'\n').nth(number).unwrap();
                Err(error_of(line, depth, number))
            }
            (_, "0") => Err(error_of(&one, depth, 0)),
            _ => Err(error_of(&other, depth.min(1000), 1)),
        };
        let lines =
            |found: Vec<String>| Some(found.iter().map(|line| format!("{line}\n")).collect());
        let all = |found: Vec<Vec<String>>| {
            let texts = found.into_iter().filter_map(lines);
            Some(texts.map(|text| text + "\n").collect())
        };
        let answer = match (fields[0], std::str::from_utf8(&other)) {
            ("part", Ok(pointer)) => part(&one, pointer, depth),
            ("select", Ok(query)) => select(&one, query, depth).map(lines),
            ("select_paths", Ok(query)) => select_paths(&one, query, depth).map(lines),
            ("select_lines", Ok(query)) => select_lines(&one, query, depth).map(all),
            ("select_lines_paths", Ok(query)) => select_lines_paths(&one, query, depth).map(all),
            (
                "part" | "select" | "select_paths" | "select_lines" | "select_lines_paths",
                Err(_),
            ) => continue,
            ("patch", _) => patch(&one, &other, depth).map(Some),
            _ => merge(&one, &other, depth).map(Some),
        };
        assert_eq!(answer, expected);
    }
}

#[test]
fn grows_its_buffer() {
    let text = format!("[{}1]", "1e20,".repeat(100));
    let written = normal(&text, 1).unwrap();
    assert!(written.len() > text.len());
    assert_eq!(normal(&written, 1), Ok(written));
}

#[test]
fn is_an_error() {
    let error: Box<dyn std::error::Error + Send + Sync> = Box::new(check("", 1).unwrap_err());
    assert_eq!(
        error.to_string(),
        "Parse error at line:1, col:0: Unexpected EOF"
    );
}
