//! JSON texts (RFC 8259), checked, also by a schema, normalized, indented, compared, patched and searched by proved
//! code.
//!
//! ```
//! let text = r#"{"b": [1.50, true], "a": 2e3}"#;
//! assert_eq!(tinyjson_proved::normal(text, 100)?, r#"{"a":2000,"b":[1.5,true]}"#);
//! # Ok::<(), tinyjson_proved::Error>(())
//! ```
//!
//! A limit on depth is how many containers may be open at once. A call keeps nothing, and calls may be made from any
//! number of threads.

use std::error;
use std::fmt;

mod sys;

use sys::{Place, Status};

/// A kind of JSON value.
#[derive(Clone, Copy, Debug, PartialEq, Eq, Hash)]
pub enum Value {
    Null,
    Boolean,
    Number,
    String,
    Array,
    Object,
}

/// Why a text is refused. The character is the one that was found.
#[derive(Clone, Copy, Debug, PartialEq, Eq, Hash)]
#[non_exhaustive]
pub enum Kind {
    UnexpectedEof,
    InvalidCharacter(char),
    ExpectedEof(char),
    KeyNotString(Value),
    ExpectedColon(char),
    ExpectedCommaOrBrace(char),
    ExpectedCommaOrBracket(char),
    InvalidUtf16,
    InvalidHexDigit(char),
    InvalidEscape(char),
    ControlCharacter(char),
    UnexpectedInLiteral(char),
    EmptyInteger,
    LeadingZero,
    EmptyFraction,
    EmptyExponent,
    NumberOutOfRange,
    TooDeep(char),
}

/// Why there is no answer for a text.
///
/// ```
/// use tinyjson_proved::{check, Error, Kind};
///
/// let error = check("[01]", 100).unwrap_err();
/// assert_eq!(error, Error::Refused { kind: Kind::LeadingZero, line: 1, column: 3, text: 0 });
/// assert_eq!(
///     error.to_string(),
///     "Parse error at line:1, col:3: Integer part of number must not start with 0 except for '0'"
/// );
/// ```
#[derive(Clone, Copy, Debug, PartialEq, Eq, Hash)]
#[non_exhaustive]
pub enum Error {
    /// The text has no value.
    Refused {
        kind: Kind,
        /// The line, from 1 on.
        line: usize,
        /// How many characters were consumed after the last line feed.
        column: usize,
        /// Which text of the call this is, from 0 on: the second one of [`equal`], the patch of [`merge`] and
        /// [`patch`], the pointer of [`part`], or a line of [`normal_lines`], [`select_lines`] and [`valid_lines`].
        text: usize,
    },
    /// The bytes are not UTF-8 after `valid_up_to` of them.
    NotUtf8 { valid_up_to: usize, text: usize },
    /// The pointer of [`part`] is no JSON pointer.
    BadPointer,
    /// The item of this number, from 0 on, is the first of the patch that is no operation. It is 0 where the patch is
    /// no array.
    BadPatch { operation: usize },
    /// The operation of this number, from 0 on, can't be applied.
    Failed { operation: usize },
    /// The query of [`select`] is none; this many of its characters precede the fault.
    BadQuery { place: usize },
    /// A regular expression of the query or the text, which is this line of [`select_lines`], is too deep or too large.
    PatternLimit { text: usize },
    /// Memory ran out. The text may have a value or not.
    OutOfMemory,
}

/// The message of the library.
impl fmt::Display for Error {
    fn fmt(&self, f: &mut fmt::Formatter<'_>) -> fmt::Result {
        match *self {
            Error::Refused {
                kind, line, column, ..
            } => {
                let (kind, found) = numbers(kind);
                let place = Place {
                    kind,
                    found,
                    line,
                    column,
                    length: 0,
                    text: 0,
                };
                f.write_str(sys::message(&place).as_deref().unwrap_or("Parse error"))
            }
            Error::NotUtf8 { valid_up_to, .. } => write!(f, "Not UTF-8 after {valid_up_to} bytes"),
            Error::BadPointer => f.write_str("Not a JSON pointer"),
            Error::BadPatch { operation } => {
                write!(f, "Not a JSON patch: no operation {operation}")
            }
            Error::Failed { operation } => write!(f, "Operation {operation} can't be applied"),
            Error::BadQuery { place } => write!(f, "Not a JSONPath query at character {place}"),
            Error::PatternLimit { .. } => {
                f.write_str("A regular expression is too deep or too large")
            }
            Error::OutOfMemory => f.write_str("Out of memory"),
        }
    }
}

impl error::Error for Error {}

/// Whether the text has a value.
///
/// ```
/// assert!(tinyjson_proved::check("[[1]]", 2).is_ok());
/// assert!(tinyjson_proved::check("[[1]]", 1).is_err());
/// assert!(tinyjson_proved::check(b"\xff", 1).is_err());
/// ```
pub fn check(text: impl AsRef<[u8]>, depth: usize) -> Result<(), Error> {
    let (status, place) = sys::check(text.as_ref(), depth);
    answer(status, &place)
}

/// The one compact text of the text's value: its keys are sorted, and each number has one spelling.
///
/// ```
/// assert_eq!(tinyjson_proved::normal("[1.50e1, -0]", 1)?, "[15,0]");
/// # Ok::<(), tinyjson_proved::Error>(())
/// ```
pub fn normal(text: impl AsRef<[u8]>, depth: usize) -> Result<String, Error> {
    whole(sys::tinyjson_normal, text.as_ref(), depth)
}

/// The text of the text's value, indented with two spaces.
///
/// ```
/// assert_eq!(tinyjson_proved::indented("[1,{}]", 2)?, "[\n  1,\n  {}\n]");
/// # Ok::<(), tinyjson_proved::Error>(())
/// ```
pub fn indented(text: impl AsRef<[u8]>, depth: usize) -> Result<String, Error> {
    whole(sys::tinyjson_indented, text.as_ref(), depth)
}

/// The normal text of each line, with a line feed behind it. The last line may lack its line feed.
///
/// ```
/// assert_eq!(tinyjson_proved::normal_lines("[1.0]\n{}", 1)?, "[1]\n{}\n");
/// # Ok::<(), tinyjson_proved::Error>(())
/// ```
pub fn normal_lines(text: impl AsRef<[u8]>, depth: usize) -> Result<String, Error> {
    whole(sys::tinyjson_normal_lines, text.as_ref(), depth)
}

/// Whether the text is its own normal text. One that has no value is not.
///
/// ```
/// assert!(tinyjson_proved::is_normal(r#"{"a":1.5}"#)?);
/// assert!(!tinyjson_proved::is_normal(r#"{"a":1.50}"#)?);
/// # Ok::<(), tinyjson_proved::Error>(())
/// ```
pub fn is_normal(text: impl AsRef<[u8]>) -> Result<bool, Error> {
    let text = text.as_ref();
    match sys::is_normal(text) {
        (Status::NOT_UTF8, _) => Err(not_utf8(text)),
        (Status::OK, is_normal) => Ok(is_normal),
        _ => Err(Error::OutOfMemory),
    }
}

/// Whether two texts have equal values.
///
/// ```
/// assert!(tinyjson_proved::equal(r#"{"a": 1, "b": 2.0}"#, r#"{"b": 2, "a": 10e-1}"#, 1)?);
/// # Ok::<(), tinyjson_proved::Error>(())
/// ```
pub fn equal(
    first: impl AsRef<[u8]>,
    second: impl AsRef<[u8]>,
    depth: usize,
) -> Result<bool, Error> {
    let (status, is_equal, place) = sys::equal(first.as_ref(), second.as_ref(), depth);
    answer(status, &place).map(|()| is_equal)
}

/// The normal text of the part of a text that a JSON pointer (RFC 6901) names, if there is one.
///
/// ```
/// let text = r#"{"a/b": [1, {"c": 2.50}]}"#;
/// assert_eq!(tinyjson_proved::part(text, "/a~1b/1", 9)?.as_deref(), Some(r#"{"c":2.5}"#));
/// assert_eq!(tinyjson_proved::part(text, "/a", 9)?, None);
/// # Ok::<(), tinyjson_proved::Error>(())
/// ```
pub fn part(text: impl AsRef<[u8]>, pointer: &str, depth: usize) -> Result<Option<String>, Error> {
    let (text, pointer) = (text.as_ref(), pointer.as_bytes());
    written(text.len(), |buffer| {
        sys::write_of_two(sys::tinyjson_part, text, pointer, depth, buffer)
    })
}

/// The normal text of a target with a merge patch (RFC 7396) applied. The patch may be no deeper than 1,000 containers,
/// whatever the limit, and the call takes stack as it is deep.
///
/// ```
/// let text = tinyjson_proved::merge(r#"{"a": 1, "b": {}}"#, r#"{"a": null, "b": {"c": 2.0}}"#, 9)?;
/// assert_eq!(text, r#"{"b":{"c":2}}"#);
/// # Ok::<(), tinyjson_proved::Error>(())
/// ```
pub fn merge(
    target: impl AsRef<[u8]>,
    patch: impl AsRef<[u8]>,
    depth: usize,
) -> Result<String, Error> {
    changed(sys::tinyjson_merge, target.as_ref(), patch.as_ref(), depth)
}

/// The normal text of a text with a patch (RFC 6902) applied, all of its operations or none. The patch may be no deeper
/// than 1,000 containers, and a pointer in it have no more tokens, whatever the limit.
///
/// ```
/// use tinyjson_proved::{patch, Error};
///
/// let operations = r#"[{"op": "remove", "path": "/a"}]"#;
/// assert_eq!(patch(r#"{"a": 1, "b": 2.0}"#, operations, 9)?, r#"{"b":2}"#);
/// assert_eq!(patch("{}", operations, 9), Err(Error::Failed { operation: 0 }));
/// # Ok::<(), tinyjson_proved::Error>(())
/// ```
pub fn patch(
    text: impl AsRef<[u8]>,
    operations: impl AsRef<[u8]>,
    depth: usize,
) -> Result<String, Error> {
    changed(
        sys::tinyjson_patch,
        text.as_ref(),
        operations.as_ref(),
        depth,
    )
}

/// The normal text of each value that a JSONPath query (RFC 9535) selects in a text.
///
/// ```
/// use tinyjson_proved::{select, Error};
///
/// let text = r#"{"a": [{"b": 1.0}, {"b": 2}]}"#;
/// assert_eq!(select(text, "$.a[?@.b > 1]", 9)?, [r#"{"b":2}"#]);
/// assert_eq!(select(text, "$.a[01]", 9), Err(Error::BadQuery { place: 5 }));
/// # Ok::<(), Error>(())
/// ```
pub fn select(text: impl AsRef<[u8]>, query: &str, depth: usize) -> Result<Vec<String>, Error> {
    selected(sys::tinyjson_select, text.as_ref(), query, depth)
}

/// The normalized path of each value that a JSONPath query (RFC 9535) selects in a text.
///
/// ```
/// let paths = tinyjson_proved::select_paths(r#"{"a": [1, 2]}"#, "$.a[-1:]", 9)?;
/// assert_eq!(paths, ["$['a'][1]"]);
/// # Ok::<(), tinyjson_proved::Error>(())
/// ```
pub fn select_paths(
    text: impl AsRef<[u8]>,
    query: &str,
    depth: usize,
) -> Result<Vec<String>, Error> {
    selected(sys::tinyjson_select_paths, text.as_ref(), query, depth)
}

fn selected(
    call: sys::WritesOfTwo,
    text: &[u8],
    query: &str,
    depth: usize,
) -> Result<Vec<String>, Error> {
    let lines = written(text.len(), |buffer| {
        sys::write_of_two(call, text, query.as_bytes(), depth, buffer)
    })?;
    Ok(lines_of(&lines.unwrap_or_default()))
}

fn lines_of(text: &str) -> Vec<String> {
    text.split_terminator('\n').map(str::to_owned).collect()
}

/// What [`select`] returns of each line. The last line may lack its line feed.
///
/// ```
/// let found = tinyjson_proved::select_lines("[1.0,2]\n{}", "$[*]", 9)?;
/// assert_eq!(found, [vec!["1", "2"], vec![]]);
/// # Ok::<(), tinyjson_proved::Error>(())
/// ```
pub fn select_lines(
    text: impl AsRef<[u8]>,
    query: &str,
    depth: usize,
) -> Result<Vec<Vec<String>>, Error> {
    selected_lines(sys::tinyjson_select_lines, text.as_ref(), query, depth)
}

/// What [`select_paths`] returns of each line. The last line may lack its line feed.
///
/// ```
/// let found = tinyjson_proved::select_lines_paths("[1]\n[[2]]", "$..[?@ > 0]", 9)?;
/// assert_eq!(found, [["$[0]"], ["$[0][0]"]]);
/// # Ok::<(), tinyjson_proved::Error>(())
/// ```
pub fn select_lines_paths(
    text: impl AsRef<[u8]>,
    query: &str,
    depth: usize,
) -> Result<Vec<Vec<String>>, Error> {
    selected_lines(
        sys::tinyjson_select_lines_paths,
        text.as_ref(),
        query,
        depth,
    )
}

/// An empty line ends what is selected of a line.
fn selected_lines(
    call: sys::WritesOfTwo,
    text: &[u8],
    query: &str,
    depth: usize,
) -> Result<Vec<Vec<String>>, Error> {
    let written = written(text.len(), |buffer| {
        sys::write_of_two(call, text, query.as_bytes(), depth, buffer)
    })?;
    let (mut found, mut of_line) = (Vec::new(), Vec::new());
    for line in written.unwrap_or_default().split_terminator('\n') {
        if line.is_empty() {
            found.push(std::mem::take(&mut of_line));
        } else {
            of_line.push(line.to_owned());
        }
    }
    Ok(found)
}

/// What a call writes that has an answer for each two texts with which it does not fail.
fn changed(
    call: sys::WritesOfTwo,
    text: &[u8],
    patch: &[u8],
    depth: usize,
) -> Result<String, Error> {
    let text = written(text.len() + patch.len(), |buffer| {
        sys::write_of_two(call, text, patch, depth, buffer)
    })?;
    Ok(text.unwrap_or_default())
}

/// Why a text is not checked by a schema.
#[derive(Clone, Debug, PartialEq, Eq, Hash)]
#[non_exhaustive]
pub enum SchemaError {
    /// The text has no value, or memory ran out.
    Text(Error),
    /// The schema has no value.
    Schema(Error),
    /// The schema can't be applied at the place that this JSON pointer names.
    Fault(String),
    /// The check of the text, or of this line of [`valid_lines`], needs more than 200 nested schemas, or too many
    /// steps.
    StepLimit { text: usize },
}

impl fmt::Display for SchemaError {
    fn fmt(&self, f: &mut fmt::Formatter<'_>) -> fmt::Result {
        match self {
            SchemaError::Text(error) => write!(f, "{error}"),
            SchemaError::Schema(error) => write!(f, "The schema: {error}"),
            SchemaError::Fault(pointer) => write!(f, "The schema can't be applied at {pointer:?}"),
            SchemaError::StepLimit { .. } => {
                f.write_str("The check needs too many nested schemas, or too many steps")
            }
        }
    }
}

impl error::Error for SchemaError {}

/// Checks a text by a schema: JSON Schema 2020-12, or the draft that its `$schema` names. It returns `None` for a value
/// that is valid, or the report of one that is not: the words, the line and the column of the part, and JSON pointers to
/// the part and to the keyword. Both texts may be no deeper than 100 containers, whatever the limit.
///
/// ```
/// use tinyjson_proved::{valid, SchemaError};
///
/// let schema = r#"{"items": {"type": "integer"}}"#;
/// assert_eq!(valid("[1, 2.0]", schema, 9)?, None);
/// let report = valid("[1.5]", schema, 9)?.unwrap();
/// assert_eq!(tinyjson_proved::part(&report, "/column", 9), Ok(Some("2".into())));
/// let words = tinyjson_proved::part(report, "/error", 9);
/// assert_eq!(words, Ok(Some(r#""must be an integer, is a number""#.into())));
/// assert_eq!(valid("1", r#"{"type": 5}"#, 9), Err(SchemaError::Fault("/type".into())));
/// # Ok::<(), SchemaError>(())
/// ```
pub fn valid(
    text: impl AsRef<[u8]>,
    schema: impl AsRef<[u8]>,
    depth: usize,
) -> Result<Option<String>, SchemaError> {
    judged(sys::tinyjson_valid, text.as_ref(), schema.as_ref(), depth)
}

/// The report of each line that is not valid by a schema, with the line's number, from 1 on. The last line may lack its
/// line feed.
///
/// ```
/// let reports = tinyjson_proved::valid_lines("1\n1.5\n2", r#"{"type": "integer"}"#, 9)?;
/// assert_eq!(tinyjson_proved::part(&reports[0], "/line", 9), Ok(Some("2".into())));
/// assert_eq!(reports.len(), 1);
/// # Ok::<(), tinyjson_proved::SchemaError>(())
/// ```
pub fn valid_lines(
    text: impl AsRef<[u8]>,
    schema: impl AsRef<[u8]>,
    depth: usize,
) -> Result<Vec<String>, SchemaError> {
    let (text, schema) = (text.as_ref(), schema.as_ref());
    let reports = judged(sys::tinyjson_valid_lines, text, schema, depth)?;
    Ok(lines_of(&reports.unwrap_or_default()))
}

fn judged(
    call: sys::WritesOfTwo,
    text: &[u8],
    schema: &[u8],
    depth: usize,
) -> Result<Option<String>, SchemaError> {
    let (status, place, told) = filled(text.len(), |buffer| {
        sys::write_of_two(call, text, schema, depth, buffer)
    })
    .map_err(SchemaError::Text)?;
    let told = || String::from_utf8(told).map_err(|_| SchemaError::Text(Error::OutOfMemory));
    match status {
        Status::OK => Ok(None),
        Status::INVALID => Ok(Some(told()?)),
        Status::SCHEMA_FAULT => Err(SchemaError::Fault(told()?)),
        Status::STEP_LIMIT => Err(SchemaError::StepLimit { text: place.text }),
        Status::BAD_SCHEMA if place.kind == 0 => Err(SchemaError::Schema(Error::NotUtf8 {
            valid_up_to: place.length,
            text: 1,
        })),
        Status::BAD_SCHEMA => match answer(Status::REFUSED, &place) {
            Ok(()) => unreachable!("the library refuses a schema for no reason"),
            Err(error) => Err(SchemaError::Schema(error)),
        },
        _ => Err(SchemaError::Text(
            answer(status, &place).err().unwrap_or(Error::OutOfMemory),
        )),
    }
}

/// What a call writes, or nothing if there is no such part.
fn written(
    room: usize,
    call: impl Fn(&mut [u8]) -> (Status, Place),
) -> Result<Option<String>, Error> {
    let (status, place, written) = filled(room, call)?;
    if status == Status::NOT_FOUND {
        return Ok(None);
    }
    answer(status, &place)?;
    String::from_utf8(written)
        .map(Some)
        .map_err(|_| Error::OutOfMemory)
}

/// What a call answers, and writes into a buffer that grows to what the call asks for.
fn filled(
    mut room: usize,
    call: impl Fn(&mut [u8]) -> (Status, Place),
) -> Result<(Status, Place, Vec<u8>), Error> {
    loop {
        let mut buffer = Vec::new();
        buffer
            .try_reserve_exact(room)
            .map_err(|_| Error::OutOfMemory)?;
        buffer.resize(room, 0);
        let (status, place) = call(&mut buffer);
        if status != Status::TOO_SMALL {
            buffer.truncate(place.length);
            return Ok((status, place, buffer));
        }
        room = place.length;
    }
}

/// What a call writes that has an answer for each text with a value.
fn whole(call: sys::Writes, text: &[u8], depth: usize) -> Result<String, Error> {
    let text = written(text.len(), |buffer| sys::write(call, text, depth, buffer))?;
    Ok(text.unwrap_or_default())
}

fn not_utf8(bytes: &[u8]) -> Error {
    let valid_up_to = std::str::from_utf8(bytes).map_or_else(|error| error.valid_up_to(), str::len);
    Error::NotUtf8 {
        valid_up_to,
        text: 0,
    }
}

/// What a status means, and its place.
fn answer(status: Status, place: &Place) -> Result<(), Error> {
    let text = place.text;
    match status {
        Status::OK => Ok(()),
        Status::NOT_UTF8 => Err(Error::NotUtf8 {
            valid_up_to: place.length,
            text,
        }),
        Status::BAD_POINTER => Err(Error::BadPointer),
        Status::BAD_PATCH => Err(Error::BadPatch {
            operation: place.length,
        }),
        Status::FAILED => Err(Error::Failed {
            operation: place.length,
        }),
        Status::BAD_QUERY => Err(Error::BadQuery {
            place: place.length,
        }),
        Status::PATTERN_LIMIT => Err(Error::PatternLimit { text }),
        Status::REFUSED => match kind(place.kind, place.found) {
            Some(kind) => Err(Error::Refused {
                kind,
                line: place.line,
                column: place.column,
                text,
            }),
            None => unreachable!("the library has no kind {} of {}", place.kind, place.found),
        },
        _ => Err(Error::OutOfMemory),
    }
}

/// The kind of error that has these numbers.
fn kind(number: u32, found: u32) -> Option<Kind> {
    let c = char::from_u32(found)?;
    Some(match number {
        1 => Kind::UnexpectedEof,
        2 => Kind::InvalidCharacter(c),
        3 => Kind::ExpectedEof(c),
        4 => Kind::KeyNotString(value(found)?),
        5 => Kind::ExpectedColon(c),
        6 => Kind::ExpectedCommaOrBrace(c),
        7 => Kind::ExpectedCommaOrBracket(c),
        8 => Kind::InvalidUtf16,
        9 => Kind::InvalidHexDigit(c),
        10 => Kind::InvalidEscape(c),
        11 => Kind::ControlCharacter(c),
        12 => Kind::UnexpectedInLiteral(c),
        13 => Kind::EmptyInteger,
        14 => Kind::LeadingZero,
        15 => Kind::EmptyFraction,
        16 => Kind::EmptyExponent,
        17 => Kind::NumberOutOfRange,
        19 => Kind::TooDeep(c),
        _ => return None,
    })
}

/// The kind of value that has this number.
fn value(number: u32) -> Option<Value> {
    Some(match number {
        1 => Value::Null,
        2 => Value::Boolean,
        3 => Value::Number,
        4 => Value::String,
        5 => Value::Array,
        6 => Value::Object,
        _ => return None,
    })
}

/// The numbers of a kind of error.
fn numbers(kind: Kind) -> (u32, u32) {
    match kind {
        Kind::UnexpectedEof => (1, 0),
        Kind::InvalidCharacter(c) => (2, c as u32),
        Kind::ExpectedEof(c) => (3, c as u32),
        Kind::KeyNotString(value) => (4, value as u32 + 1),
        Kind::ExpectedColon(c) => (5, c as u32),
        Kind::ExpectedCommaOrBrace(c) => (6, c as u32),
        Kind::ExpectedCommaOrBracket(c) => (7, c as u32),
        Kind::InvalidUtf16 => (8, 0),
        Kind::InvalidHexDigit(c) => (9, c as u32),
        Kind::InvalidEscape(c) => (10, c as u32),
        Kind::ControlCharacter(c) => (11, c as u32),
        Kind::UnexpectedInLiteral(c) => (12, c as u32),
        Kind::EmptyInteger => (13, 0),
        Kind::LeadingZero => (14, 0),
        Kind::EmptyFraction => (15, 0),
        Kind::EmptyExponent => (16, 0),
        Kind::NumberOutOfRange => (17, 0),
        Kind::TooDeep(c) => (19, c as u32),
    }
}
