//! Octets of values of the types of greetings, by proved code: libgreetings_c.a.
//!
//! For each type `TYPE_check` succeeds if octets are the DER of a value. `TYPE_der`, `TYPE_text` and `TYPE_json` answer the value whose BER
//! octets are as DER, in X.680's notation and as JSON.
use std::fmt;

const OK: i32 = 0;
const FAULT: i32 = 1;
const ROOM: i32 = 2;
const MEMORY: i32 = 3;

/// Why a call has no result.
#[derive(Clone, Debug, PartialEq, Eq)]
pub enum Error {
    /// The octets are not the DER of a value: the position of the octet, or 0 if it is unknown, and the reason.
    Fault(usize, String),
    /// The octets are the BER of no value, or the value cannot be written.
    Malformed,
    /// There was no memory.
    Memory,
    /// The value is nested more than 64 deep.
    Deep,
}

impl fmt::Display for Error {
    fn fmt(&self, f: &mut fmt::Formatter<'_>) -> fmt::Result {
        match self {
            Error::Fault(position, cause) => write!(f, "{cause}, at octet {position}"),
            Error::Malformed => f.write_str("the octets are not what is read"),
            Error::Memory => f.write_str("no memory"),
            Error::Deep => f.write_str("the value is nested more than 64 deep"),
        }
    }
}

impl std::error::Error for Error {}

type Check = unsafe extern "C" fn(*const u8, usize, *mut usize, *mut u8, usize, *mut usize) -> i32;
type Conversion = unsafe extern "C" fn(*const u8, usize, *mut u8, usize, *mut usize) -> i32;

/// The functions of greetings.h.
mod calls {
    #[link(name = "greetings_c", kind = "static")]
    unsafe extern "C" {
        pub(super) fn greetings_greeting_check(octets: *const u8, length: usize, position: *mut usize, text: *mut u8, room: usize, size: *mut usize) -> i32;
        pub(super) fn greetings_greeting_der(octets: *const u8, length: usize, out: *mut u8, room: usize, size: *mut usize) -> i32;
        pub(super) fn greetings_greeting_text(octets: *const u8, length: usize, out: *mut u8, room: usize, size: *mut usize) -> i32;
        pub(super) fn greetings_greeting_json(octets: *const u8, length: usize, out: *mut u8, room: usize, size: *mut usize) -> i32;
        pub(super) fn greetings_audience_check(octets: *const u8, length: usize, position: *mut usize, text: *mut u8, room: usize, size: *mut usize) -> i32;
        pub(super) fn greetings_audience_der(octets: *const u8, length: usize, out: *mut u8, room: usize, size: *mut usize) -> i32;
        pub(super) fn greetings_audience_text(octets: *const u8, length: usize, out: *mut u8, room: usize, size: *mut usize) -> i32;
        pub(super) fn greetings_audience_json(octets: *const u8, length: usize, out: *mut u8, room: usize, size: *mut usize) -> i32;
    }
}

/// What a call writes, for which there is room for this many octets at first, and its status.
fn written(room: usize, mut call: impl FnMut(&mut [u8], &mut usize) -> i32) -> (i32, Vec<u8>) {
    let mut out = vec![0; room];
    loop {
        let mut size = 0;
        match call(&mut out, &mut size) {
            ROOM => out.resize(size, 0),
            status => {
                out.truncate(size);
                return (status, out);
            }
        }
    }
}

fn error_of(status: i32) -> Error {
    match status {
        FAULT => Error::Malformed,
        MEMORY => Error::Memory,
        _ => Error::Deep,
    }
}

fn check(call: Check, octets: &[u8]) -> Result<(), Error> {
    let mut position = 0;
    let (status, text) = written(120, |out, size| {
        // SAFETY: a slice is memory of its length, and no one else has the variables.
        unsafe { call(octets.as_ptr(), octets.len(), &mut position, out.as_mut_ptr(), out.len(), size) }
    });
    match status {
        OK => Ok(()),
        FAULT => Err(Error::Fault(position, String::from_utf8_lossy(&text).into_owned())),
        status => Err(error_of(status)),
    }
}

fn converted(call: Conversion, octets: &[u8]) -> Result<Vec<u8>, Error> {
    let (status, out) = written(2 * octets.len(), |out, size| {
        // SAFETY: as in `check`.
        unsafe { call(octets.as_ptr(), octets.len(), out.as_mut_ptr(), out.len(), size) }
    });
    match status {
        OK => Ok(out),
        status => Err(error_of(status)),
    }
}

fn text(call: Conversion, octets: &[u8]) -> Result<String, Error> {
    converted(call, octets).map(|text| String::from_utf8_lossy(&text).into_owned())
}

/// Succeeds if the octets are the DER of a `Greeting`.
pub fn greeting_check(octets: &[u8]) -> Result<(), Error> {
    check(calls::greetings_greeting_check, octets)
}

/// The DER of the `Greeting` whose BER the octets are.
pub fn greeting_der(octets: &[u8]) -> Result<Vec<u8>, Error> {
    converted(calls::greetings_greeting_der, octets)
}

/// The `Greeting` whose BER the octets are in X.680's notation.
pub fn greeting_text(octets: &[u8]) -> Result<String, Error> {
    text(calls::greetings_greeting_text, octets)
}

/// The `Greeting` whose BER the octets are as JSON.
pub fn greeting_json(octets: &[u8]) -> Result<String, Error> {
    text(calls::greetings_greeting_json, octets)
}

/// Succeeds if the octets are the DER of a `Audience`.
pub fn audience_check(octets: &[u8]) -> Result<(), Error> {
    check(calls::greetings_audience_check, octets)
}

/// The DER of the `Audience` whose BER the octets are.
pub fn audience_der(octets: &[u8]) -> Result<Vec<u8>, Error> {
    converted(calls::greetings_audience_der, octets)
}

/// The `Audience` whose BER the octets are in X.680's notation.
pub fn audience_text(octets: &[u8]) -> Result<String, Error> {
    text(calls::greetings_audience_text, octets)
}

/// The `Audience` whose BER the octets are as JSON.
pub fn audience_json(octets: &[u8]) -> Result<String, Error> {
    text(calls::greetings_audience_json, octets)
}
