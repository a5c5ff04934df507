//! DER and BER of which no type is known, certificates and messages of LDAP, by proved code.
//!
//! | Function | What it answers of octets |
//! |---|---|
//! | [`der_check`] | whether they are elements of DER, and where not |
//! | [`der_element`] | the element with which they begin |
//! | [`integer_text`] | the number of which they are the contents octets, as text |
//! | [`ber_normal`] | the elements of BER that they are, with definite lengths of the fewest octets |
//! | [`certificate_report`] | the report of the certificate that they are |
//! | [`certificate_broken_rule`] | a rule of DER that they break as a certificate, and where |
//! | [`certificate_part`] | a part of the certificate that they are |
//! | [`ldap_lines`] | the messages of LDAP with which they begin, as lines |
//! | [`version`] | the version of the library |

mod calls;
mod certificates;
mod heap;
mod ldap;

pub use certificates::{BrokenRule, Part, ReportError, certificate_broken_rule, certificate_part, certificate_report};
pub use ldap::{LdapLines, ldap_lines};

use calls::{DEEP, FAULT, MEMORY, OK, ROOM, RawElement, Writer};
use std::fmt;

/// Why a call has no result.
#[derive(Clone, Copy, Debug, PartialEq, Eq)]
pub enum Error {
    /// An element is due at this position, from 0, and none begins.
    NoElement(usize),
    /// The octets are not what the call reads.
    Malformed,
    /// There was no memory.
    Memory,
    /// Nested more than 64 deep: constructed elements, or scopes of a value.
    Deep,
}

impl fmt::Display for Error {
    fn fmt(&self, f: &mut fmt::Formatter<'_>) -> fmt::Result {
        match self {
            Error::NoElement(position) => write!(f, "no element begins at octet {position}"),
            Error::Malformed => f.write_str("the octets are not what is read"),
            Error::Memory => f.write_str("no memory"),
            Error::Deep => f.write_str("elements are nested deeper than 64"),
        }
    }
}

impl std::error::Error for Error {}

/// The class of a tag.
#[derive(Clone, Copy, Debug, PartialEq, Eq)]
pub enum Class {
    Universal,
    Application,
    Context,
    Private,
}

/// An element of DER.
#[derive(Clone, Copy, Debug, PartialEq, Eq)]
pub struct Element<'a> {
    pub class: Class,
    /// The number of its tag.
    pub number: u32,
    pub constructed: bool,
    pub contents: &'a [u8],
    /// The octets after it.
    pub rest: &'a [u8],
}

/// The version of the calls that the library has.
pub fn version() -> u32 {
    // SAFETY: the call has no arguments.
    unsafe { calls::fan_version() }
}

/// Succeeds if the octets are elements of DER, one after another, and so on inside those that are constructed.
///
/// # Errors
/// [`Error::NoElement`] with the first position at which an element is due and none begins, and [`Error::Deep`].
pub fn der_check(octets: &[u8]) -> Result<(), Error> {
    let mut position = 0;
    // SAFETY: a slice is memory of its length, and `position` belongs to this function.
    match unsafe { calls::fan_der_check(octets.as_ptr(), octets.len(), &mut position) } {
        OK => Ok(()),
        FAULT => Err(Error::NoElement(position)),
        status => Err(error_of(status)),
    }
}

/// The element with which the octets begin, whatever follows it.
///
/// # Errors
/// [`Error::NoElement`] if none begins them.
pub fn der_element(octets: &[u8]) -> Result<Element<'_>, Error> {
    let mut raw = RawElement::default();
    // SAFETY: as in `der_check`.
    if unsafe { calls::fan_der_element(octets.as_ptr(), octets.len(), &mut raw) } != OK {
        return Err(Error::NoElement(0));
    }
    let (contents, rest) = octets[raw.header..].split_at(raw.size);
    Ok(Element { class: class_of(raw.tag_class), number: raw.number, constructed: raw.constructed, contents, rest })
}

/// The decimal digits of the INTEGER with these contents octets.
///
/// # Errors
/// [`Error::Malformed`] without octets, or with one more than need be, and [`Error::Memory`].
pub fn integer_text(octets: &[u8]) -> Result<String, Error> {
    let text = result_of(calls::fan_integer_text, octets, 40)?;
    Ok(String::from_utf8(text).expect("digits are UTF-8"))
}

/// The elements of BER that the octets are, with definite lengths of the fewest octets.
///
/// # Errors
/// [`Error::Malformed`] if they are no elements of BER, [`Error::Deep`] and [`Error::Memory`].
pub fn ber_normal(octets: &[u8]) -> Result<Vec<u8>, Error> {
    result_of(calls::fan_ber_normal, octets, octets.len())
}

/// The result of a call, for which there is room for this many octets at first.
fn result_of(call: Writer, octets: &[u8], room: usize) -> Result<Vec<u8>, Error> {
    let (status, out) = written(room, |out, size| {
        // SAFETY: as in `der_check`; no one else has `out`.
        unsafe { call(octets.as_ptr(), octets.len(), out.as_mut_ptr(), out.len(), size) }
    });
    match status {
        OK => Ok(out),
        status => Err(error_of(status)),
    }
}

/// What a call writes, for which there is room for this many octets at first, and its status.
fn written(room: usize, mut call: impl FnMut(&mut [u8], &mut usize) -> i32) -> (i32, Vec<u8>) {
    let mut out = vec![0; room];
    loop {
        let mut size = 0;
        match call(&mut out, &mut size) {
            ROOM => out.resize(size, 0),
            status => {
                out.truncate(size);
                return (status, out);
            }
        }
    }
}

fn error_of(status: i32) -> Error {
    match status {
        MEMORY => Error::Memory,
        DEEP => Error::Deep,
        _ => Error::Malformed,
    }
}

fn class_of(number: u32) -> Class {
    match number {
        0 => Class::Universal,
        1 => Class::Application,
        2 => Class::Context,
        _ => Class::Private,
    }
}
