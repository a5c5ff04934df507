//! Certificates.
use crate::calls::{self, FAULT, OK};
use crate::{Error, error_of, written};
use std::fmt;

/// Why a certificate has no report.
#[derive(Clone, Debug, PartialEq, Eq)]
pub enum ReportError {
    /// It is refused, for this reason.
    Refused(String),
    /// There was no memory, or octets lie inside more than 64 constructed elements.
    Other(Error),
}

impl fmt::Display for ReportError {
    fn fmt(&self, f: &mut fmt::Formatter<'_>) -> fmt::Result {
        match self {
            ReportError::Refused(message) => f.write_str(message),
            ReportError::Other(error) => error.fmt(f),
        }
    }
}

impl std::error::Error for ReportError {}

/// A rule of DER that octets break: its number in fanughespu.h, and the position, from 0.
#[derive(Clone, Copy, Debug, PartialEq, Eq)]
pub struct BrokenRule {
    pub rule: u32,
    pub position: usize,
}

/// A part of a certificate (RFC 5280, 4.1).
#[derive(Clone, Copy, Debug, PartialEq, Eq)]
pub enum Part {
    /// `tbsCertificate`, the octets that are signed
    Signed,
    SerialNumber,
    Issuer,
    Subject,
    /// `subjectPublicKeyInfo`
    Key,
    /// `signatureValue`
    Signature,
}

/// The lines of the report of the certificate that the octets are. Octets that break a rule of DER and can be read have one too.
///
/// # Errors
/// [`ReportError::Refused`] with the reason and the byte, if they are no certificate.
pub fn certificate_report(octets: &[u8]) -> Result<String, ReportError> {
    let (status, text) = written(4096, |text, size| {
        // SAFETY: a slice is memory of its length, and no one else has the variables.
        unsafe { calls::fan_certificate_report(octets.as_ptr(), octets.len(), text.as_mut_ptr(), text.len(), size) }
    });
    let text = String::from_utf8_lossy(&text).into_owned();
    match status {
        OK => Ok(text),
        FAULT => Err(ReportError::Refused(text)),
        status => Err(ReportError::Other(error_of(status))),
    }
}

/// A rule of DER that the octets of a certificate break, if they break one. Octets that are no certificate may break none.
///
/// # Errors
/// [`Error::Deep`] if octets lie inside more than 64 elements which hold others, into which it does not look.
pub fn certificate_broken_rule(octets: &[u8]) -> Result<Option<BrokenRule>, Error> {
    let (mut rule, mut position) = (0, 0);
    // SAFETY: a slice is memory of its length, and the variables belong to this function.
    match unsafe { calls::fan_certificate_broken_rule(octets.as_ptr(), octets.len(), &mut rule, &mut position) } {
        OK => Ok(None),
        FAULT => Ok(Some(BrokenRule { rule, position })),
        status => Err(error_of(status)),
    }
}

/// The element that is this part of the certificate with these octets, if there is one.
pub fn certificate_part(octets: &[u8], part: Part) -> Option<&[u8]> {
    let (mut position, mut size) = (0, 0);
    // SAFETY: as in `certificate_broken_rule`.
    match unsafe { calls::fan_certificate_part(octets.as_ptr(), octets.len(), part as u32, &mut position, &mut size) } {
        OK => Some(&octets[position..][..size]),
        _ => None,
    }
}
