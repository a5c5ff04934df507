//! Messages of LDAP.
use crate::calls::{self, FAULT, OK};
use crate::{Error, error_of, written};

/// The messages of LDAP with which octets begin.
#[derive(Clone, Debug, PartialEq, Eq)]
pub struct LdapLines {
    /// Their lines. A message that is not understood has a line that says so.
    pub text: String,
    /// How many octets they have.
    pub used: usize,
    /// Whether the octets behind them begin no message. Else there are none, or they end inside an element.
    pub is_damaged: bool,
}

/// The messages of LDAP with which octets begin, in BER, as lines.
///
/// # Errors
/// [`Error::Memory`].
pub fn ldap_lines(octets: &[u8]) -> Result<LdapLines, Error> {
    let mut used = 0;
    let (status, text) = written(4096, |text, size| {
        // SAFETY: a slice is memory of its length, and no one else has the variables.
        unsafe { calls::fan_ldap_lines(octets.as_ptr(), octets.len(), text.as_mut_ptr(), text.len(), size, &mut used) }
    });
    match status {
        OK | FAULT => {
            let text = String::from_utf8_lossy(&text).into_owned();
            Ok(LdapLines { text, used, is_damaged: status == FAULT })
        }
        status => Err(error_of(status)),
    }
}
