//! The functions of fanughespu.h.

pub(crate) const OK: i32 = 0;
pub(crate) const FAULT: i32 = 1;
pub(crate) const ROOM: i32 = 2;
pub(crate) const MEMORY: i32 = 3;
pub(crate) const DEEP: i32 = 4;

/// `struct fan_element`
#[repr(C)]
#[derive(Default)]
pub(crate) struct RawElement {
    pub(crate) tag_class: u32,
    pub(crate) number: u32,
    pub(crate) constructed: bool,
    pub(crate) header: usize,
    pub(crate) size: usize,
}

/// A call that writes a result into a buffer.
pub(crate) type Writer = unsafe extern "C" fn(*const u8, usize, *mut u8, usize, *mut usize) -> i32;

unsafe extern "C" {
    pub(crate) fn fan_version() -> u32;
    pub(crate) fn fan_der_check(octets: *const u8, length: usize, position: *mut usize) -> i32;
    pub(crate) fn fan_der_element(octets: *const u8, length: usize, element: *mut RawElement) -> i32;
    pub(crate) fn fan_integer_text(octets: *const u8, length: usize, text: *mut u8, room: usize, size: *mut usize) -> i32;
    pub(crate) fn fan_ber_normal(octets: *const u8, length: usize, out: *mut u8, room: usize, size: *mut usize) -> i32;
    pub(crate) fn fan_certificate_report(octets: *const u8, length: usize, text: *mut u8, room: usize, size: *mut usize) -> i32;
    pub(crate) fn fan_ldap_lines(octets: *const u8, length: usize, text: *mut u8, room: usize, size: *mut usize, used: *mut usize) -> i32;
    pub(crate) fn fan_certificate_broken_rule(octets: *const u8, length: usize, rule: *mut u32, position: *mut usize) -> i32;
    pub(crate) fn fan_certificate_part(octets: *const u8, length: usize, part: u32, position: *mut usize, size: *mut usize) -> i32;
}
