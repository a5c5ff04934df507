//! What ../rows.txt says, by the functions of this crate.
use fanughespu::{
    Error, Part, ReportError, ber_normal, certificate_broken_rule, certificate_part, certificate_report, der_check, der_element,
    integer_text, ldap_lines, version,
};

const PARTS: [Part; 6] = [Part::Signed, Part::SerialNumber, Part::Issuer, Part::Subject, Part::Key, Part::Signature];

fn octets_of(digits: &str) -> Vec<u8> {
    let digits = if digits == "-" { "" } else { digits };
    (0..digits.len()).step_by(2).map(|at| u8::from_str_radix(&digits[at..at + 2], 16).unwrap()).collect()
}

fn digits_of(octets: &[u8]) -> String {
    octets.iter().map(|octet| format!("{octet:02X}")).collect()
}

fn element_text(octets: &[u8]) -> Result<String, Error> {
    let e = der_element(octets)?;
    let header = octets.len() - e.rest.len() - e.contents.len();
    Ok(format!("{} {} {} {header} {}", e.class as u32, e.number, u8::from(e.constructed), e.contents.len()))
}

fn answer_of(call: &str, octets: &[u8]) -> Result<String, Error> {
    match call {
        "der_check" => der_check(octets).map(|()| String::new()),
        "der_element" => element_text(octets),
        "integer_text" => integer_text(octets),
        "ber_normal" => ber_normal(octets).map(|normal| digits_of(&normal)),
        _ => panic!("no such call: {call}"),
    }
}

fn broken_rule(octets: &[u8]) -> (String, String) {
    match certificate_broken_rule(octets) {
        Ok(None) => ("0".to_string(), String::new()),
        Ok(Some(broken)) => ("1".to_string(), format!("{} {}", broken.rule, broken.position)),
        Err(_) => ("4".to_string(), String::new()),
    }
}

/// The part of this number; there is no value for another.
fn certificate_part_text(number: &str, octets: &[u8]) -> (String, String) {
    let part = PARTS.get(number.parse::<usize>().unwrap()).and_then(|part| certificate_part(octets, *part));
    match part {
        Some(element) => ("0".to_string(), format!("{} {}", element.as_ptr() as usize - octets.as_ptr() as usize, element.len())),
        None => ("1".to_string(), String::new()),
    }
}

fn assert_row(row: &str) {
    let parts: Vec<&str> = row.split('|').collect();
    let wanted = if parts[3] == "-" { "" } else { parts[3] };
    let octets = octets_of(parts[1]);
    if let Some(number) = parts[0].strip_prefix("certificate_part_") {
        return assert_eq!(certificate_part_text(number, &octets), (parts[2].to_string(), wanted.to_string()), "{row}");
    }
    if parts[0] == "certificate_broken_rule" {
        return assert_eq!(broken_rule(&octets), (parts[2].to_string(), wanted.to_string()), "{row}");
    }
    let (status, answer) = match answer_of(parts[0], &octets) {
        Ok(answer) => (0, answer),
        Err(Error::NoElement(position)) if parts[0] == "der_check" => (1, position.to_string()),
        Err(Error::NoElement(_) | Error::Malformed) => (1, String::new()),
        Err(Error::Memory) => (3, String::new()),
        Err(Error::Deep) => (4, String::new()),
    };
    assert_eq!((status.to_string().as_str(), answer.as_str()), (parts[2], wanted), "{row}");
}

#[test]
fn rows_are_answered() {
    let rows = include_str!("../../rows.txt");
    rows.lines().filter(|row| !row.starts_with('#')).for_each(assert_row);
}

#[test]
fn a_certificate_has_its_report() {
    let certificate = include_bytes!("../../../examples/certificates/leaf-ec.der");
    let report = include_str!("../../../examples/certificates/leaf-ec.txt");
    assert_eq!(certificate_report(certificate).as_deref(), Ok(report));
    let Err(ReportError::Refused(message)) = certificate_report(&certificate[..40]) else { panic!("it is cut") };
    assert!(message.contains("byte"), "{message}");
}

#[test]
fn messages_of_ldap_have_their_lines() {
    let messages = include_bytes!("../../../examples/ldap/search.ber");
    let lines = ldap_lines(messages).unwrap();
    assert_eq!((lines.text.as_str(), lines.used), (include_str!("../../../examples/ldap/search.txt"), messages.len()));
    assert!(!lines.is_damaged && ldap_lines(&[5, 0]).unwrap().is_damaged);
}

#[test]
fn the_version_is_that_of_the_header() {
    assert_eq!(version(), 1);
}

#[test]
fn threads_call_at_once() {
    let octets = octets_of("300A1605536D6974680101FF");
    std::thread::scope(|scope| {
        for _ in 0..4 {
            scope.spawn(|| (0..1000).for_each(|_| assert_eq!(ber_normal(&octets).as_ref(), Ok(&octets))));
        }
    });
}
