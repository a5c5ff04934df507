//! What rows.txt says, by the printed module.
#[path = "../../crates/greetings_c/greetings.rs"]
mod greetings;
#[path = "../rust/src/heap.rs"]
mod heap;

use greetings::Error;

fn octets_of(digits: &str) -> Vec<u8> {
    let digits = if digits == "-" { "" } else { digits };
    (0..digits.len()).step_by(2).map(|at| u8::from_str_radix(&digits[at..at + 2], 16).unwrap()).collect()
}

fn digits_of(octets: Vec<u8>) -> String {
    octets.iter().map(|octet| format!("{octet:02X}")).collect()
}

fn line_of(text: String) -> String {
    text.trim_end_matches('\n').to_string()
}

fn nothing(_: ()) -> String {
    "-".to_string()
}

fn answer_of(call: &str, octets: &[u8]) -> Result<String, Error> {
    match call {
        "greeting_check" => greetings::greeting_check(octets).map(nothing),
        "greeting_der" => greetings::greeting_der(octets).map(digits_of),
        "greeting_text" => greetings::greeting_text(octets).map(line_of),
        "greeting_json" => greetings::greeting_json(octets).map(line_of),
        "audience_check" => greetings::audience_check(octets).map(nothing),
        "audience_der" => greetings::audience_der(octets).map(digits_of),
        "audience_text" => greetings::audience_text(octets).map(line_of),
        "audience_json" => greetings::audience_json(octets).map(line_of),
        _ => panic!("no such call: {call}"),
    }
}

fn main() {
    for (number, row) in include_str!("rows.txt").lines().enumerate() {
        if row.starts_with('#') {
            continue;
        }
        let parts: Vec<&str> = row.split('|').collect();
        let told = match answer_of(parts[0], &octets_of(parts[1])) {
            Ok(answer) => ("0", answer),
            Err(Error::Fault(position, cause)) if !cause.is_empty() => ("1", position.to_string()),
            Err(Error::Malformed) => ("1", "-".to_string()),
            Err(Error::Deep) => ("4", "-".to_string()),
            Err(error) => ("2", error.to_string()),
        };
        let passes = (told.0, told.1.as_str()) == (parts[2], parts[3]);
        println!("{} greetings in Rust row {} {}", if passes { "ok" } else { "FAILED" }, number + 1, parts[0]);
    }
}
