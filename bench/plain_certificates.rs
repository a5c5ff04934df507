//! What `measure_certificates` does with a certificate, in plain Rust, for comparing times: the same fields, each an owned value, the
//! same refusals, and no proof. It knows DER and these types alone.
//!
//!     rustc -O --edition 2024 bench/plain_certificates.rs -o plain_certificates
//!     ./plain_certificates 1000 0 < examples/certificates/leaf-ec.der
//!
//! A BIT STRING is kept as its bytes; with `--cfg bools` it is a `bool` for each bit, as it is in the layer, so that the program makes the
//! same values, but for integers beyond `i128`, which it keeps in two's complement.

use std::env;
use std::hint::black_box;
use std::io::{self, Read};

// The identifier octets of the elements, constructed where they hold others.
const BOOLEAN: u8 = 1;
const INTEGER: u8 = 2;
const BIT_STRING: u8 = 3;
const OCTET_STRING: u8 = 4;
const OBJECT_IDENTIFIER: u8 = 6;
const UTC_TIME: u8 = 23;
const GENERALIZED_TIME: u8 = 24;
const SEQUENCE: u8 = 0x30;
const SET: u8 = 0x31;
const VERSION: u8 = 0xa0;
const ISSUER_UNIQUE_ID: u8 = 0x81;
const SUBJECT_UNIQUE_ID: u8 = 0x82;
const EXTENSIONS: u8 = 0xa3;

#[derive(Debug)]
enum Error {
    /// The bytes end before an element does.
    Missing,
    /// An element is not what it has to be.
    Malformed,
}

/// An INTEGER: an `i128` where it fits, and else its two's complement.
#[derive(PartialEq, Eq)]
enum Integer {
    Narrow(i128),
    Wide(Vec<u8>),
}

/// Bits, the first of them the highest of the first byte.
#[cfg(not(bools))]
struct BitString {
    unused: u8,
    bytes: Vec<u8>,
}

#[cfg(not(bools))]
impl BitString {
    fn of_bytes(unused: u8, bytes: &[u8]) -> BitString {
        BitString { unused, bytes: bytes.to_vec() }
    }

    fn append_to(&self, bytes: &mut Vec<u8>) {
        bytes.push(self.unused);
        bytes.extend_from_slice(&self.bytes);
    }
}

/// Bits, a `bool` for each.
#[cfg(bools)]
struct BitString(Vec<bool>);

#[cfg(bools)]
impl BitString {
    fn of_bytes(unused: u8, bytes: &[u8]) -> BitString {
        let mut bits = vec![false; 8 * bytes.len()];
        for (eight, byte) in bits.chunks_exact_mut(8).zip(bytes) {
            let of = |at: u32| byte >> at & 1 == 1;
            eight.copy_from_slice(&[of(7), of(6), of(5), of(4), of(3), of(2), of(1), of(0)]);
        }
        bits.truncate(bits.len() - usize::from(unused));
        BitString(bits)
    }

    fn append_to(&self, bytes: &mut Vec<u8>) {
        let BitString(bits) = self;
        bytes.push(((8 - bits.len() % 8) % 8) as u8);
        let whole = bits.chunks_exact(8);
        let rest = whole.remainder();
        bytes.extend(whole.map(|eight| eight.iter().fold(0, |byte, &bit| byte << 1 | u8::from(bit))));
        if !rest.is_empty() {
            bytes.push(rest.iter().enumerate().fold(0, |byte, (at, &bit)| byte | u8::from(bit) << (7 - at)));
        }
    }
}

/// The arcs of an OBJECT IDENTIFIER.
struct ObjectId(Vec<u32>);

/// An open type: an element of any kind.
struct Any(Vec<u8>);

struct AlgorithmIdentifier {
    algorithm: ObjectId,
    parameters: Option<Any>,
}

struct Attribute {
    kind: ObjectId,
    value: Any,
}

/// A list of sets.
struct Name(Vec<Vec<Attribute>>);

enum Time {
    Utc(String),
    General(String),
}

struct Validity {
    not_before: Time,
    not_after: Time,
}

struct PublicKey {
    algorithm: AlgorithmIdentifier,
    key: BitString,
}

struct Extension {
    kind: ObjectId,
    critical: bool,
    value: Vec<u8>,
}

struct SignedPart {
    version: Integer,
    serial_number: Integer,
    signature: AlgorithmIdentifier,
    issuer: Name,
    validity: Validity,
    subject: Name,
    public_key: PublicKey,
    issuer_unique_id: Option<BitString>,
    subject_unique_id: Option<BitString>,
    extensions: Option<Vec<Extension>>,
}

struct Certificate {
    signed_part: SignedPart,
    signature_algorithm: AlgorithmIdentifier,
    signature: BitString,
}

/// An element: its first identifier octet, and its contents.
struct Element<'a> {
    identifier: u8,
    contents: &'a [u8],
}

struct Reader<'a> {
    left: &'a [u8],
}

impl<'a> Reader<'a> {
    fn octet(&mut self) -> Result<u8, Error> {
        let (&first, rest) = self.left.split_first().ok_or(Error::Missing)?;
        self.left = rest;
        Ok(first)
    }

    fn octets(&mut self, count: usize) -> Result<&'a [u8], Error> {
        let (octets, rest) = self.left.split_at_checked(count).ok_or(Error::Missing)?;
        self.left = rest;
        Ok(octets)
    }

    /// A number in base 128.
    fn base_128(&mut self) -> Result<u64, Error> {
        let mut octet = self.octet()?;
        if octet == 0x80 {
            return Err(Error::Malformed);
        }
        let mut number = 0u64;
        while octet >= 0x80 {
            number = number << 7 | u64::from(octet & 0x7f);
            if number >> 57 != 0 {
                return Err(Error::Malformed);
            }
            octet = self.octet()?;
        }
        Ok(number << 7 | u64::from(octet))
    }

    fn length(&mut self) -> Result<usize, Error> {
        let first = self.octet()?;
        if first < 0x80 {
            return Ok(usize::from(first));
        }
        let octets = self.octets(usize::from(first & 0x7f))?;
        if octets.len() > 8 || octets.first().is_none_or(|&octet| octet == 0) {
            return Err(Error::Malformed);
        }
        let length = octets.iter().fold(0, |length, &octet| length << 8 | usize::from(octet));
        if length < 0x80 { Err(Error::Malformed) } else { Ok(length) }
    }

    fn element(&mut self) -> Result<Element<'a>, Error> {
        let identifier = self.octet()?;
        if identifier & 31 == 31 {
            let number = self.base_128()?;
            if number < 31 || number > u64::from(u32::MAX) {
                return Err(Error::Malformed);
            }
        }
        let length = self.length()?;
        Ok(Element { identifier, contents: self.octets(length)? })
    }

    /// The contents of the next element, which has to begin with this octet.
    fn contents(&mut self, identifier: u8) -> Result<&'a [u8], Error> {
        let element = self.element()?;
        if element.identifier == identifier { Ok(element.contents) } else { Err(Error::Malformed) }
    }

    /// What is inside the next element, all of which is read.
    fn inside<T>(&mut self, identifier: u8, read: impl FnOnce(&mut Self) -> Result<T, Error>) -> Result<T, Error> {
        let mut inside = Reader { left: self.contents(identifier)? };
        let value = read(&mut inside)?;
        inside.end()?;
        Ok(value)
    }

    fn end(&self) -> Result<(), Error> {
        if self.left.is_empty() { Ok(()) } else { Err(Error::Malformed) }
    }

    fn has_next(&self, identifier: u8) -> bool {
        self.left.first() == Some(&identifier)
    }

    /// What is read if the next element begins with this octet.
    fn optional<T>(
        &mut self,
        identifier: u8,
        read: impl FnOnce(&mut Self) -> Result<T, Error>,
    ) -> Result<Option<T>, Error> {
        if self.has_next(identifier) { read(self).map(Some) } else { Ok(None) }
    }

    fn list<T>(&mut self, mut read: impl FnMut(&mut Self) -> Result<T, Error>) -> Result<Vec<T>, Error> {
        let mut list = Vec::new();
        while !self.left.is_empty() {
            list.push(read(self)?);
        }
        Ok(list)
    }

    /// A list whose elements ascend as bytes.
    fn ascending_list<T>(&mut self, read: impl Fn(&mut Self) -> Result<T, Error>) -> Result<Vec<T>, Error> {
        let mut last: &[u8] = &[];
        self.list(|reader| {
            let before = reader.left;
            let value = read(reader)?;
            let own = &before[..before.len() - reader.left.len()];
            if own < std::mem::replace(&mut last, own) { Err(Error::Malformed) } else { Ok(value) }
        })
    }

    fn boolean(&mut self) -> Result<bool, Error> {
        match self.contents(BOOLEAN)? {
            [0] => Ok(false),
            [0xff] => Ok(true),
            _ => Err(Error::Malformed),
        }
    }

    fn integer(&mut self) -> Result<Integer, Error> {
        let octets = self.contents(INTEGER)?;
        match octets {
            [] | [0, 0..=0x7f, ..] | [0xff, 0x80..=0xff, ..] => Err(Error::Malformed),
            [first, ..] if octets.len() <= 16 => {
                let mut wide = [if *first < 0x80 { 0 } else { 0xff }; 16];
                wide[16 - octets.len()..].copy_from_slice(octets);
                Ok(Integer::Narrow(i128::from_be_bytes(wide)))
            }
            _ => Ok(Integer::Wide(octets.to_vec())),
        }
    }

    fn object_id(&mut self) -> Result<ObjectId, Error> {
        let mut inside = Reader { left: self.contents(OBJECT_IDENTIFIER)? };
        let joined = inside.base_128()?;
        let first = (joined / 40).min(2);
        let mut arcs = Vec::with_capacity(inside.left.len() + 2);
        arcs.push(first as u32);
        arcs.push(arc(joined - 40 * first)?);
        while !inside.left.is_empty() {
            arcs.push(arc(inside.base_128()?)?);
        }
        Ok(ObjectId(arcs))
    }

    fn bits(&mut self, identifier: u8) -> Result<BitString, Error> {
        let (&unused, bytes) = self.contents(identifier)?.split_first().ok_or(Error::Malformed)?;
        let last = bytes.last().copied().unwrap_or(0);
        if unused > 7 || bytes.is_empty() && unused > 0 || last & ((1 << unused) - 1) != 0 {
            return Err(Error::Malformed);
        }
        Ok(BitString::of_bytes(unused, bytes))
    }

    fn any(&mut self) -> Result<Any, Error> {
        let before = self.left;
        self.element()?;
        Ok(Any(before[..before.len() - self.left.len()].to_vec()))
    }

    fn text(&mut self, identifier: u8) -> Result<String, Error> {
        let octets = self.contents(identifier)?;
        if !octets.iter().all(|octet| (0x20..0x7f).contains(octet)) {
            return Err(Error::Malformed);
        }
        String::from_utf8(octets.to_vec()).map_err(|_| Error::Malformed)
    }
}

fn arc(number: u64) -> Result<u32, Error> {
    u32::try_from(number).map_err(|_| Error::Malformed)
}

struct Writer {
    bytes: Vec<u8>,
}

impl Writer {
    /// An element with what this writes as its contents.
    fn element(&mut self, identifier: u8, contents: impl FnOnce(&mut Self)) {
        self.bytes.extend([identifier, 0]);
        let start = self.bytes.len();
        contents(self);
        let length = self.bytes.len() - start;
        if length < 0x80 {
            self.bytes[start - 1] = length as u8;
            return;
        }
        let octets = length.to_be_bytes();
        let octets = &octets[length.leading_zeros() as usize / 8..];
        self.bytes[start - 1] = 0x80 | octets.len() as u8;
        self.bytes.splice(start..start, octets.iter().copied());
    }

    fn primitive(&mut self, identifier: u8, contents: &[u8]) {
        self.element(identifier, |writer| writer.bytes.extend_from_slice(contents));
    }

    fn base_128(&mut self, number: u64) {
        for place in (1..=number.checked_ilog2().unwrap_or(0) / 7).rev() {
            self.bytes.push(0x80 | (number >> (7 * place)) as u8);
        }
        self.bytes.push(number as u8 & 0x7f);
    }

    fn integer(&mut self, integer: &Integer) {
        match integer {
            Integer::Narrow(number) => {
                let unused = number.leading_zeros().max(number.leading_ones()) - 1;
                self.primitive(INTEGER, &number.to_be_bytes()[unused as usize / 8..]);
            }
            Integer::Wide(octets) => self.primitive(INTEGER, octets),
        }
    }

    fn object_id(&mut self, ObjectId(arcs): &ObjectId) {
        self.element(OBJECT_IDENTIFIER, |writer| {
            writer.base_128(40 * u64::from(arcs[0]) + u64::from(arcs[1]));
            for &arc in &arcs[2..] {
                writer.base_128(u64::from(arc));
            }
        });
    }

    fn bits(&mut self, identifier: u8, bits: &BitString) {
        self.element(identifier, |writer| bits.append_to(&mut writer.bytes));
    }

    /// A list in the order of its elements' bytes.
    fn ascending_list<T>(&mut self, list: &[T], write: impl Fn(&T, &mut Self)) {
        let start = self.bytes.len();
        let mut ends = Vec::with_capacity(list.len());
        for value in list {
            write(value, self);
            ends.push(self.bytes.len());
        }
        let mut from = start;
        let mut elements: Vec<_> = ends
            .into_iter()
            .map(|end| &self.bytes[std::mem::replace(&mut from, end)..end])
            .collect();
        if !elements.is_sorted() {
            elements.sort();
            let sorted = elements.concat();
            self.bytes.truncate(start);
            self.bytes.extend_from_slice(&sorted);
        }
    }
}

impl AlgorithmIdentifier {
    fn read(reader: &mut Reader<'_>) -> Result<AlgorithmIdentifier, Error> {
        reader.inside(SEQUENCE, |reader| {
            Ok(AlgorithmIdentifier {
                algorithm: reader.object_id()?,
                parameters: if reader.left.is_empty() { None } else { Some(reader.any()?) },
            })
        })
    }

    fn write(&self, writer: &mut Writer) {
        writer.element(SEQUENCE, |writer| {
            writer.object_id(&self.algorithm);
            if let Some(Any(element)) = &self.parameters {
                writer.bytes.extend_from_slice(element);
            }
        });
    }
}

impl Attribute {
    fn read(reader: &mut Reader<'_>) -> Result<Attribute, Error> {
        reader.inside(SEQUENCE, |reader| Ok(Attribute { kind: reader.object_id()?, value: reader.any()? }))
    }

    fn write(&self, writer: &mut Writer) {
        writer.element(SEQUENCE, |writer| {
            writer.object_id(&self.kind);
            writer.bytes.extend_from_slice(&self.value.0);
        });
    }
}

impl Name {
    fn read(reader: &mut Reader<'_>) -> Result<Name, Error> {
        let sets = reader.inside(SEQUENCE, |reader| {
            reader.list(|reader| reader.inside(SET, |reader| reader.ascending_list(Attribute::read)))
        })?;
        Ok(Name(sets))
    }

    fn write(&self, writer: &mut Writer) {
        writer.element(SEQUENCE, |writer| {
            for set in &self.0 {
                writer.element(SET, |writer| writer.ascending_list(set, Attribute::write));
            }
        });
    }
}

impl Time {
    fn read(reader: &mut Reader<'_>) -> Result<Time, Error> {
        if reader.has_next(UTC_TIME) {
            return reader.text(UTC_TIME).map(Time::Utc);
        }
        reader.text(GENERALIZED_TIME).map(Time::General)
    }

    fn write(&self, writer: &mut Writer) {
        match self {
            Time::Utc(text) => writer.primitive(UTC_TIME, text.as_bytes()),
            Time::General(text) => writer.primitive(GENERALIZED_TIME, text.as_bytes()),
        }
    }
}

impl Validity {
    fn read(reader: &mut Reader<'_>) -> Result<Validity, Error> {
        reader.inside(SEQUENCE, |reader| {
            Ok(Validity { not_before: Time::read(reader)?, not_after: Time::read(reader)? })
        })
    }

    fn write(&self, writer: &mut Writer) {
        writer.element(SEQUENCE, |writer| {
            self.not_before.write(writer);
            self.not_after.write(writer);
        });
    }
}

impl PublicKey {
    fn read(reader: &mut Reader<'_>) -> Result<PublicKey, Error> {
        reader.inside(SEQUENCE, |reader| {
            Ok(PublicKey { algorithm: AlgorithmIdentifier::read(reader)?, key: reader.bits(BIT_STRING)? })
        })
    }

    fn write(&self, writer: &mut Writer) {
        writer.element(SEQUENCE, |writer| {
            self.algorithm.write(writer);
            writer.bits(BIT_STRING, &self.key);
        });
    }
}

impl Extension {
    fn read(reader: &mut Reader<'_>) -> Result<Extension, Error> {
        reader.inside(SEQUENCE, |reader| {
            Ok(Extension {
                kind: reader.object_id()?,
                critical: reader.optional(BOOLEAN, Reader::boolean)?.unwrap_or(false),
                value: reader.contents(OCTET_STRING)?.to_vec(),
            })
        })
    }

    fn write(&self, writer: &mut Writer) {
        writer.element(SEQUENCE, |writer| {
            writer.object_id(&self.kind);
            if self.critical {
                writer.primitive(BOOLEAN, &[0xff]);
            }
            writer.primitive(OCTET_STRING, &self.value);
        });
    }
}

impl SignedPart {
    fn read(reader: &mut Reader<'_>) -> Result<SignedPart, Error> {
        reader.inside(SEQUENCE, |reader| {
            let version = reader.optional(VERSION, |reader| reader.inside(VERSION, Reader::integer))?;
            Ok(SignedPart {
                version: version.unwrap_or(Integer::Narrow(0)),
                serial_number: reader.integer()?,
                signature: AlgorithmIdentifier::read(reader)?,
                issuer: Name::read(reader)?,
                validity: Validity::read(reader)?,
                subject: Name::read(reader)?,
                public_key: PublicKey::read(reader)?,
                issuer_unique_id: reader.optional(ISSUER_UNIQUE_ID, |reader| reader.bits(ISSUER_UNIQUE_ID))?,
                subject_unique_id: reader.optional(SUBJECT_UNIQUE_ID, |reader| reader.bits(SUBJECT_UNIQUE_ID))?,
                extensions: reader.optional(EXTENSIONS, |reader| {
                    reader.inside(EXTENSIONS, |reader| {
                        reader.inside(SEQUENCE, |reader| reader.list(Extension::read))
                    })
                })?,
            })
        })
    }

    fn write(&self, writer: &mut Writer) {
        writer.element(SEQUENCE, |writer| {
            if self.version != Integer::Narrow(0) {
                writer.element(VERSION, |writer| writer.integer(&self.version));
            }
            writer.integer(&self.serial_number);
            self.signature.write(writer);
            self.issuer.write(writer);
            self.validity.write(writer);
            self.subject.write(writer);
            self.public_key.write(writer);
            if let Some(id) = &self.issuer_unique_id {
                writer.bits(ISSUER_UNIQUE_ID, id);
            }
            if let Some(id) = &self.subject_unique_id {
                writer.bits(SUBJECT_UNIQUE_ID, id);
            }
            if let Some(extensions) = &self.extensions {
                writer.element(EXTENSIONS, |writer| {
                    writer.element(SEQUENCE, |writer| {
                        for extension in extensions {
                            extension.write(writer);
                        }
                    });
                });
            }
        });
    }
}

impl Certificate {
    fn read(bytes: &[u8]) -> Result<Certificate, Error> {
        let mut reader = Reader { left: bytes };
        let certificate = reader.inside(SEQUENCE, |reader| {
            Ok(Certificate {
                signed_part: SignedPart::read(reader)?,
                signature_algorithm: AlgorithmIdentifier::read(reader)?,
                signature: reader.bits(BIT_STRING)?,
            })
        })?;
        reader.end()?;
        Ok(certificate)
    }

    fn written(&self) -> Vec<u8> {
        let mut writer = Writer { bytes: Vec::new() };
        writer.element(SEQUENCE, |writer| {
            self.signed_part.write(writer);
            self.signature_algorithm.write(writer);
            writer.bits(BIT_STRING, &self.signature);
        });
        writer.bytes
    }
}

fn work(input: &[u8], reads: u32, writes: u32) -> Result<Vec<u8>, Error> {
    for _ in 0..reads {
        black_box(Certificate::read(black_box(input))?);
    }
    let certificate = Certificate::read(input)?;
    for _ in 0..writes {
        black_box(black_box(&certificate).written());
    }
    Ok(certificate.written())
}

fn main() -> io::Result<()> {
    let mut words = env::args().skip(1);
    let mut number = || words.next().and_then(|word| word.parse().ok()).unwrap_or(0);
    let (reads, writes) = (number(), number());
    let mut input = Vec::new();
    io::stdin().read_to_end(&mut input)?;
    match work(&input, reads, writes) {
        Ok(bytes) => {
            let checksum = bytes.iter().fold(0u32, |sum, &byte| sum.wrapping_mul(31).wrapping_add(u32::from(byte)));
            println!("{} bytes, checksum {checksum}", bytes.len());
        }
        Err(error) => println!("not read: {error:?}"),
    }
    Ok(())
}
