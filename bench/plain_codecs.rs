//! What `measure_codecs` does with lists and chains, in plain Rust, for comparing times: the same values and bytes, the same refusals,
//! of memory too, and no proof. Its arguments are as there: `packed write person 100000 10`. There are more forms: with `-aborting`
//! after the name of one the program aborts if memory runs out, and `packed-with-table` makes a table of tags.
//!
//!     rustc -O --edition 2024 bench/plain_codecs.rs -o plain_codecs && ./plain_codecs packed read person 100000 10

use std::env;
use std::marker::PhantomData;

/// What differs between the forms.
trait Form {
    /// Whether there are presence marks.
    const HAS_MARKS: bool;
    /// Whether headers, numbers and sets are those of DER.
    const IS_DER: bool;
    /// Whether it is an error if memory runs out, as it is for the layer. Else the program aborts, as is usual in Rust.
    const ANSWERS_MEMORY: bool = true;
    /// Whether the alternative of a `Shape` is looked for in a table of all tags that is made each time, as the layer makes it.
    const MAKES_TABLE: bool = false;
}

struct Packed;
struct WithTags;
struct Der;

/// A form in which the program aborts if memory runs out.
struct Aborting<F>(PhantomData<F>);

/// A form with the table of tags.
struct WithTable<F>(PhantomData<F>);

impl Form for Packed {
    const HAS_MARKS: bool = true;
    const IS_DER: bool = false;
}

impl Form for WithTags {
    const HAS_MARKS: bool = false;
    const IS_DER: bool = false;
}

impl Form for Der {
    const HAS_MARKS: bool = false;
    const IS_DER: bool = true;
}

impl<F: Form> Form for Aborting<F> {
    const HAS_MARKS: bool = F::HAS_MARKS;
    const IS_DER: bool = F::IS_DER;
    const ANSWERS_MEMORY: bool = false;
}

impl<F: Form> Form for WithTable<F> {
    const HAS_MARKS: bool = F::HAS_MARKS;
    const IS_DER: bool = F::IS_DER;
    const MAKES_TABLE: bool = true;
}

#[derive(Clone, Copy, PartialEq, Eq, PartialOrd, Ord)]
struct Tag {
    class: u8,
    number: u32,
}

const fn universal(number: u32) -> Tag {
    Tag { class: 0, number }
}

const fn context(number: u32) -> Tag {
    Tag { class: 2, number }
}

const BOOLEAN: Tag = universal(1);
const INTEGER: Tag = universal(2);
const OCTET_STRING: Tag = universal(4);
const NULL: Tag = universal(5);
const UTF8_STRING: Tag = universal(12);
const SEQUENCE: Tag = universal(16);
const SET: Tag = universal(17);
const VISIBLE_STRING: Tag = universal(26);

#[derive(Clone, Copy, Debug)]
enum Error {
    Memory,
    TooDeep,
    TooLong,
    Missing(usize),
    Malformed,
}

/// An INTEGER of any size: an `i128` where it fits.
enum Integer {
    Narrow(i128),
    Wide { negative: bool, magnitude: Vec<u8> },
}

/// A value that is written and read in each form.
trait Value: Sized {
    fn write<F: Form>(&self, writer: &mut Writer<F>) -> Result<(), Error>;
    fn read<F: Form>(reader: &mut Reader<'_, F>) -> Result<Self, Error>;
}

/// Makes room for this many more in a list. Where the program aborts if memory runs out, the list makes it as it grows.
fn reserve<F: Form, T>(list: &mut Vec<T>, count: usize) -> Result<(), Error> {
    if F::ANSWERS_MEMORY {
        return list.try_reserve(count).map_err(|_| Error::Memory);
    }
    Ok(())
}

fn copied<F: Form, T: Copy>(items: &[T]) -> Result<Vec<T>, Error> {
    if !F::ANSWERS_MEMORY {
        return Ok(items.to_vec());
    }
    let mut copy = Vec::new();
    copy.try_reserve_exact(items.len()).map_err(|_| Error::Memory)?;
    copy.extend_from_slice(items);
    Ok(copy)
}

fn signed<F: Form>(negative: bool, magnitude: &[u8]) -> Result<Vec<u8>, Error> {
    let mut content = Vec::new();
    reserve::<F, _>(&mut content, 1 + magnitude.len())?;
    content.push(u8::from(negative));
    content.extend_from_slice(magnitude);
    Ok(content)
}

/// Negates a number in two's complement.
fn negate(octets: &mut [u8]) {
    let mut carry = true;
    for octet in octets.iter_mut().rev() {
        (*octet, carry) = (!*octet).overflowing_add(u8::from(carry));
    }
}

/// The two's complement of a number that is no `i128`.
fn complement<F: Form>(negative: bool, magnitude: &[u8]) -> Result<Vec<u8>, Error> {
    let mut content = signed::<F>(false, magnitude)?;
    if negative {
        negate(&mut content);
    }
    let sign = if negative { 0xff } else { 0 };
    if content[1] >> 7 == sign >> 7 {
        content.remove(0);
    }
    Ok(content)
}

struct Writer<F> {
    bytes: Vec<u8>,
    depth_left: usize,
    form: PhantomData<F>,
}

impl<F: Form> Writer<F> {
    fn reserve(&mut self, count: usize) -> Result<(), Error> {
        reserve::<F, _>(&mut self.bytes, count)
    }

    /// The identifier octets of DER, of which there are six at most, with room for this many more octets.
    fn identifier(&mut self, tag: Tag, constructed: u8, more: usize) -> Result<(), Error> {
        self.reserve(6 + more)?;
        let first = tag.class << 6 | constructed;
        if tag.number < 31 {
            self.bytes.push(first | tag.number as u8);
            return Ok(());
        }
        self.bytes.push(first | 31);
        let sevens = tag.number.checked_ilog2().unwrap_or(0) / 7;
        for place in (1..=sevens).rev() {
            self.bytes.push(0x80 | (tag.number >> (7 * place)) as u8);
        }
        self.bytes.push(tag.number as u8 & 0x7f);
        Ok(())
    }

    fn scalar_in_der(&mut self, tag: Tag, content: &[u8]) -> Result<(), Error> {
        self.identifier(tag, 0, 1 + content.len())?;
        let start = self.bytes.len();
        self.bytes.push(0);
        self.bytes.extend_from_slice(content);
        self.close_in_der(start)
    }

    /// Puts the length octets at this place, where one byte was left for them.
    fn close_in_der(&mut self, start: usize) -> Result<(), Error> {
        let inside = start + 1;
        let size = self.bytes.len() - inside;
        if size < 128 {
            self.bytes[start] = size as u8;
            return Ok(());
        }
        let octets = size.to_be_bytes();
        let octets = &octets[size.leading_zeros() as usize / 8..];
        self.bytes[start] = 0x80 | octets.len() as u8;
        let end = self.bytes.len();
        self.reserve(octets.len())?;
        self.bytes.resize(end + octets.len(), 0);
        self.bytes.copy_within(inside..end, inside + octets.len());
        self.bytes[inside..inside + octets.len()].copy_from_slice(octets);
        Ok(())
    }

    fn boolean(&mut self, tag: Tag, value: bool) -> Result<(), Error> {
        let there = if F::IS_DER { 0xff } else { 1 };
        self.scalar(tag, 1, &[if value { there } else { 0 }])
    }

    fn scalar(&mut self, tag: Tag, kind: u8, content: &[u8]) -> Result<(), Error> {
        if F::IS_DER {
            return self.scalar_in_der(tag, content);
        }
        let size = u32::try_from(content.len()).map_err(|_| Error::TooLong)?;
        self.reserve(11 + content.len())?;
        let [a, b, c, d] = tag.number.to_be_bytes();
        let [e, f, g, h] = size.to_be_bytes();
        self.bytes.extend_from_slice(&[1, tag.class, a, b, c, d, kind, e, f, g, h]);
        self.bytes.extend_from_slice(content);
        Ok(())
    }

    fn number(&mut self, tag: Tag, kind: u8, number: i128) -> Result<(), Error> {
        if F::IS_DER {
            let bits = if number < 0 { number.leading_ones() } else { number.leading_zeros() };
            let content = &number.to_be_bytes()[(bits as usize - 1) / 8..];
            return self.scalar(tag, kind, content);
        }
        let absolute = number.unsigned_abs();
        let digits = &absolute.to_be_bytes()[absolute.leading_zeros() as usize / 8..];
        self.reserve(12 + digits.len())?;
        let [a, b, c, d] = tag.number.to_be_bytes();
        let (size, sign) = (1 + digits.len() as u8, u8::from(number < 0));
        self.bytes.extend_from_slice(&[1, tag.class, a, b, c, d, kind, 0, 0, 0, size, sign]);
        self.bytes.extend_from_slice(digits);
        Ok(())
    }

    fn integer(&mut self, tag: Tag, number: &Integer) -> Result<(), Error> {
        match number {
            Integer::Narrow(number) => self.number(tag, 2, *number),
            Integer::Wide { negative, magnitude } => {
                let octets = if F::IS_DER { complement::<F> } else { signed::<F> };
                self.scalar(tag, 2, &octets(*negative, magnitude)?)
            }
        }
    }

    fn scope(
        &mut self,
        kind: u8,
        tag: Tag,
        inside: impl FnOnce(&mut Self) -> Result<(), Error>,
    ) -> Result<(), Error> {
        self.depth_left = self.depth_left.checked_sub(1).ok_or(Error::TooDeep)?;
        if F::IS_DER {
            return self.scope_in_der(kind, tag, inside);
        }
        self.reserve(10)?;
        let [a, b, c, d] = tag.number.to_be_bytes();
        self.bytes.extend_from_slice(&[kind, tag.class, a, b, c, d, 0, 0, 0, 0]);
        let start = self.bytes.len();
        inside(self)?;
        let size = u32::try_from(self.bytes.len() - start).map_err(|_| Error::TooLong)?;
        self.bytes[start - 4..start].copy_from_slice(&size.to_be_bytes());
        self.depth_left += 1;
        Ok(())
    }

    fn scope_in_der(
        &mut self,
        kind: u8,
        tag: Tag,
        inside: impl FnOnce(&mut Self) -> Result<(), Error>,
    ) -> Result<(), Error> {
        if kind == 7 {
            inside(self)?;
        } else {
            self.identifier(tag, 0x20, 1)?;
            let start = self.bytes.len();
            self.bytes.push(0);
            inside(self)?;
            self.close_in_der(start)?;
        }
        self.depth_left += 1;
        Ok(())
    }

    fn mark(&mut self, byte: u8) -> Result<(), Error> {
        if F::HAS_MARKS {
            self.reserve(1)?;
            self.bytes.push(byte);
        }
        Ok(())
    }

    fn optional_string(&mut self, tag: Tag, kind: u8, units: Option<&[u8]>) -> Result<(), Error> {
        match units {
            Some(units) => {
                self.mark(0x10)?;
                self.scalar(tag, kind, units)
            }
            None => self.mark(0x11),
        }
    }
}

#[derive(Clone, Copy)]
struct Header<'a> {
    kind: u8,
    tag: Tag,
    size: usize,
    body: &'a [u8],
}

struct Reader<'a, F> {
    left: &'a [u8],
    depth_left: usize,
    form: PhantomData<F>,
}

impl<'a, F: Form> Reader<'a, F> {
    /// The identifier and the length octets, of which each is to be the shortest.
    fn header_in_der(&self) -> Result<Header<'a>, Error> {
        let [first, rest @ ..] = self.left else {
            return Err(Error::Missing(1));
        };
        let (mut number, mut rest) = (u32::from(*first & 31), rest);
        if number == 31 {
            (number, rest) = long_number(rest)?;
        }
        let tag = Tag { class: *first >> 6, number };
        let [length, rest @ ..] = rest else {
            return Err(Error::Missing(1));
        };
        let (mut size, mut body) = (usize::from(*length), rest);
        if size >= 128 {
            let Some((octets, after)) = rest.split_at_checked(size - 128) else {
                return Err(Error::Missing(size - 128 - rest.len()));
            };
            if octets.len() > 8 || octets.first().is_none_or(|octet| *octet == 0) {
                return Err(Error::Malformed);
            }
            size = octets.iter().fold(0, |size, octet| size << 8 | usize::from(*octet));
            if size < 128 {
                return Err(Error::Malformed);
            }
            body = after;
        }
        Ok(Header { kind: *first & 0x20, tag, size, body })
    }

    fn header(&self) -> Result<Header<'a>, Error> {
        if F::IS_DER {
            return self.header_in_der();
        }
        let [kind, rest @ ..] = self.left else {
            return Err(Error::Missing(1));
        };
        let (class, number, size, body) = match (*kind, rest) {
            (1, [class, a, b, c, d, _, e, f, g, h, body @ ..])
            | (2..=7, [class, a, b, c, d, e, f, g, h, body @ ..]) => {
                (*class, [*a, *b, *c, *d], [*e, *f, *g, *h], body)
            }
            (1, _) => return Err(Error::Missing(10 - rest.len())),
            (2..=7, _) => return Err(Error::Missing(9 - rest.len())),
            _ => return Err(Error::Malformed),
        };
        if class > 3 {
            return Err(Error::Malformed);
        }
        let tag = Tag { class, number: u32::from_be_bytes(number) };
        let size = u32::from_be_bytes(size) as usize;
        Ok(Header { kind: *kind, tag, size, body })
    }

    fn take(&mut self, is_wanted: impl FnOnce(Header<'a>) -> bool) -> Result<(Tag, &'a [u8]), Error> {
        let header = self.header()?;
        if !is_wanted(header) {
            return Err(Error::Malformed);
        }
        let Some((inside, rest)) = header.body.split_at_checked(header.size) else {
            return Err(Error::Missing(header.size - header.body.len()));
        };
        self.left = rest;
        Ok((header.tag, inside))
    }

    fn scalar(&mut self, tag: Tag, kind: u8) -> Result<&'a [u8], Error> {
        if F::IS_DER {
            return Ok(self.take(|h| h.kind == 0 && h.tag == tag)?.1);
        }
        let Some((&[1, class, a, b, c, d, content, e, f, g, h], body)) = self.left.split_first_chunk() else {
            // This tells which bytes are missing. Where none are, the item holds others.
            self.header()?;
            return Err(Error::Malformed);
        };
        let number = u32::from_be_bytes([a, b, c, d]);
        if (Tag { class, number }, content) != (tag, kind) {
            return Err(Error::Malformed);
        }
        let size = u32::from_be_bytes([e, f, g, h]) as usize;
        let Some((inside, rest)) = body.split_at_checked(size) else {
            return Err(Error::Missing(size - body.len()));
        };
        self.left = rest;
        Ok(inside)
    }

    fn boolean(&mut self, tag: Tag) -> Result<bool, Error> {
        let there = if F::IS_DER { 0xff } else { 1 };
        match self.scalar(tag, 1)? {
            [0] => Ok(false),
            [byte] if *byte == there => Ok(true),
            _ => Err(Error::Malformed),
        }
    }

    fn integer_in_der(&mut self, tag: Tag) -> Result<Integer, Error> {
        let content = self.scalar(tag, 2)?;
        let negative = match content {
            [] | [0, 0..=0x7f, ..] | [0xff, 0x80..=0xff, ..] => return Err(Error::Malformed),
            [first, ..] => *first >= 0x80,
        };
        if content.len() > 16 {
            let mut magnitude = copied::<F, _>(content)?;
            if negative {
                negate(&mut magnitude);
            }
            let zeros = magnitude.iter().take_while(|digit| **digit == 0).count();
            return Ok(Integer::Wide { negative, magnitude: copied::<F, _>(&magnitude[zeros..])? });
        }
        let start = if negative { -1 } else { 0 };
        Ok(Integer::Narrow(content.iter().fold(start, |number, digit| number << 8 | i128::from(*digit))))
    }

    fn integer(&mut self, tag: Tag, kind: u8) -> Result<Integer, Error> {
        if F::IS_DER {
            return self.integer_in_der(tag);
        }
        let [sign, digits @ ..] = self.scalar(tag, kind)? else {
            return Err(Error::Malformed);
        };
        let negative = *sign == 1;
        if *sign > 1 || digits.first() == Some(&0) || (negative && digits.is_empty()) {
            return Err(Error::Malformed);
        }
        let wide = || Ok(Integer::Wide { negative, magnitude: copied::<F, _>(digits)? });
        if digits.len() > 16 {
            return wide();
        }
        let absolute = digits.iter().fold(0u128, |number, digit| number << 8 | u128::from(*digit));
        let number = if negative {
            0i128.checked_sub_unsigned(absolute)
        } else {
            0i128.checked_add_unsigned(absolute)
        };
        number.map_or_else(wide, |number| Ok(Integer::Narrow(number)))
    }

    fn small<T: TryFrom<i128>>(&mut self, tag: Tag, kind: u8) -> Result<T, Error> {
        match self.integer(tag, kind)? {
            Integer::Narrow(number) => T::try_from(number).map_err(|_| Error::Malformed),
            Integer::Wide { .. } => Err(Error::Malformed),
        }
    }

    fn text(&mut self, tag: Tag) -> Result<String, Error> {
        let units = self.scalar(tag, 8)?;
        let text = std::str::from_utf8(units).map_err(|_| Error::Malformed)?;
        if !F::ANSWERS_MEMORY {
            return Ok(text.to_owned());
        }
        let mut copy = String::new();
        copy.try_reserve_exact(text.len()).map_err(|_| Error::Memory)?;
        copy.push_str(text);
        Ok(copy)
    }

    fn letters(&mut self, tag: Tag, kind: u8, is_allowed: fn(u8) -> bool) -> Result<Vec<u8>, Error> {
        let units = self.scalar(tag, kind)?;
        if units.iter().all(|unit| is_allowed(*unit)) { copied::<F, _>(units) } else { Err(Error::Malformed) }
    }

    fn scope<T>(
        &mut self,
        is_wanted: impl FnOnce(Header<'a>) -> bool,
        inside: impl FnOnce(&mut Self, Tag) -> Result<T, Error>,
    ) -> Result<T, Error> {
        let depth_left = self.depth_left.checked_sub(1).ok_or(Error::TooDeep)?;
        let (tag, body) = self.take(is_wanted)?;
        let outer = std::mem::replace(&mut self.left, body);
        self.depth_left = depth_left;
        let value = inside(self, tag)?;
        if !self.left.is_empty() {
            return Err(Error::Malformed);
        }
        self.left = outer;
        self.depth_left += 1;
        Ok(value)
    }

    /// A CHOICE, which has no item of its own in DER.
    fn choice<T>(&mut self, inside: impl FnOnce(&mut Self, Tag) -> Result<T, Error>) -> Result<T, Error> {
        if F::IS_DER {
            self.depth_left = self.depth_left.checked_sub(1).ok_or(Error::TooDeep)?;
            let tag = self.header()?.tag;
            let value = inside(self, tag)?;
            self.depth_left += 1;
            return Ok(value);
        }
        self.scope(|header| header.kind == 7, inside)
    }

    fn told(&mut self, there: u8, away: u8, tags: &[Tag]) -> Result<bool, Error> {
        if F::HAS_MARKS {
            let [byte, rest @ ..] = self.left else {
                return Err(Error::Missing(1));
            };
            self.left = rest;
            return match *byte {
                byte if byte == there => Ok(true),
                byte if byte == away => Ok(false),
                _ => Err(Error::Malformed),
            };
        }
        Ok(!self.left.is_empty() && tags.contains(&self.header()?.tag))
    }

    fn is_present(&mut self, tag: Tag) -> Result<bool, Error> {
        self.told(0x10, 0x11, &[tag])
    }

    fn skip_marks(&mut self) {
        while let (true, [0x10..=0x14, rest @ ..]) = (F::HAS_MARKS, self.left) {
            self.left = rest;
        }
    }
}

/// The number of a tag that does not fit in the first octet.
fn long_number(bytes: &[u8]) -> Result<(u32, &[u8]), Error> {
    let (mut number, mut left) = (0u32, bytes);
    loop {
        let [octet, rest @ ..] = left else {
            return Err(Error::Missing(1));
        };
        if number >= 1 << 25 || (number == 0 && *octet == 0x80) {
            return Err(Error::Malformed);
        }
        number = number << 7 | u32::from(*octet & 0x7f);
        left = rest;
        if *octet < 0x80 {
            return if number < 31 { Err(Error::Malformed) } else { Ok((number, rest)) };
        }
    }
}

fn is_scope<F: Form>(kind: u8, tag: Tag) -> impl Fn(Header<'_>) -> bool {
    let kind = if F::IS_DER { 0x20 } else { kind };
    move |header| header.kind == kind && header.tag == tag
}

impl<T: Value> Value for Vec<T> {
    fn write<F: Form>(&self, writer: &mut Writer<F>) -> Result<(), Error> {
        writer.scope(4, SEQUENCE, |writer| self.iter().try_for_each(|value| value.write(writer)))
    }

    fn read<F: Form>(reader: &mut Reader<'_, F>) -> Result<Self, Error> {
        reader.scope(is_scope::<F>(4, SEQUENCE), |reader, _| {
            let mut list = Vec::new();
            while !reader.left.is_empty() {
                let value = T::read(reader)?;
                reserve::<F, _>(&mut list, 1)?;
                list.push(value);
            }
            Ok(list)
        })
    }
}

struct Person {
    age: Integer,
    name: String,
}

impl Value for Person {
    fn write<F: Form>(&self, writer: &mut Writer<F>) -> Result<(), Error> {
        writer.scope(2, SEQUENCE, |writer| {
            writer.integer(INTEGER, &self.age)?;
            writer.scalar(UTF8_STRING, 8, self.name.as_bytes())
        })
    }

    fn read<F: Form>(reader: &mut Reader<'_, F>) -> Result<Self, Error> {
        reader.scope(is_scope::<F>(2, SEQUENCE), |reader, _| {
            Ok(Person { age: reader.integer(INTEGER, 2)?, name: reader.text(UTF8_STRING)? })
        })
    }
}

#[derive(Clone, Copy, PartialEq, Eq)]
enum Color {
    Red = 0,
    Green = 1,
    Blue = 5,
}

struct Contact {
    phone: Option<Vec<u8>>,
    mail: Option<Vec<u8>>,
}

struct Profile {
    nick: Option<String>,
    level: u8,
    color: Color,
    contact: Option<Contact>,
}

const PHONE: Tag = context(3);
const MAIL: Tag = context(4);

impl Value for Profile {
    fn write<F: Form>(&self, writer: &mut Writer<F>) -> Result<(), Error> {
        writer.scope(2, SEQUENCE, |writer| {
            writer.optional_string(context(0), 8, self.nick.as_ref().map(|nick| nick.as_bytes()))?;
            writer.number(context(1), 2, i128::from(self.level))?;
            if self.color == Color::Red {
                writer.mark(0x11)?;
            } else {
                writer.mark(0x10)?;
                writer.number(context(2), 3, self.color as i128)?;
            }
            match &self.contact {
                Some(contact) if contact.phone.is_some() || contact.mail.is_some() => {
                    writer.mark(0x12)?;
                    writer.optional_string(PHONE, 14, contact.phone.as_deref())?;
                    writer.optional_string(MAIL, 12, contact.mail.as_deref())?;
                    writer.mark(0x14)?;
                }
                _ => writer.mark(0x13)?,
            }
            Ok(())
        })
    }

    fn read<F: Form>(reader: &mut Reader<'_, F>) -> Result<Self, Error> {
        reader.scope(is_scope::<F>(2, SEQUENCE), |reader, _| {
            let nick = reader.is_present(context(0))?.then(|| reader.text(context(0))).transpose()?;
            let level = reader.small(context(1), 2)?;
            let mut color = Color::Red;
            if reader.is_present(context(2))? {
                color = match reader.small::<isize>(context(2), 3)? {
                    0 => Color::Red,
                    1 => Color::Green,
                    5 => Color::Blue,
                    _ => return Err(Error::Malformed),
                };
            }
            let contact = reader.told(0x12, 0x13, &[PHONE, MAIL])?.then(|| read_contact(reader)).transpose()?;
            Ok(Profile { nick, level, color, contact })
        })
    }
}

fn read_contact<F: Form>(reader: &mut Reader<'_, F>) -> Result<Contact, Error> {
    let mut contact = Contact { phone: None, mail: None };
    if reader.is_present(PHONE)? {
        contact.phone = Some(reader.letters(PHONE, 14, |unit| unit == b' ' || unit.is_ascii_digit())?);
    }
    if reader.is_present(MAIL)? {
        contact.mail = Some(reader.letters(MAIL, 12, |unit| unit.is_ascii())?);
    }
    if F::HAS_MARKS {
        let [0x14, rest @ ..] = reader.left else {
            return Err(Error::Malformed);
        };
        reader.left = rest;
    }
    Ok(contact)
}

enum Corner {
    Left(bool),
    Right(Vec<u8>),
}

enum Shape {
    Dot,
    Ring(u16),
    Inner(Corner),
}

impl Value for Corner {
    fn write<F: Form>(&self, writer: &mut Writer<F>) -> Result<(), Error> {
        match self {
            Corner::Left(left) => {
                writer.scope(7, BOOLEAN, |writer| writer.boolean(BOOLEAN, *left))
            }
            Corner::Right(right) => {
                writer.scope(7, OCTET_STRING, |writer| writer.scalar(OCTET_STRING, 6, right))
            }
        }
    }

    fn read<F: Form>(reader: &mut Reader<'_, F>) -> Result<Self, Error> {
        reader.choice(|reader, tag| match tag {
            BOOLEAN => Ok(Corner::Left(reader.boolean(BOOLEAN)?)),
            OCTET_STRING => Ok(Corner::Right(copied::<F, _>(reader.scalar(OCTET_STRING, 6)?)?)),
            _ => Err(Error::Malformed),
        })
    }
}

impl Shape {
    fn tag(&self) -> Tag {
        match self {
            Shape::Dot => NULL,
            Shape::Ring(_) => context(0),
            Shape::Inner(Corner::Left(_)) => BOOLEAN,
            Shape::Inner(Corner::Right(_)) => OCTET_STRING,
        }
    }
}

impl Value for Shape {
    fn write<F: Form>(&self, writer: &mut Writer<F>) -> Result<(), Error> {
        match self {
            Shape::Dot => writer.scope(7, NULL, |writer| writer.scalar(NULL, 4, &[])),
            Shape::Ring(ring) => {
                writer.scope(7, context(0), |writer| writer.number(context(0), 2, i128::from(*ring)))
            }
            Shape::Inner(corner) => writer.scope(7, self.tag(), |writer| corner.write(writer)),
        }
    }

    fn read<F: Form>(reader: &mut Reader<'_, F>) -> Result<Self, Error> {
        reader.choice(|reader, tag| match leaf_of_shape::<F>(tag)? {
            Some(0) => match reader.scalar(NULL, 4)? {
                [] => Ok(Shape::Dot),
                _ => Err(Error::Malformed),
            },
            Some(1) => Ok(Shape::Ring(reader.small(tag, 2)?)),
            Some(_) => Ok(Shape::Inner(Corner::read(reader)?)),
            None => Err(Error::Malformed),
        })
    }
}

/// The tags of a CHOICE: of each alternative its own, or those of a CHOICE.
enum Tree {
    Leaf(Tag),
    Choice(&'static [Tree]),
}

const SHAPE: &[Tree] = &[
    Tree::Leaf(NULL),
    Tree::Leaf(context(0)),
    Tree::Choice(&[Tree::Leaf(BOOLEAN), Tree::Leaf(OCTET_STRING)]),
];

/// The tags of a `Shape` in ascending order, with their places among the leaves.
const SHAPE_LEAVES: &[(Tag, usize)] = &[(BOOLEAN, 2), (OCTET_STRING, 3), (NULL, 0), (context(0), 1)];

/// The place of a tag among the leaves of a `Shape`.
fn leaf_of_shape<F: Form>(tag: Tag) -> Result<Option<usize>, Error> {
    if F::MAKES_TABLE {
        return leaf_in_table::<F>(SHAPE, SHAPE_LEAVES, tag);
    }
    Ok(match tag {
        NULL => Some(0),
        BOOLEAN => Some(2),
        OCTET_STRING => Some(3),
        tag if tag == context(0) => Some(1),
        _ => None,
    })
}

/// The place of a tag among the leaves of the trees, by a table that is made, and seen to fit them. Inlined, it takes 230
/// instructions more.
#[inline(never)]
fn leaf_in_table<F: Form>(trees: &[Tree], table: &[(Tag, usize)], tag: Tag) -> Result<Option<usize>, Error> {
    let mut leaves = Vec::new();
    push_leaves::<F>(&mut leaves, trees)?;
    let table = copied::<F, _>(table)?;
    let fits = table.len() == leaves.len()
        && table.iter().all(|(leaf, place)| leaves.get(*place) == Some(leaf))
        && table.windows(2).all(|pair| pair[0] < pair[1]);
    if !fits {
        return Ok(leaves.iter().position(|leaf| *leaf == tag));
    }
    Ok(table.binary_search_by_key(&tag, |(leaf, _)| *leaf).ok().map(|found| table[found].1))
}

fn push_leaves<F: Form>(leaves: &mut Vec<Tag>, trees: &[Tree]) -> Result<(), Error> {
    for tree in trees {
        match tree {
            Tree::Leaf(tag) => {
                reserve::<F, _>(leaves, 1)?;
                leaves.push(*tag);
            }
            Tree::Choice(trees) => push_leaves::<F>(leaves, trees)?,
        }
    }
    Ok(())
}

struct Badge {
    id: u32,
    label: Option<Vec<u8>>,
    shape: Shape,
}

impl Value for Badge {
    fn write<F: Form>(&self, writer: &mut Writer<F>) -> Result<(), Error> {
        let tag = self.shape.tag();
        let places = if F::IS_DER { [tag < INTEGER, (INTEGER..VISIBLE_STRING).contains(&tag)] } else { [false; 2] };
        writer.scope(3, SET, |writer| {
            if places[0] {
                self.shape.write(writer)?;
            }
            writer.number(INTEGER, 2, i128::from(self.id))?;
            if places[1] {
                self.shape.write(writer)?;
            }
            writer.optional_string(VISIBLE_STRING, 9, self.label.as_deref())?;
            if places == [false; 2] {
                self.shape.write(writer)?;
            }
            Ok(())
        })
    }

    fn read<F: Form>(reader: &mut Reader<'_, F>) -> Result<Self, Error> {
        reader.scope(is_scope::<F>(3, SET), |reader, _| {
            let (mut id, mut label, mut shape) = (None, None, None);
            loop {
                reader.skip_marks();
                if reader.left.is_empty() {
                    break;
                }
                match reader.header()?.tag {
                    INTEGER if id.is_none() => id = Some(reader.small(INTEGER, 2)?),
                    VISIBLE_STRING if label.is_none() => {
                        let is_visible = |unit: u8| (0x20..0x7f).contains(&unit);
                        label = Some(reader.letters(VISIBLE_STRING, 9, is_visible)?);
                    }
                    _ if shape.is_none() => shape = Some(Shape::read(reader)?),
                    _ => return Err(Error::Malformed),
                }
            }
            match (id, shape) {
                (Some(id), Some(shape)) => Ok(Badge { id, label, shape }),
                _ => Err(Error::Malformed),
            }
        })
    }
}

struct Node {
    label: Option<String>,
    children: Vec<Node>,
}

impl Value for Node {
    fn write<F: Form>(&self, writer: &mut Writer<F>) -> Result<(), Error> {
        writer.scope(2, SEQUENCE, |writer| {
            writer.optional_string(UTF8_STRING, 8, self.label.as_ref().map(|label| label.as_bytes()))?;
            self.children.write(writer)
        })
    }

    fn read<F: Form>(reader: &mut Reader<'_, F>) -> Result<Self, Error> {
        reader.scope(is_scope::<F>(2, SEQUENCE), |reader, _| {
            let label = reader.is_present(UTF8_STRING)?.then(|| reader.text(UTF8_STRING)).transpose()?;
            Ok(Node { label, children: Vec::read(reader)? })
        })
    }
}

fn name_of(number: u32) -> &'static str {
    match number % 4 {
        0 => "Ann",
        1 => "Bartholomew",
        2 => "",
        _ => "Christina of Sweden",
    }
}

fn person(number: u32) -> Person {
    Person { age: Integer::Narrow(i128::from(number)), name: name_of(number).to_owned() }
}

fn profile(number: u32) -> Profile {
    let level = number as u8;
    if number % 2 == 0 {
        let contact = Contact { phone: Some(b"0123".to_vec()), mail: Some(b"a@b.org".to_vec()) };
        return Profile { nick: None, level, color: Color::Blue, contact: Some(contact) };
    }
    Profile { nick: Some(name_of(number).to_owned()), level, color: Color::Red, contact: None }
}

fn badge(number: u32) -> Badge {
    if number % 2 == 0 {
        return Badge { id: number, label: None, shape: Shape::Ring(number as u16) };
    }
    let shape = Shape::Inner(Corner::Left(true));
    Badge { id: number, label: Some(b"visitor".to_vec()), shape }
}

fn node(levels: u32) -> Node {
    let leaf = Node { label: None, children: Vec::new() };
    (0..levels).fold(leaf, |node, _| Node { label: None, children: vec![node] })
}

fn bytes_of<F: Form, T: Value>(value: &T) -> Result<Vec<u8>, Error> {
    let mut writer = Writer::<F> { bytes: Vec::new(), depth_left: usize::MAX, form: PhantomData };
    value.write(&mut writer)?;
    Ok(writer.bytes)
}

fn value_of<F: Form, T: Value>(bytes: &[u8]) -> Result<T, Error> {
    let mut reader = Reader::<F> { left: bytes, depth_left: usize::MAX, form: PhantomData };
    let value = T::read(&mut reader)?;
    if reader.left.is_empty() { Ok(value) } else { Err(Error::Malformed) }
}

fn run<F: Form, T: Value>(value: &T, action: &str, times: u32) -> Result<(), Error> {
    let bytes = bytes_of::<F, T>(value)?;
    for _ in 0..times {
        match action {
            "read" => drop(value_of::<F, T>(&bytes)?),
            _ => drop(bytes_of::<F, T>(value)?),
        }
    }
    let checksum = bytes.iter().fold(0u32, |sum, byte| sum.wrapping_mul(31).wrapping_add(u32::from(*byte)));
    println!("{} bytes, checksum {checksum}", bytes.len());
    Ok(())
}

fn work<F: Form>(action: &str, name: &str, count: u32, times: u32) -> Result<(), Error> {
    match name {
        "person" => run::<F, _>(&(0..count).map(person).collect::<Vec<_>>(), action, times),
        "profile" => run::<F, _>(&(0..count).map(profile).collect::<Vec<_>>(), action, times),
        "badge" => run::<F, _>(&(0..count).map(badge).collect::<Vec<_>>(), action, times),
        _ => run::<F, _>(&node(count), action, times),
    }
}

fn main() {
    let words: Vec<String> = env::args().skip(1).collect();
    let [form, action, name, count, times] = &words[..] else {
        return println!("not understood");
    };
    let (count, times) = (count.parse().unwrap_or(0), times.parse().unwrap_or(0));
    let done = match form.as_str() {
        "packed" => work::<Packed>(action, name, count, times),
        "packed-aborting" => work::<Aborting<Packed>>(action, name, count, times),
        "packed-with-table" => work::<WithTable<Packed>>(action, name, count, times),
        "tag" => work::<WithTags>(action, name, count, times),
        "tag-aborting" => work::<Aborting<WithTags>>(action, name, count, times),
        "der" => work::<Der>(action, name, count, times),
        "der-aborting" => work::<Aborting<Der>>(action, name, count, times),
        _ => return println!("not understood"),
    };
    match done {
        Ok(()) => {}
        Err(Error::Missing(count)) => println!("{count} bytes are missing"),
        Err(error) => println!("{error:?}"),
    }
}
