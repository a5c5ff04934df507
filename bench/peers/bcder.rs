//! The crate `bcder`, as rpki uses it: readers and writers by hand. TYPE is `certificate`; or `persons`, `badges` or `node`, with `-der`
//! or `-ber` behind it; or `entry-ber`. Strings are counted references to the input. Each level of what is written asks for the length
//! of all below it, and no SET OF is sorted.

mod task;

use bcder::decode::{Constructed, Error, Source};
use bcder::encode::{self, Choice2, PrimitiveContent, Values};
use bcder::{BitString, Captured, Integer, Mode, OctetString, Oid, Tag, Utf8String};
use bytes::Bytes;
use std::io;
use task::Task;

/// A type that is read and written.
trait Value: Sized {
    /// The value that comes next, if there is one.
    fn next<S: Source>(content: &mut Constructed<S>) -> Result<Option<Self>, S::Err>;

    fn values(&self) -> impl Values + '_;

    fn one<S: Source>(content: &mut Constructed<S>) -> Result<Self, S::Err> {
        Ok(Self::next(content)?.ok_or(Error::Malformed)?)
    }

    fn list<S: Source>(content: &mut Constructed<S>) -> Result<Vec<Self>, S::Err> {
        let mut list = Vec::new();
        while let Some(value) = Self::next(content)? {
            list.push(value);
        }
        Ok(list)
    }
}

fn all<T: Value>(list: &[T]) -> impl Values + '_ {
    encode::iter(list.iter().map(T::values))
}

impl Value for OctetString {
    fn next<S: Source>(content: &mut Constructed<S>) -> Result<Option<Self>, S::Err> {
        OctetString::take_opt_from(content)
    }

    fn values(&self) -> impl Values + '_ {
        self.encode_ref()
    }
}

struct Certificate {
    tbs_certificate: TbsCertificate,
    signature_algorithm: AlgorithmIdentifier,
    signature: BitString,
}

impl Value for Certificate {
    fn next<S: Source>(content: &mut Constructed<S>) -> Result<Option<Self>, S::Err> {
        content.take_opt_sequence(|content| {
            Ok(Certificate {
                tbs_certificate: TbsCertificate::one(content)?,
                signature_algorithm: AlgorithmIdentifier::one(content)?,
                signature: BitString::take_from(content)?,
            })
        })
    }

    fn values(&self) -> impl Values + '_ {
        encode::sequence((self.tbs_certificate.values(), self.signature_algorithm.values(), self.signature.encode_ref()))
    }
}

struct TbsCertificate {
    version: Option<u8>,
    serial_number: Integer,
    signature: AlgorithmIdentifier,
    issuer: Name,
    validity: (Time, Time),
    subject: Name,
    subject_public_key_info: (AlgorithmIdentifier, BitString),
    issuer_unique_id: Option<BitString>,
    subject_unique_id: Option<BitString>,
    extensions: Option<Vec<Extension>>,
}

impl Value for TbsCertificate {
    fn next<S: Source>(content: &mut Constructed<S>) -> Result<Option<Self>, S::Err> {
        content.take_opt_sequence(|content| {
            Ok(TbsCertificate {
                version: content.take_opt_constructed_if(Tag::CTX_0, |content| content.take_u8())?,
                serial_number: Integer::take_from(content)?,
                signature: AlgorithmIdentifier::one(content)?,
                issuer: Name::one(content)?,
                validity: content.take_sequence(|content| Ok((Time::one(content)?, Time::one(content)?)))?,
                subject: Name::one(content)?,
                subject_public_key_info: content
                    .take_sequence(|content| Ok((AlgorithmIdentifier::one(content)?, BitString::take_from(content)?)))?,
                issuer_unique_id: content.take_opt_value_if(Tag::CTX_1, BitString::from_content)?,
                subject_unique_id: content.take_opt_value_if(Tag::CTX_2, BitString::from_content)?,
                extensions: content.take_opt_constructed_if(Tag::CTX_3, |content| content.take_sequence(Extension::list))?,
            })
        })
    }

    fn values(&self) -> impl Values + '_ {
        let (not_before, not_after) = &self.validity;
        let (key_algorithm, key) = &self.subject_public_key_info;
        encode::sequence((
            self.version.map(|version| version.encode().explicit(Tag::CTX_0)),
            (&self.serial_number).encode(),
            self.signature.values(),
            self.issuer.values(),
            encode::sequence((not_before.values(), not_after.values())),
            self.subject.values(),
            encode::sequence((key_algorithm.values(), key.encode_ref())),
            self.issuer_unique_id.as_ref().map(|bits| bits.encode_ref_as(Tag::CTX_1)),
            self.subject_unique_id.as_ref().map(|bits| bits.encode_ref_as(Tag::CTX_2)),
            self.extensions.as_ref().map(|list| encode::sequence(all(list)).explicit(Tag::CTX_3)),
        ))
    }
}

struct AlgorithmIdentifier {
    algorithm: Oid,
    parameters: Captured,
}

impl Value for AlgorithmIdentifier {
    fn next<S: Source>(content: &mut Constructed<S>) -> Result<Option<Self>, S::Err> {
        content.take_opt_sequence(|content| {
            Ok(AlgorithmIdentifier { algorithm: Oid::take_from(content)?, parameters: content.capture_all()? })
        })
    }

    fn values(&self) -> impl Values + '_ {
        encode::sequence((self.algorithm.encode_ref(), &self.parameters))
    }
}

struct Name(Vec<RelativeDistinguishedName>);

impl Value for Name {
    fn next<S: Source>(content: &mut Constructed<S>) -> Result<Option<Self>, S::Err> {
        content.take_opt_sequence(|content| Ok(Name(RelativeDistinguishedName::list(content)?)))
    }

    fn values(&self) -> impl Values + '_ {
        encode::sequence(all(&self.0))
    }
}

struct RelativeDistinguishedName(Vec<AttributeTypeAndValue>);

impl Value for RelativeDistinguishedName {
    fn next<S: Source>(content: &mut Constructed<S>) -> Result<Option<Self>, S::Err> {
        content.take_opt_set(|content| Ok(RelativeDistinguishedName(AttributeTypeAndValue::list(content)?)))
    }

    fn values(&self) -> impl Values + '_ {
        encode::set(all(&self.0))
    }
}

struct AttributeTypeAndValue {
    attribute_type: Oid,
    value: Captured,
}

impl Value for AttributeTypeAndValue {
    fn next<S: Source>(content: &mut Constructed<S>) -> Result<Option<Self>, S::Err> {
        content.take_opt_sequence(|content| {
            Ok(AttributeTypeAndValue { attribute_type: Oid::take_from(content)?, value: content.capture_one()? })
        })
    }

    fn values(&self) -> impl Values + '_ {
        encode::sequence((self.attribute_type.encode_ref(), &self.value))
    }
}

/// A UTCTime or a GeneralizedTime: digits and a `Z`.
struct Time {
    tag: Tag,
    text: Bytes,
}

impl Value for Time {
    fn next<S: Source>(content: &mut Constructed<S>) -> Result<Option<Self>, S::Err> {
        content.take_opt_primitive(|tag, content| {
            let digits = match tag {
                Tag::UTC_TIME => 12,
                Tag::GENERALIZED_TIME => 14,
                _ => return Err(Error::Malformed.into()),
            };
            let text = content.take_all()?;
            match text.split_last() {
                Some((b'Z', front)) if front.len() == digits && front.iter().all(u8::is_ascii_digit) => Ok(Time { tag, text }),
                _ => Err(Error::Malformed.into()),
            }
        })
    }

    fn values(&self) -> impl Values + '_ {
        self.text.as_ref().encode_as(self.tag)
    }
}

struct Extension {
    extn_id: Oid,
    critical: bool,
    extn_value: OctetString,
}

impl Value for Extension {
    fn next<S: Source>(content: &mut Constructed<S>) -> Result<Option<Self>, S::Err> {
        content.take_opt_sequence(|content| {
            Ok(Extension {
                extn_id: Oid::take_from(content)?,
                critical: content.take_opt_bool()?.unwrap_or(false),
                extn_value: OctetString::take_from(content)?,
            })
        })
    }

    fn values(&self) -> impl Values + '_ {
        encode::sequence((self.extn_id.encode_ref(), self.critical.then(|| true.encode()), self.extn_value.encode_ref()))
    }
}

struct Person {
    age: i64,
    name: Utf8String,
}

impl Value for Person {
    fn next<S: Source>(content: &mut Constructed<S>) -> Result<Option<Self>, S::Err> {
        content.take_opt_sequence(|content| {
            let age = content.take_primitive_if(Tag::INTEGER, |content| content.to_i64())?;
            Ok(Person { age, name: Utf8String::take_from(content)? })
        })
    }

    fn values(&self) -> impl Values + '_ {
        encode::sequence((self.age.encode(), self.name.encode_ref()))
    }
}

struct Badge {
    id: u32,
    label: Option<Bytes>,
    shape: Shape,
}

enum Shape {
    Dot,
    Ring(u16),
    Left(bool),
    Right(OctetString),
}

impl Badge {
    /// The components in any order, each once.
    fn take<S: Source>(content: &mut Constructed<S>) -> Result<Self, S::Err> {
        let (mut id, mut label, mut shape) = (None, None, None);
        while let Some(()) = content.take_opt_value(|tag, content| {
            match tag {
                Tag::INTEGER if id.is_none() => id = Some(content.to_u32()?),
                Tag::VISIBLE_STRING if label.is_none() => {
                    let text = OctetString::from_content(content)?.into_bytes();
                    if !text.iter().all(|unit| (0x20..0x7f).contains(unit)) {
                        return Err(Error::Malformed.into());
                    }
                    label = Some(text);
                }
                _ if shape.is_some() => return Err(Error::Malformed.into()),
                Tag::NULL => {
                    content.to_null()?;
                    shape = Some(Shape::Dot);
                }
                Tag::CTX_0 => shape = Some(Shape::Ring(content.to_u16()?)),
                Tag::BOOLEAN => shape = Some(Shape::Left(content.as_primitive()?.to_bool()?)),
                Tag::OCTET_STRING => shape = Some(Shape::Right(OctetString::from_content(content)?)),
                _ => return Err(Error::Malformed.into()),
            }
            Ok(())
        })? {}
        match (id, shape) {
            (Some(id), Some(shape)) => Ok(Badge { id, label, shape }),
            _ => Err(Error::Malformed.into()),
        }
    }
}

impl Value for Badge {
    fn next<S: Source>(content: &mut Constructed<S>) -> Result<Option<Self>, S::Err> {
        content.take_opt_set(Badge::take)
    }

    /// The components by ascending tags, as DER has them: the shape before the others, between them or behind them.
    fn values(&self) -> impl Values + '_ {
        let (mut first, mut middle, mut last) = (None, None, None);
        match &self.shape {
            Shape::Left(left) => first = Some(left.encode()),
            Shape::Right(right) => middle = Some(Choice2::One(right.encode_ref())),
            Shape::Dot => middle = Some(Choice2::Two(().encode())),
            Shape::Ring(ring) => last = Some(ring.encode_as(Tag::CTX_0)),
        }
        let label = self.label.as_ref().map(|label| label.as_ref().encode_as(Tag::VISIBLE_STRING));
        encode::set((first, self.id.encode(), middle, label, last))
    }
}

struct Node {
    label: Option<Utf8String>,
    children: Vec<Node>,
}

impl Value for Node {
    fn next<S: Source>(content: &mut Constructed<S>) -> Result<Option<Self>, S::Err> {
        content.take_opt_sequence(|content| {
            let label = content.take_opt_value_if(Tag::UTF8_STRING, Utf8String::from_content)?;
            Ok(Node { label, children: content.take_sequence(Node::list)? })
        })
    }

    fn values(&self) -> impl Values + '_ {
        encode::sequence((self.label.as_ref().map(Utf8String::encode_ref), encode::sequence(&self.children)))
    }
}

/// The children are written by this, since the type of `values` must not hold itself.
impl Values for Node {
    fn encoded_len(&self, mode: Mode) -> usize {
        self.values().encoded_len(mode)
    }

    fn write_encoded<W: io::Write>(&self, mode: Mode, target: &mut W) -> io::Result<()> {
        self.values().write_encoded(mode, target)
    }
}

/// A message of LDAP with an entry.
struct Entry {
    message_id: i64,
    object_name: OctetString,
    attributes: Vec<PartialAttribute>,
}

impl Value for Entry {
    fn next<S: Source>(content: &mut Constructed<S>) -> Result<Option<Self>, S::Err> {
        content.take_opt_sequence(|content| {
            let message_id = content.take_primitive_if(Tag::INTEGER, |content| content.to_i64())?;
            content.take_constructed_if(Tag::application(4), |content| {
                let object_name = OctetString::take_from(content)?;
                Ok(Entry { message_id, object_name, attributes: content.take_sequence(PartialAttribute::list)? })
            })
        })
    }

    fn values(&self) -> impl Values + '_ {
        let entry = (self.object_name.encode_ref(), encode::sequence(all(&self.attributes)));
        encode::sequence((self.message_id.encode(), encode::sequence_as(Tag::application(4), entry)))
    }
}

struct PartialAttribute {
    attribute_type: OctetString,
    vals: Vec<OctetString>,
}

impl Value for PartialAttribute {
    fn next<S: Source>(content: &mut Constructed<S>) -> Result<Option<Self>, S::Err> {
        content.take_opt_sequence(|content| {
            let attribute_type = OctetString::take_from(content)?;
            Ok(PartialAttribute { attribute_type, vals: content.take_set(OctetString::list)? })
        })
    }

    fn values(&self) -> impl Values + '_ {
        encode::sequence((self.attribute_type.encode_ref(), encode::set(all(&self.vals))))
    }
}

/// A SEQUENCE OF.
struct List<T>(Vec<T>);

impl<T: Value> Value for List<T> {
    fn next<S: Source>(content: &mut Constructed<S>) -> Result<Option<Self>, S::Err> {
        content.take_opt_sequence(|content| Ok(List(T::list(content)?)))
    }

    fn values(&self) -> impl Values + '_ {
        encode::sequence(all(&self.0))
    }
}

fn run<T: Value>(task: &Task, input: &Bytes, mode: Mode) {
    task.run(
        input,
        |input| mode.decode(input.clone(), T::one).expect("a value"),
        |value| {
            let values = value.values();
            let mut bytes = Vec::with_capacity(values.encoded_len(mode));
            values.write_encoded(mode, &mut bytes).expect("a value that is written");
            bytes
        },
    );
}

fn main() -> io::Result<()> {
    let (task, input) = Task::of_process()?;
    let input = Bytes::from(input);
    let mode = if task.type_name.ends_with("-ber") { Mode::Ber } else { Mode::Der };
    match task.type_name.as_str() {
        "certificate" => run::<Certificate>(&task, &input, mode),
        "persons-der" | "persons-ber" => run::<List<Person>>(&task, &input, mode),
        "badges-der" | "badges-ber" => run::<List<Badge>>(&task, &input, mode),
        "node-der" | "node-ber" => run::<Node>(&task, &input, mode),
        "entry-ber" => run::<Entry>(&task, &input, mode),
        _ => println!("not understood"),
    }
    Ok(())
}
