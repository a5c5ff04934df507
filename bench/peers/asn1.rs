//! The crate `asn1`, on which Python's `cryptography` stands. TYPE is `certificate`, `persons-der` or `node-der`, with values that borrow
//! the input; or one of these with `-owned`, with values that own their octets, as ours do. A list that borrows is checked, and parsed
//! again where it is used. The crate has no SET but SET OF, and no BER.

mod task;

use asn1::{Asn1Readable, Asn1Writable};
use std::io;
use task::Task;

/// The types, of parts that a module names: `types!('a)` of parts that borrow, `types!()` of parts that own their octets.
macro_rules! types {
    ($($life:lifetime)?) => {
        type Name$(<$life>)? = SequenceOf<$($life,)? SetOf<$($life,)? AttributeTypeAndValue$(<$life>)?>>;

        #[derive(Asn1Read, Asn1Write)]
        pub struct Certificate$(<$life>)? {
            tbs_certificate: TbsCertificate$(<$life>)?,
            signature_algorithm: AlgorithmIdentifier$(<$life>)?,
            signature: BitString$(<$life>)?,
        }

        #[derive(Asn1Read, Asn1Write)]
        struct TbsCertificate$(<$life>)? {
            #[explicit(0)]
            #[default(0)]
            version: u8,
            serial_number: Integer$(<$life>)?,
            signature: AlgorithmIdentifier$(<$life>)?,
            issuer: Name$(<$life>)?,
            validity: Validity,
            subject: Name$(<$life>)?,
            subject_public_key_info: SubjectPublicKeyInfo$(<$life>)?,
            #[implicit(1)]
            issuer_unique_id: Option<BitString$(<$life>)?>,
            #[implicit(2)]
            subject_unique_id: Option<BitString$(<$life>)?>,
            #[explicit(3)]
            extensions: Option<SequenceOf<$($life,)? Extension$(<$life>)?>>,
        }

        #[derive(Asn1Read, Asn1Write)]
        struct AlgorithmIdentifier$(<$life>)? {
            algorithm: ObjectIdentifier,
            parameters: Option<Any$(<$life>)?>,
        }

        #[derive(Asn1Read, Asn1Write)]
        struct AttributeTypeAndValue$(<$life>)? {
            attribute_type: ObjectIdentifier,
            value: Any$(<$life>)?,
        }

        #[derive(Asn1Read, Asn1Write)]
        struct SubjectPublicKeyInfo$(<$life>)? {
            algorithm: AlgorithmIdentifier$(<$life>)?,
            subject_public_key: BitString$(<$life>)?,
        }

        #[derive(Asn1Read, Asn1Write)]
        struct Extension$(<$life>)? {
            extn_id: ObjectIdentifier,
            #[default(false)]
            critical: bool,
            extn_value: OctetString$(<$life>)?,
        }

        #[derive(Asn1Read, Asn1Write)]
        pub struct Person$(<$life>)? {
            age: i64,
            name: Utf8String$(<$life>)?,
        }

        #[derive(Asn1Read, Asn1Write)]
        pub struct Node$(<$life>)? {
            label: Option<Utf8String$(<$life>)?>,
            children: SequenceOf<$($life,)? Node$(<$life>)?>,
        }
    };
}

/// Times are numbers, which borrow nothing.
mod times {
    use asn1::{Asn1Read, Asn1Write, GeneralizedTime, UtcTime};

    #[derive(Asn1Read, Asn1Write)]
    pub struct Validity {
        not_before: Time,
        not_after: Time,
    }

    #[derive(Asn1Read, Asn1Write)]
    enum Time {
        Utc(UtcTime),
        General(GeneralizedTime),
    }
}

mod borrowed {
    use super::times::Validity;
    pub use asn1::SequenceOf;
    use asn1::{Asn1Read, Asn1Write, BigInt as Integer, BitString, ObjectIdentifier, SetOf, Tlv as Any, Utf8String};

    type OctetString<'a> = &'a [u8];

    types!('a);
}

mod owned {
    use super::times::Validity;
    use asn1::{Asn1Read, Asn1Readable, Asn1Writable, Asn1Write, ObjectIdentifier, OwnedBitString as BitString};
    use asn1::{ParseResult, Parser, SimpleAsn1Readable, SimpleAsn1Writable, Tag, Tlv, WriteBuf, WriteResult, Writer};

    types!();

    /// Declares a type that owns the octets of another, made by `own` and used by `lend`.
    macro_rules! owns {
        ($name:ident($octets:ty) of $borrowed:ty, $own:expr, $lend:expr) => {
            struct $name($octets);

            impl<'a> SimpleAsn1Readable<'a> for $name {
                const TAG: Tag = <$borrowed as SimpleAsn1Readable>::TAG;

                fn parse_data(data: &'a [u8]) -> ParseResult<Self> {
                    Ok($name($own(<$borrowed>::parse_data(data)?)))
                }
            }

            impl SimpleAsn1Writable for $name {
                const TAG: Tag = <$borrowed as SimpleAsn1Readable>::TAG;

                fn write_data(&self, buffer: &mut WriteBuf) -> WriteResult {
                    $lend(&self.0).write_data(buffer)
                }
            }
        };
    }

    owns!(Integer(Vec<u8>) of asn1::BigInt, |it: asn1::BigInt| it.as_bytes().to_vec(), |it| asn1::BigInt::new(it).expect("a number"));
    owns!(OctetString(Vec<u8>) of &[u8], <[u8]>::to_vec, Vec::as_slice);
    owns!(Utf8String(String) of asn1::Utf8String, |it: asn1::Utf8String| it.as_str().to_owned(), |it| asn1::Utf8String::new(it));

    struct Any(Vec<u8>);

    impl<'a> Asn1Readable<'a> for Any {
        fn parse(parser: &mut Parser<'a>) -> ParseResult<Self> {
            Ok(Any(parser.read_element::<Tlv>()?.full_data().to_vec()))
        }

        fn can_parse(tag: Tag) -> bool {
            Tlv::can_parse(tag)
        }
    }

    impl Asn1Writable for Any {
        fn write(&self, writer: &mut Writer) -> WriteResult {
            asn1::parse_single::<Tlv>(&self.0).expect("an element").write(writer)
        }
    }

    pub struct SequenceOf<T>(Vec<T>);

    impl<'a, T: Asn1Readable<'a>> SimpleAsn1Readable<'a> for SequenceOf<T> {
        const TAG: Tag = <asn1::Sequence as SimpleAsn1Readable>::TAG;

        fn parse_data(data: &'a [u8]) -> ParseResult<Self> {
            asn1::parse(data, |parser| {
                let mut elements = Vec::new();
                while !parser.is_empty() {
                    elements.push(parser.read_element()?);
                }
                Ok(SequenceOf(elements))
            })
        }
    }

    impl<T: Asn1Writable> SimpleAsn1Writable for SequenceOf<T> {
        const TAG: Tag = <asn1::SequenceWriter as SimpleAsn1Writable>::TAG;

        fn write_data(&self, buffer: &mut WriteBuf) -> WriteResult {
            asn1::SequenceOfWriter::new(&self.0[..]).write_data(buffer)
        }
    }

    struct SetOf<T>(Vec<T>);

    /// Elements in ascending order, which the borrowed type checks.
    impl<'a, T: Asn1Readable<'a>> SimpleAsn1Readable<'a> for SetOf<T> {
        const TAG: Tag = <asn1::SetOf<Tlv> as SimpleAsn1Readable>::TAG;

        fn parse_data(data: &'a [u8]) -> ParseResult<Self> {
            Ok(SetOf(asn1::SetOf::<Tlv>::parse_data(data)?.map(|element| element.parse()).collect::<ParseResult<_>>()?))
        }
    }

    impl<T: Asn1Writable> SimpleAsn1Writable for SetOf<T> {
        const TAG: Tag = <asn1::SetOfWriter<()> as SimpleAsn1Writable>::TAG;

        fn write_data(&self, buffer: &mut WriteBuf) -> WriteResult {
            asn1::SetOfWriter::new(&self.0[..]).write_data(buffer)
        }
    }
}

fn run<'a, T: Asn1Readable<'a> + Asn1Writable>(task: &Task, input: &'a [u8]) {
    task.run(
        input,
        |input| asn1::parse_single::<T>(input).expect("a value"),
        |value| asn1::write_single(value).expect("a value that is written"),
    );
}

fn main() -> io::Result<()> {
    let (task, input) = Task::of_process()?;
    match task.type_name.as_str() {
        "certificate" => run::<borrowed::Certificate>(&task, &input),
        "certificate-owned" => run::<owned::Certificate>(&task, &input),
        "persons-der" => run::<borrowed::SequenceOf<borrowed::Person>>(&task, &input),
        "persons-der-owned" => run::<owned::SequenceOf<owned::Person>>(&task, &input),
        "node-der" => run::<borrowed::Node>(&task, &input),
        "node-der-owned" => run::<owned::Node>(&task, &input),
        _ => println!("not understood"),
    }
    Ok(())
}
