//! The wrapper against published messages and against what docs/SCOPE.md says; the library beneath it is proved.
use cratehoist::rfc5389::attributes::*;
use cratehoist::rfc5389::{errors, methods::BINDING, Attribute};
use cratehoist::{
    AttributeType, Error, Message, MessageClass, MessageDecoder, MessageEncoder, Method,
    RawAttribute, TransactionId,
};
use std::net::SocketAddr;

fn bytes(hex: &str) -> Vec<u8> {
    (0..hex.len())
        .step_by(2)
        .map(|i| u8::from_str_radix(&hex[i..i + 2], 16).unwrap())
        .collect()
}

fn whole(datagram: &[u8]) -> Message<'_> {
    MessageDecoder::new()
        .decode_from_bytes(datagram)
        .unwrap()
        .unwrap()
}

fn begun(buffer: &mut [u8]) -> MessageEncoder<'_> {
    MessageEncoder::new(
        buffer,
        MessageClass::ErrorResponse,
        Method::new(0xABC).unwrap(),
        TransactionId::new(*b"0123456789ab"),
    )
    .unwrap()
}

// RFC 5769 sections 2.1 to 2.4
const REQUEST: &str = "000100582112a442b7e7a701bc34d686fa87dfae802200105354554e207465737420636c69656e74002400046e0001ff80290008932ff9b151263b36000600096576746a3a68367659202020000800149aeaa70cbfd8cb56781ef2b5b2d3f249c1b571a280280004e57a3bcf";
const RESPONSE_4: &str = "0101003c2112a442b7e7a701bc34d686fa87dfae8022000b7465737420766563746f7220002000080001a147e112a643000800142b91f599fd9e90c38c7489f92af9ba53f06be7d780280004c07d4c96";
const RESPONSE_6: &str = "010100482112a442b7e7a701bc34d686fa87dfae8022000b7465737420766563746f7220002000140002a1470113a9faa5d3f179bc25f4b5bed2b9d900080014a382954e4be67bf11784c97c8292c275bfe3ed4180280004c8fb0b4c";
const LONG_TERM: &str = "000100602112a44278ad3433c6ad72c029da412e00060012e3839ee38388e383aae38383e382afe382b900000015001c662f2f3439396b39353464364f4c33346f4c394653547679363473410014000b6578616d706c652e6f72670000080014f67024656dd64a3e02b8e0712e85c9a28ca89666";
const PASSWORD: &str = "VOkJxbRl1RmTxUk/WvJxBt";

#[test]
fn request_of_rfc_5769() {
    let datagram = bytes(REQUEST);
    let message = whole(&datagram);
    assert_eq!(
        (message.class(), message.method(), message.count()),
        (MessageClass::Request, BINDING, 6)
    );
    assert_eq!(
        message.transaction_id().as_bytes()[..],
        bytes("b7e7a701bc34d686fa87dfae")
    );
    assert_eq!(
        message.get_attribute::<Software>().unwrap().description(),
        "STUN test client"
    );
    assert_eq!(
        message.get_attribute::<Username>().unwrap().name(),
        "evtj:h6vY"
    );
    assert_eq!(
        message.get_attribute::<Fingerprint>().unwrap().crc32(),
        0xe57a3bcf
    );
    assert!(message.get_attribute::<Realm>().is_none());
    assert!(message
        .get_attribute::<MessageIntegrity>()
        .unwrap()
        .check_short_term_credential(PASSWORD)
        .is_ok());
    assert_eq!(
        message
            .get_attribute::<MessageIntegrity>()
            .unwrap()
            .check_short_term_credential("other"),
        Err(errors::Unauthorized.into())
    );
    assert_eq!(message.attributes().count(), 4);
    let unknown: Vec<u16> = message
        .unknown_attributes()
        .map(|raw| raw.get_type().as_u16())
        .collect();
    assert_eq!(unknown, [0x0024, 0x8029]);
}

#[test]
fn responses_of_rfc_5769() {
    for (hex, address) in [
        (RESPONSE_4, "192.0.2.1:32853"),
        (RESPONSE_6, "[2001:db8:1234:5678:11:2233:4455:6677]:32853"),
    ] {
        let datagram = bytes(hex);
        let message = whole(&datagram);
        assert_eq!(message.class(), MessageClass::SuccessResponse);
        assert_eq!(
            message
                .get_attribute::<XorMappedAddress>()
                .unwrap()
                .address(),
            address.parse().unwrap()
        );
        assert_eq!(message.check_integrity(PASSWORD.as_bytes()), Ok(()));
        assert_eq!(
            message.check_integrity(b"other").map_err(|e| e.number()),
            Err(32)
        );
    }
}

#[test]
fn long_term_request_of_rfc_5769() {
    let datagram = bytes(LONG_TERM);
    let message = whole(&datagram);
    assert_eq!(
        message.get_attribute::<Username>().unwrap().name(),
        "マトリックス"
    );
    assert_eq!(
        message.get_attribute::<Nonce>().unwrap().value(),
        "f//499k954d6OL34oL9FSTvy64sA"
    );
    assert_eq!(message.realm_to_use("site.example"), "example.org");
    let key = bytes("e8ca7ad59d5eb0518e312911d2dab2a9");
    assert_eq!(message.check_integrity(&key), Ok(()));
    assert!(message
        .get_attribute::<MessageIntegrity>()
        .unwrap()
        .check_key(&key)
        .is_ok());
}

#[test]
fn written_again_is_the_same() {
    for hex in [REQUEST, RESPONSE_4, RESPONSE_6, LONG_TERM] {
        let datagram = bytes(hex);
        let message = whole(&datagram);
        let mut buffer = vec![0xAA; datagram.len()];
        let mut copy = MessageEncoder::new(
            &mut buffer,
            message.class(),
            message.method(),
            message.transaction_id(),
        )
        .unwrap();
        let mut place = 20;
        while place < datagram.len() {
            let step = cratehoist::calls::walk(&datagram, place);
            let (value, padding) = datagram[step.value..step.next].split_at(step.size);
            copy.add_attribute(Padded(step.kind, value, padding))
                .unwrap();
            place = step.next;
        }
        assert_eq!(copy.finish(), datagram);
    }
}

/// An attribute of one's own: any type, value and padding.
struct Padded<'a>(u16, &'a [u8], &'a [u8]);
impl cratehoist::Append for Padded<'_> {
    fn append_to(&self, message: &mut MessageEncoder<'_>) -> cratehoist::Result<()> {
        message.append_raw(AttributeType::new(self.0), self.1, self.2)
    }
}

#[test]
fn every_kind_written_and_read() {
    let four: SocketAddr = "198.51.100.7:1".parse().unwrap();
    let six: SocketAddr = "[2001:db8::1]:65535".parse().unwrap();
    let types = [AttributeType::new(0x0001), AttributeType::new(0xC001)];
    let mut buffer = [0; 512];
    let mut message = begun(&mut buffer);
    message.add_attribute(MappedAddress::new(four)).unwrap();
    message.add_attribute(Username::new("u").unwrap()).unwrap();
    message
        .add_attribute(ErrorCode::from(errors::StaleNonce))
        .unwrap();
    message
        .add_attribute(UnknownAttributes::new(&types))
        .unwrap();
    message.add_attribute(Realm::new("").unwrap()).unwrap();
    message.add_attribute(Nonce::new("été").unwrap()).unwrap();
    message.add_attribute(XorMappedAddress::new(six)).unwrap();
    message.add_attribute(Software::new_static("s")).unwrap();
    message.add_attribute(AlternateServer::new(six)).unwrap();
    message
        .add_attribute(RawAttribute::new(AttributeType::new(0x7777), b"raw"))
        .unwrap();
    message.add_message_integrity(b"k").unwrap();
    message.add_fingerprint().unwrap();
    let read = whole(message.as_bytes());
    assert_eq!(
        (read.class(), read.method().as_u16(), read.count()),
        (MessageClass::ErrorResponse, 0xABC, 12)
    );
    let read: Vec<Attribute> = read.attributes().collect();
    assert_eq!(read.len(), 11);
    assert_eq!(read[0], MappedAddress::new(four).into());
    assert_eq!(read[1], Username::new("u").unwrap().into());
    assert_eq!(read[2], ErrorCode::new(438, "Stale Nonce").unwrap().into());
    assert_eq!(read[3], UnknownAttributes::new(&types).into());
    assert_eq!(read[4], Realm::new("").unwrap().into());
    assert_eq!(read[5], Nonce::new("été").unwrap().into());
    assert_eq!(read[6], XorMappedAddress::new(six).into());
    assert_eq!(read[7], Software::new("s").unwrap().into());
    assert_eq!(read[8], AlternateServer::new(six).into());
    let raw = whole(message.as_bytes())
        .unknown_attributes()
        .next()
        .unwrap();
    assert_eq!(
        (raw.get_type(), raw.value(), raw.padding()),
        (AttributeType::new(0x7777), &b"raw"[..], &b"\0"[..])
    );
}

/// The reserved bits of an ERROR-CODE are none of the reader's business, and they come back.
#[test]
fn an_error_code_is_written_as_it_was_read() {
    let (mut buffer, mut copy) = ([0; 64], [0; 64]);
    let mut message = begun(&mut buffer);
    let came = RawAttribute::new(AttributeType::new(0x0009), b"\x5A\xA5\x5C\x01no");
    message.add_attribute(came).unwrap();
    let read: ErrorCode = whole(message.as_bytes()).get_attribute().unwrap();
    assert_eq!((read.code(), read.reserved()), (401, 742_571));
    let unreserved = ErrorCode::new(401, "no").unwrap();
    assert_ne!(read, unreserved);
    assert_eq!(read, unreserved.with_reserved(742_571).unwrap());
    let mut again = begun(&mut copy);
    again.add_attribute(read).unwrap();
    assert_eq!(again.as_bytes(), message.as_bytes());
    assert_eq!(number(unreserved.with_reserved(2_097_152)), 23);
}

fn number<T>(r: Result<T, Error>) -> u8 {
    r.map_or_else(|e| e.number(), |_| 0)
}

#[test]
fn what_is_refused_changes_nothing() {
    assert_eq!(
        number(MessageEncoder::new(
            &mut [0; 19],
            MessageClass::Request,
            BINDING,
            TransactionId::new([0; 12])
        )),
        26
    );
    let long = "x".repeat(128);
    assert_eq!(number(Software::new(&long)), 23);
    assert_eq!(number(Username::new(&"x".repeat(513))), 23);
    assert_eq!(number(Username::new(&"x".repeat(512))), 0);
    assert_eq!(number(ErrorCode::new(299, "")), 23);
    assert_eq!(number(ErrorCode::new(600, &long)), 23);
    let mut buffer = [0; 30];
    let mut message = begun(&mut buffer);
    message
        .add_attribute(Software::new("six bt").unwrap())
        .unwrap_err();
    assert_eq!(message.as_bytes().len(), 20);
    assert_eq!(
        number(message.add_attribute(Software::new("six bt").unwrap())),
        26
    );
    assert_eq!(
        number(message.append_raw(AttributeType::new(1), b"one", b"")),
        24
    );
    assert_eq!(
        message.as_bytes(),
        bytes("2b7c00002112a442303132333435363738396162").as_slice()
    );
    message
        .add_attribute(Software::new("five5").unwrap())
        .unwrap_err();
    message
        .add_attribute(Software::new("four").unwrap())
        .unwrap();
    assert_eq!(message.finish().len(), 28);
}

#[test]
fn full() {
    let mut buffer = vec![0; 70_000];
    let mut message = begun(&mut buffer);
    message
        .add_attribute(RawAttribute::new(AttributeType::new(0xC000), &[7; 65_528]))
        .unwrap();
    assert_eq!(number(message.add_attribute(Realm::new("").unwrap())), 25);
    assert_eq!(message.as_bytes().len(), 65_552);
    assert_eq!(whole(message.as_bytes()).count(), 1);
}

#[test]
fn broken_and_refused() {
    let broken = |hex: &str| {
        let datagram = bytes(hex);
        let broken = MessageDecoder::new()
            .decode_from_bytes(&datagram)
            .unwrap()
            .unwrap_err();
        assert_eq!(
            (broken.class(), broken.method()),
            (MessageClass::Request, BINDING)
        );
        assert_eq!(
            broken.transaction_id(),
            TransactionId::new([0, 1, 2, 3, 4, 5, 6, 7, 8, 9, 10, 11])
        );
        (broken.error().number(), broken.error().place())
    };
    assert_eq!(
        broken("000100032112a442000102030405060708090a0b000000"),
        (10, 20)
    );
    assert_eq!(
        broken("000100082112a442000102030405060708090a0b0008000401020304"),
        (11, 20)
    );
    assert_eq!(
        broken("0001000c2112a442000102030405060708090a0b0001000800020000ffffffff"),
        (12, 20)
    );
    assert_eq!(
        broken("000100082112a442000102030405060708090a0b0009000400000200"),
        (13, 20)
    );
    assert_eq!(
        broken("000100082112a442000102030405060708090a0b00140001ff000000"),
        (14, 20)
    );
    assert_eq!(
        broken("0001000c2112a442000102030405060708090a0bc00000008028000400000000"),
        (15, 24)
    );
    let refused = |hex: &str| {
        number(
            MessageDecoder::new()
                .decode_from_bytes(&bytes(hex))
                .map(drop),
        )
    };
    assert_eq!(refused("000100002112a442000102030405060708090a"), 1);
    assert_eq!(refused("400100000000000000010203040506070809000a"), 2);
    assert_eq!(refused("000100002112a443000102030405060708090a0b"), 3);
    assert_eq!(refused("000100042112a442000102030405060708090a0b"), 4);
}
