//! Reads a response, here that of RFC 5769 section 2.2, and shows what it says.
//!
//!     cargo run --example read_response
use cratehoist::rfc5389::attributes::{Software, XorMappedAddress};
use cratehoist::MessageDecoder;

const RESPONSE: &[u8] = b"\x01\x01\x00\x3c\x21\x12\xa4\x42\xb7\xe7\xa7\x01\xbc\x34\xd6\x86\xfa\x87\xdf\xae\
    \x80\x22\x00\x0b\x74\x65\x73\x74\x20\x76\x65\x63\x74\x6f\x72\x20\x00\x20\x00\x08\x00\x01\xa1\x47\xe1\x12\xa6\x43\
    \x00\x08\x00\x14\x2b\x91\xf5\x99\xfd\x9e\x90\xc3\x8c\x74\x89\xf9\x2a\xf9\xba\x53\xf0\x6b\xe7\xd7\
    \x80\x28\x00\x04\xc0\x7d\x4c\x96";

fn main() {
    match MessageDecoder::new().decode_from_bytes(RESPONSE) {
        Ok(Ok(message)) => {
            println!(
                "{} {} {:?}",
                message.method(),
                message.class(),
                message.transaction_id()
            );
            if let Some(seen) = message.get_attribute::<XorMappedAddress>() {
                println!("seen as {}", seen.address());
            }
            if let Some(software) = message.get_attribute::<Software>() {
                println!("by {:?}", software.description());
            }
            match message.check_integrity(b"VOkJxbRl1RmTxUk/WvJxBt") {
                Ok(()) => println!("signed with our key"),
                Err(error) => println!("{error}"),
            }
        }
        Ok(Err(broken)) => println!(
            "{:?} is broken: {}",
            broken.transaction_id(),
            broken.error()
        ),
        Err(error) => println!("no STUN message: {error}"),
    }
}
