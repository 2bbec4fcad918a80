//! Writes a Binding request, signed and with a fingerprint, and shows it as hex.
//!
//!     cargo run --example binding_request
use cratehoist::rfc5389::attributes::{Software, Username};
use cratehoist::rfc5389::methods::BINDING;
use cratehoist::{MessageClass, MessageEncoder, Result, TransactionId};

fn main() -> Result<()> {
    // to be random in a program that sends it
    let id = TransactionId::new([
        0xb7, 0xe7, 0xa7, 0x01, 0xbc, 0x34, 0xd6, 0x86, 0xfa, 0x87, 0xdf, 0xae,
    ]);
    let mut buffer = [0; 512];
    let mut message = MessageEncoder::new(&mut buffer, MessageClass::Request, BINDING, id)?;
    message.add_attribute(Software::new("cratehoist")?)?;
    message.add_attribute(Username::new("unit-17")?)?;
    message.add_message_integrity(b"password")?;
    message.add_fingerprint()?;
    for byte in message.finish() {
        print!("{byte:02x}");
    }
    println!();
    Ok(())
}
