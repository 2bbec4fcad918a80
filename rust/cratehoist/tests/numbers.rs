//! The numbers that the Rust crate states itself are those of the library.
use cratehoist::rfc5389::{attributes::*, errors, methods::BINDING};
use cratehoist::{calls, sys, Method};

fn named(name: calls::Name) -> String {
    String::from_utf8_lossy(&name.text[..name.size]).into_owned()
}

#[test]
fn types_of_attributes() {
    let kinds = [
        (MappedAddress::CODEPOINT, "MAPPED-ADDRESS"),
        (Username::CODEPOINT, "USERNAME"),
        (MessageIntegrity::CODEPOINT, "MESSAGE-INTEGRITY"),
        (ErrorCode::CODEPOINT, "ERROR-CODE"),
        (UnknownAttributes::CODEPOINT, "UNKNOWN-ATTRIBUTES"),
        (Realm::CODEPOINT, "REALM"),
        (Nonce::CODEPOINT, "NONCE"),
        (XorMappedAddress::CODEPOINT, "XOR-MAPPED-ADDRESS"),
        (Software::CODEPOINT, "SOFTWARE"),
        (AlternateServer::CODEPOINT, "ALTERNATE-SERVER"),
        (Fingerprint::CODEPOINT, "FINGERPRINT"),
    ];
    // the list takes no known type with so many bytes, and any other
    let long = vec![0; 65_535];
    for kind in 0..=u16::MAX {
        let name = kinds.iter().find(|k| k.0 == kind).map_or("", |k| k.1);
        assert_eq!(named(calls::attribute_name(kind)), name);
        assert_eq!(calls::refusal(kind, &long) != 0, !name.is_empty());
    }
}

#[test]
fn methods() {
    assert_eq!(named(calls::method_name(BINDING.as_u16())), "Binding");
    for code in 0..=u16::MAX {
        let number = Method::new(code).map_or_else(|e| e.number(), |_| 0);
        let id = calls::Id { bytes: [0; 12] };
        let begun = calls::begin(&mut [0; 20], sys::REQUEST, code, id);
        assert_eq!(number, begun.number);
    }
}

#[test]
fn error_codes() {
    for error in [
        ErrorCode::from(errors::TryAlternate),
        errors::BadRequest.into(),
        errors::Unauthorized.into(),
        errors::UnknownAttribute.into(),
        errors::StaleNonce.into(),
        errors::ServerError.into(),
    ] {
        assert_eq!(named(calls::code_name(error.code())), error.reason_phrase());
    }
    let phrase = "a".repeat(200);
    let same = |code: u16, reserved: u32, phrase: &str| {
        let mut buffer = [0; 300];
        calls::begin(
            &mut buffer,
            sys::ERROR_RESPONSE,
            sys::BINDING,
            calls::Id { bytes: [0; 12] },
        );
        let error = ErrorCode::new(code, phrase).and_then(|e| e.with_reserved(reserved));
        let number = error.map_or_else(|e| e.number(), |_| 0);
        assert_eq!(
            number,
            calls::append_error_code(&mut buffer, code, reserved, phrase.as_bytes()).number
        );
    };
    (0..=u16::MAX).for_each(|code| same(code, 0, ""));
    (0..=200).for_each(|size| same(300, 0, &phrase[..size]));
    for bit in 0..32 {
        same(300, (1 << bit) - 1, "");
        same(300, 1 << bit, "");
    }
    same(300, u32::MAX, "");
}

#[test]
fn software_in_a_constant() {
    let text: &'static str = "a".repeat(1000).leak();
    let refused = |size: &usize| calls::refusal(sys::SOFTWARE, text[..*size].as_bytes()) != 0;
    let above = (0..1000).find(refused).unwrap();
    let (text, longest) = (&text[..above], above - 1);
    assert_eq!(
        Software::new_static(&text[..longest]).description().len(),
        longest
    );
    assert!(std::panic::catch_unwind(|| Software::new_static(text)).is_err());
}
