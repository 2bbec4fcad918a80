//! Every call of the boundary once or more, with answers that stand in docs/SCOPE.md, in an RFC, or were computed elsewhere: that each
//! argument and each field crosses at its place. The calls themselves are proved.
use cratehoist::calls::*;
use cratehoist::sys;

const ID: Id = Id {
    bytes: [0, 1, 2, 3, 4, 5, 6, 7, 8, 9, 10, 11],
};
const NO_ID: Id = Id { bytes: [0; 12] };

// docs/SCOPE.md, P7: success, Binding, 192.0.2.1 port 32853
const P7: [u8; 32] = [
    0x01, 0x01, 0x00, 0x0C, 0x21, 0x12, 0xA4, 0x42, 0, 1, 2, 3, 4, 5, 6, 7, 8, 9, 10, 11, 0x00,
    0x20, 0x00, 0x08, 0x00, 0x01, 0xA1, 0x47, 0xE1, 0x12, 0xA6, 0x43,
];

fn hex(bytes: &[u8]) -> String {
    bytes.iter().map(|b| format!("{b:02x}")).collect()
}

fn ip(four: [u8; 4]) -> [u8; 16] {
    let mut ip = [0; 16];
    ip[..4].copy_from_slice(&four);
    ip
}

#[test]
fn sums() {
    assert_eq!(crc32(b"123456789"), 0xCBF4_3926);
    assert_eq!(
        hex(&sha1(b"abc").bytes),
        "a9993e364706816aba3e25717850c26c9cd0d89d"
    );
    let rfc_2202 = hmac(b"Jefe", b"what do ya want for nothing?");
    assert_eq!(
        hex(&rfc_2202.bytes),
        "effcdf6ae5eb2fa2d27416d5f184df9c259a7c79"
    );
    assert_eq!(
        hmac_front(
            b"Jefe",
            b"wh\0\0 do ya want for nothing? and more",
            28,
            u16::from_be_bytes(*b"at")
        ),
        rfc_2202
    );
    assert!(is_utf8("été".as_bytes()) && !is_utf8(b"\xC0\x80"));
}

#[test]
fn addresses() {
    let plain = Address {
        family: 1,
        port: 32853,
        ip: ip([192, 0, 2, 1]),
    };
    let form = Address {
        family: 1,
        port: 0xA147,
        ip: ip([0xE1, 0x12, 0xA6, 0x43]),
    };
    assert_eq!(
        address_xor(plain, ID),
        XorForm {
            number: 0,
            address: form
        }
    );
    let six = address_xor(
        Address {
            family: 2,
            port: 0,
            ip: [0; 16],
        },
        ID,
    )
    .address;
    assert_eq!((six.family, six.port), (2, 0x2112));
    assert_eq!(
        six.ip,
        [0x21, 0x12, 0xA4, 0x42, 0, 1, 2, 3, 4, 5, 6, 7, 8, 9, 10, 11]
    );
    assert_eq!(address_xor(Address { family: 3, ..plain }, ID).number, 12);
}

#[test]
fn reading() {
    let whole = Reading {
        what: 0,
        number: 0,
        message_class: 2,
        method: 1,
        count: 1,
        place: 0,
        id: ID,
    };
    assert_eq!(read(&P7), whole);
    assert_eq!(
        read(&P7[..31]),
        Reading {
            what: 2,
            number: 4,
            message_class: 0,
            method: 0,
            count: 0,
            place: 0,
            id: NO_ID
        }
    );
    let mut broken = P7;
    broken[25] = 2;
    assert_eq!(
        read(&broken),
        Reading {
            what: 1,
            number: 12,
            count: 0,
            place: 20,
            ..whole
        }
    );
    let step = Step {
        what: 0,
        kind: 0x0020,
        place: 20,
        value: 24,
        size: 8,
        next: 32,
    };
    assert_eq!(walk(&P7, 20), step);
    assert_eq!(
        walk(&P7, 32),
        Step {
            what: 1,
            kind: 0,
            place: 32,
            value: 0,
            size: 0,
            next: 0
        }
    );
    assert_eq!(
        walk(&P7, 29),
        Step {
            what: 2,
            kind: 0,
            place: 29,
            value: 0,
            size: 0,
            next: 0
        }
    );
}

#[test]
fn values() {
    assert_eq!(
        search(&[&P7[..], &[0]].concat(), 0x0020),
        First {
            there: true,
            place: 20,
            size: 8
        }
    );
    assert_eq!(
        search(&P7, 0x0006),
        First {
            there: false,
            place: 0,
            size: 0
        }
    );
    assert_eq!(
        first_value(&P7, 0x0020),
        Part {
            there: true,
            start: 24,
            size: 8
        }
    );
    assert_eq!(first_value(&P7[..31], 0x0020).there, false);
    assert_eq!(
        first_value(&P7, 0x0006),
        Part {
            there: false,
            start: 0,
            size: 0
        }
    );
    let address = Typed {
        number: 0,
        family: 1,
        port: 32853,
        code: 0,
        reserved: 0,
        ip: ip([192, 0, 2, 1]),
        start: 0,
        size: 0,
    };
    assert_eq!(typed_value(0x0020, &P7[24..], ID), address);
    let code = Typed {
        number: 0,
        family: 0,
        port: 0,
        code: 600,
        reserved: 0,
        ip: [0; 16],
        start: 4,
        size: 2,
    };
    assert_eq!(typed_value(0x0009, b"\0\0\x06\0no", NO_ID), code);
    assert_eq!(
        typed_value(0x0009, b"\xFF\xFF\xFE\0no", NO_ID),
        Typed {
            reserved: 2_097_151,
            ..code
        }
    );
    assert_eq!(
        typed_value(0x8022, b"me", NO_ID),
        Typed {
            code: 0,
            start: 0,
            ..code
        }
    );
    assert_eq!(
        typed_value(0x0009, b"\0\0\x02\0no", NO_ID),
        Typed {
            number: 13,
            code: 0,
            start: 0,
            size: 0,
            ..code
        }
    );
    assert_eq!(
        realm(&P7, b"site"),
        Part {
            there: false,
            start: 0,
            size: 4
        }
    );
    assert_eq!(check_integrity(&P7, b"key"), 31);
    assert_eq!(check_integrity(&P7[..3], b"key"), 1);
}

#[test]
fn writing() {
    let mut buffer = [0; 112];
    assert_eq!(
        begin(&mut buffer, 4, 1, ID),
        Written {
            number: 22,
            size: 0
        }
    );
    assert_eq!(
        begin(&mut buffer, 0, 4096, ID),
        Written {
            number: 22,
            size: 0
        }
    );
    assert_eq!(
        append_text(&mut buffer, 0x0001, b"x"),
        Written {
            number: 21,
            size: 0
        }
    );
    assert_eq!(buffer, [0; 112]);
    assert_eq!(
        begin(&mut buffer, 2, 1, ID),
        Written {
            number: 0,
            size: 20
        }
    );
    let plain = Address {
        family: 1,
        port: 32853,
        ip: ip([192, 0, 2, 1]),
    };
    assert_eq!(
        append_text(&mut buffer, 0x0001, b"x"),
        Written {
            number: 23,
            size: 0
        }
    );
    assert_eq!(
        append_address(&mut buffer, 0x0006, plain),
        Written {
            number: 23,
            size: 0
        }
    );
    assert_eq!(
        append_address(&mut buffer, 0x0020, Address { family: 0, ..plain }),
        Written {
            number: 23,
            size: 0
        }
    );
    assert_eq!(
        append_address(&mut buffer, 0x0020, plain),
        Written {
            number: 0,
            size: 32
        }
    );
    assert_eq!(buffer[..32], P7);
    assert_eq!(refusal(0x0014, b"\xFF"), 23);
    assert_eq!(refusal(0x0014, b"r"), 0);
    assert_eq!(
        append_raw(&mut buffer, 0xC001, b"\x07", b"\xAA\xBB"),
        Written {
            number: 24,
            size: 0
        }
    );
    assert_eq!(
        append_raw(&mut buffer, 0xC001, b"\x07", b"\xAA\xBB\xCC"),
        Written {
            number: 0,
            size: 40
        }
    );
    assert_eq!(
        append_error_code(&mut buffer, 420, 2_097_152, b"no"),
        Written {
            number: 23,
            size: 0
        }
    );
    assert_eq!(
        append_error_code(&mut buffer, 420, 2_097_151, b"no"),
        Written {
            number: 0,
            size: 52
        }
    );
    assert_eq!(
        append_unknown_attributes(&mut buffer, b"\xC0\x01"),
        Written {
            number: 0,
            size: 60
        }
    );
    assert_eq!(
        append_text(&mut buffer, 0x0014, b"r"),
        Written {
            number: 0,
            size: 68
        }
    );
    assert_eq!(
        append_message_integrity(&mut buffer, b"key"),
        Written {
            number: 0,
            size: 92
        }
    );
    assert_eq!(
        append_fingerprint(&mut buffer),
        Written {
            number: 0,
            size: 100
        }
    );
    assert_eq!(
        append_message_integrity(&mut buffer, b"key"),
        Written {
            number: 26,
            size: 0
        }
    );
    let rest = "c0010001 07aabbcc 00090006 fffffc14 6e6f0000 000a0002 c0010000 00140001 72000000";
    assert_eq!(hex(&buffer[32..68]), rest.replace(' ', ""));
    assert_eq!(read(&buffer[..100]).count, 7);
    assert_eq!(check_integrity(&buffer[..100], b"key"), 0);
    assert_eq!(check_integrity(&buffer[..100], b"kez"), 32);
    assert_eq!(
        realm(&buffer[..100], b"site"),
        Part {
            there: true,
            start: 64,
            size: 1
        }
    );
    assert_eq!(buffer[100..], [0; 12]);
}

#[test]
fn names() {
    let said = |name: Name| String::from_utf8(name.text[..name.size].to_vec()).unwrap();
    assert_eq!(said(attribute_name(0x8028)), "FINGERPRINT");
    assert_eq!(said(code_name(438)), "Stale Nonce");
    assert_eq!(said(number_name(26)), "buffer too small");
    assert_eq!(
        (said(class_name(2)), said(class_name(4))),
        ("success response".to_owned(), String::new())
    );
    assert_eq!(said(method_name(1)), "Binding");
}

#[test]
fn nothing_at_null() {
    // SAFETY: NULL with size 0 is an empty slice, as include/cratehoist.h says.
    unsafe {
        let null = std::ptr::null();
        assert_eq!(sys::cratehoist_read(null, 0).number, 1);
        assert_eq!(sys::cratehoist_crc32(null, 0), 0);
        assert_eq!(
            sys::cratehoist_begin(std::ptr::null_mut(), 0, 0, 1, ID).number,
            26
        );
        let mut buffer = [0; 24];
        assert_eq!(
            sys::cratehoist_begin(buffer.as_mut_ptr(), 24, 0, 1, ID).size,
            20
        );
        assert_eq!(
            sys::cratehoist_append_raw(buffer.as_mut_ptr(), 24, 7, null, 0, null, 0).size,
            24
        );
    }
}
