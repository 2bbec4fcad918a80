//! An ERROR-CODE found and read, and one appended to a header, beside libnice's `stun_message_find_error` and `stun_message_append_error`,
//! which know the code alone, and no phrase but their own.
use crate::measure;
use crate::reader::{self, Message, SUCCESS};
use crate::worst::Written;
use std::ffi::c_int;
use std::hint::black_box;

#[repr(C)]
#[allow(dead_code)] // what isn't looked at is there for the layout
struct First {
    there: bool,
    place: usize,
    size: usize,
}

#[repr(C)]
#[allow(dead_code)]
struct Typed {
    number: u8,
    family: u8,
    port: u16,
    code: u16,
    reserved: u32,
    ip: [u8; 16],
    start: usize,
    size: usize,
}

#[repr(C)]
struct Id([u8; 12]);

extern "C" {
    fn cratehoist_search(d: *const u8, n: usize, kind: u16) -> First;
    fn cratehoist_typed_value(kind: u16, value: *const u8, size: usize, id: Id) -> Typed;
    fn cratehoist_append_error_code(b: *mut u8, n: usize, code: u16, reserved: u32, phrase: *const u8, size: usize) -> Written;
    fn stun_message_find_error(m: *const Message, code: *mut c_int) -> c_int;
    fn stun_message_append_error(m: *mut Message, code: c_int) -> c_int;
}

const ERROR_CODE: u16 = 0x0009;

fn found(d: &[u8]) -> Typed {
    unsafe {
        let f = cratehoist_search(d.as_ptr(), d.len(), ERROR_CODE);
        cratehoist_typed_value(ERROR_CODE, d[f.place + 4..].as_ptr(), f.size, Id([0; 12]))
    }
}

fn libnice_found(m: &Message) -> c_int {
    let mut code = 0;
    assert_eq!(unsafe { stun_message_find_error(m, &mut code) }, SUCCESS);
    code
}

/// The length field is put back first, by both.
fn appended(b: &mut [u8], phrase: &[u8]) -> usize {
    b[2..4].fill(0);
    let w = unsafe { cratehoist_append_error_code(b.as_mut_ptr(), b.len(), 401, 0, phrase.as_ptr(), phrase.len()) };
    assert_eq!(w.number, 0);
    w.size
}

fn libnice_appended(m: &mut Message, b: &mut [u8]) {
    b[2..4].fill(0);
    assert_eq!(unsafe { stun_message_append_error(m, 401) }, SUCCESS);
}

pub fn run() {
    let mut d = reader::error();
    let mut a = reader::agent(&d[4..20]);
    let m = reader::message(&mut a, &mut d);
    assert_eq!((c_int::from(found(&d).code), found(&d).reserved), (libnice_found(&m), 0));
    measure::row("find and read ERROR-CODE", d.len(), "libnice", || _ = black_box(found(black_box(&d))), || {
        _ = black_box(libnice_found(black_box(&m)))
    });
    let room = |mut d: Vec<u8>| {
        d.resize(100, 0);
        d
    };
    let (mut b, mut theirs) = (room(reader::header(0x0111)), room(reader::header(0x0111)));
    let mut m = reader::message(&mut a, &mut theirs);
    libnice_appended(&mut m, &mut theirs);
    let end = 20 + usize::from(theirs[3]);
    let said = found(&theirs[..end]);
    let phrase = theirs[24 + said.start..24 + said.start + said.size].to_vec();
    let size = appended(&mut b, &phrase);
    assert_eq!((size, &b[..28 + said.size]), (end, &theirs[..28 + said.size]));
    measure::row("append ERROR-CODE", size, "libnice", || _ = black_box(appended(black_box(&mut b), black_box(&phrase))), || {
        libnice_appended(black_box(&mut m), black_box(&mut theirs))
    });
}
