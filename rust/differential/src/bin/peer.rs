//! Our side of tests/peers. `write`: descriptions in, messages out; `read`: the other way; `judge`: what the reader says to each
//! datagram; `exchange ADDRESS`: a Binding request to a server there, and what its response says.
//!
//! A description is a line of fields with tabs between: name, class, method, ID, key (or -), then the attributes in order.

use differential::answers::{Id, Reading, Typed, Walk, Written};
use differential::ours;
use differential::reader::*;
use std::io::Read;
use std::net::{IpAddr, SocketAddr, UdpSocket};
use std::process::ExitCode;
use std::time::Duration;

type Fallible<T> = Result<T, String>;

fn unhex(text: &str) -> Fallible<Vec<u8>> {
    if text == "-" {
        return Ok(Vec::new());
    }
    let digits: Option<Vec<u32>> = text.chars().map(|c| c.to_digit(16)).collect();
    match digits {
        Some(digits) if digits.len() % 2 == 0 => {
            Ok(digits.chunks(2).map(|d| (d[0] * 16 + d[1]) as u8).collect())
        }
        _ => Err(format!("not hex: {text}")),
    }
}

fn hex(s: &[u8]) -> String {
    s.iter().map(|b| format!("{b:02x}")).collect()
}

fn number<T: TryFrom<u32>>(text: &str, base: u32) -> Fallible<T> {
    let number = u32::from_str_radix(text, base).map_err(|e| format!("{text}: {e}"))?;
    T::try_from(number).map_err(|_| format!("{text}: too great"))
}

fn id_of(text: &str) -> Fallible<Id> {
    unhex(text)?
        .try_into()
        .map_err(|_| "an ID has 12 bytes".to_string())
}

fn text_kind(name: &str) -> Option<u16> {
    Some(match name {
        "username" => USERNAME,
        "realm" => REALM,
        "nonce" => NONCE,
        "software" => SOFTWARE,
        _ => return None,
    })
}

fn address_kind(name: &str) -> Option<u16> {
    Some(match name {
        "mapped-address" => MAPPED_ADDRESS,
        "xor-mapped-address" => XOR_MAPPED_ADDRESS,
        "alternate-server" => ALTERNATE_SERVER,
        _ => return None,
    })
}

fn append_address(buf: &mut [u8], kind: u16, address: SocketAddr) -> Written {
    let mut bytes = [0; 16];
    let family = match address.ip() {
        IpAddr::V4(ip) => {
            bytes[..4].copy_from_slice(&ip.octets());
            1
        }
        IpAddr::V6(ip) => {
            bytes = ip.octets();
            2
        }
    };
    ours::append_address(buf, kind, family, address.port(), &bytes)
}

fn append(buf: &mut [u8], attribute: &str, key: &[u8]) -> Fallible<usize> {
    let (name, value) = attribute.split_once('=').unwrap_or((attribute, ""));
    let written = if let Some(kind) = text_kind(name) {
        ours::append_text(buf, kind, value.as_bytes())
    } else if let Some(kind) = address_kind(name) {
        append_address(
            buf,
            kind,
            value.parse().map_err(|e| format!("{value}: {e}"))?,
        )
    } else {
        match name {
            "error-code" => {
                let (code, phrase) = value.split_once(':').ok_or("no phrase")?;
                ours::append_error_code(buf, number(code, 10)?, 0, phrase.as_bytes())
            }
            "unknown-attributes" => {
                ours::append_unknown_attributes(buf, &unhex(&value.replace(',', ""))?)
            }
            "integrity" => ours::append_message_integrity(buf, key),
            "fingerprint" => ours::append_fingerprint(buf),
            "raw" => {
                let (kind, value) = value.split_once(':').ok_or("no value")?;
                let value = unhex(value)?;
                ours::append_raw(
                    buf,
                    number(kind, 16)?,
                    &value,
                    &[0; 3][..padding(value.len())],
                )
            }
            _ => return Err(format!("no such attribute: {name}")),
        }
    };
    written.map_err(|number| format!("{number} at {attribute}"))
}

fn write(told: &[&str]) -> Fallible<Vec<String>> {
    let [class, method, id, key, attributes @ ..] = told else {
        return Err("too few fields".to_string());
    };
    let mut buf = [0; 4096];
    let begun = ours::begin(
        &mut buf,
        number(class, 10)?,
        number(method, 10)?,
        &id_of(id)?,
    );
    let mut size = begun.map_err(|number| number.to_string())?;
    for attribute in attributes {
        size = append(&mut buf, attribute, &unhex(key)?)?;
    }
    Ok(vec![key.to_string(), hex(&buf[..size])])
}

fn said(number: u8, place: Option<usize>) -> String {
    match place {
        None => format!("{number}"),
        Some(place) => format!("{number} at {place}"),
    }
}

fn name_of(kind: u16) -> &'static str {
    ["username", "realm", "nonce", "software"]
        .into_iter()
        .find(|name| text_kind(name) == Some(kind))
        .or_else(|| {
            ["mapped-address", "xor-mapped-address", "alternate-server"]
                .into_iter()
                .find(|name| address_kind(name) == Some(kind))
        })
        .unwrap_or("raw")
}

fn text(s: &[u8]) -> String {
    String::from_utf8(s.to_vec()).expect("the reader lets only UTF-8 through")
}

fn socket(family: u8, port: u16, ip: [u8; 16]) -> SocketAddr {
    match family {
        1 => ([ip[0], ip[1], ip[2], ip[3]], port).into(),
        _ => (ip, port).into(),
    }
}

fn shown(d: &[u8], kind: u16, value: &[u8], id: &Id, key: &[u8]) -> Fallible<String> {
    Ok(match ours::typed(kind, value, id) {
        Typed::Wrong { number } => return Err(said(number, None)),
        Typed::Address { family, port, ip } => {
            format!("{}={}", name_of(kind), socket(family, port, ip))
        }
        Typed::Code { code, phrase, .. } => {
            format!("error-code={code}:{}", text(phrase.of(value)))
        }
        Typed::Plain { .. } if kind == FINGERPRINT => "fingerprint".to_string(),
        Typed::Plain { .. } if kind == MESSAGE_INTEGRITY => match ours::check_integrity(d, key) {
            0 => "integrity".to_string(),
            number => return Err(said(number, None)),
        },
        Typed::Plain { part } if kind == UNKNOWN_ATTRIBUTES => {
            let types: Vec<String> = part.of(value).chunks(2).map(hex).collect();
            format!("unknown-attributes={}", types.join(","))
        }
        Typed::Plain { part } if text_kind(name_of(kind)).is_some() => {
            format!("{}={}", name_of(kind), text(part.of(value)))
        }
        Typed::Plain { part } => format!("raw={kind:04x}:{}", hex(part.of(value))),
    })
}

fn read(told: &[&str]) -> Fallible<Vec<String>> {
    let [key, datagram] = told else {
        return Err("two fields, please".to_string());
    };
    let d = unhex(datagram)?;
    let (class, method, id) = match ours::read(&d) {
        Reading::Whole {
            class, method, id, ..
        } => (class, method, id),
        Reading::Broken { reason, place, .. } => return Err(said(reason, Some(place))),
        Reading::Refused { number } => return Err(said(number, None)),
    };
    let mut fields = vec![
        class.to_string(),
        method.to_string(),
        hex(&id),
        key.to_string(),
    ];
    let mut place = 20;
    while let Walk::Attribute {
        kind, value, next, ..
    } = ours::walk(&d, place)
    {
        fields.push(shown(&d, kind, value.of(&d), &id, &unhex(key)?)?);
        place = next;
    }
    Ok(fields)
}

/// A datagram is taken if it is whole and, where a key is given, integrity is 0.
fn judge(told: &[&str]) -> Fallible<Vec<String>> {
    let [key, datagram] = told else {
        return Err("two fields, please".to_string());
    };
    let d = unhex(datagram)?;
    let verdict = match ours::read(&d) {
        Reading::Broken { reason, place, .. } => said(reason, Some(place)),
        Reading::Refused { number } => said(number, None),
        Reading::Whole { .. } if *key == "-" => "takes".to_string(),
        Reading::Whole { .. } => match ours::check_integrity(&d, &unhex(key)?) {
            0 => "takes".to_string(),
            number => said(number, None),
        },
    };
    Ok(vec![verdict])
}

fn each_line(work: fn(&[&str]) -> Fallible<Vec<String>>) -> Fallible<()> {
    let mut input = String::new();
    std::io::stdin()
        .read_to_string(&mut input)
        .map_err(|e| e.to_string())?;
    for line in input.lines() {
        let fields: Vec<&str> = line.split('\t').collect();
        let told = work(&fields[1..]).unwrap_or_else(|fault| vec![format!("can't: {fault}")]);
        println!("{}\t{}", fields[0], told.join("\t"));
    }
    Ok(())
}

/// One Binding request, asked again for some seconds as a server may still be starting; the response is read by us.
fn exchange(server: &str) -> Fallible<()> {
    let server: SocketAddr = server.parse().map_err(|e| format!("{server}: {e}"))?;
    let local: SocketAddr = if server.is_ipv4() {
        ([127, 0, 0, 1], 0).into()
    } else {
        ([0, 0, 0, 0, 0, 0, 0, 1u16], 0).into()
    };
    let socket = UdpSocket::bind(local).map_err(|e| e.to_string())?;
    socket
        .set_read_timeout(Some(Duration::from_millis(200)))
        .map_err(|e| e.to_string())?;
    let id = *b"one exchange";
    let mut request = [0; 100];
    let size = ours::begin(&mut request, 0, 1, &id)
        .and_then(|_| ours::append_text(&mut request, SOFTWARE, b"cratehoist"))
        .and_then(|_| ours::append_fingerprint(&mut request))
        .map_err(|number| said(number, None))?;
    let mut response = [0; 2048];
    for _ in 0..50 {
        // a port that nobody listens on yet answers with an error, which is as good as silence
        let _ = socket.send_to(&request[..size], server);
        let Ok((size, from)) = socket.recv_from(&mut response) else {
            continue;
        };
        if from == server {
            return response_to(
                &id,
                &response[..size],
                socket.local_addr().map_err(|e| e.to_string())?,
            );
        }
    }
    Err(format!("no response from {server}"))
}

fn response_to(id: &Id, d: &[u8], local: SocketAddr) -> Fallible<()> {
    println!("response {}", hex(d));
    match ours::read(d) {
        Reading::Whole {
            class: 2,
            method: 1,
            id: told,
            ..
        } if told == *id => {}
        other => return Err(format!("no success response to our request: {other:?}")),
    }
    let part = ours::first(d, XOR_MAPPED_ADDRESS).ok_or("no XOR-MAPPED-ADDRESS")?;
    let Typed::Address { family, port, ip } = ours::typed(XOR_MAPPED_ADDRESS, part.of(d), id)
    else {
        return Err("XOR-MAPPED-ADDRESS is no address".to_string());
    };
    let mapped = self::socket(family, port, ip);
    println!("mapped {mapped}, socket {local}");
    if mapped == local {
        Ok(())
    } else {
        Err("they differ".to_string())
    }
}

fn main() -> ExitCode {
    let arguments: Vec<String> = std::env::args().skip(1).collect();
    let words: Vec<&str> = arguments.iter().map(String::as_str).collect();
    let done = match words[..] {
        ["write"] => each_line(write),
        ["read"] => each_line(read),
        ["judge"] => each_line(judge),
        ["exchange", server] => exchange(server),
        _ => Err("usage: peer write|read|judge, or peer exchange ADDRESS".to_string()),
    };
    match done {
        Ok(()) => ExitCode::SUCCESS,
        Err(fault) => {
            eprintln!("peer: {fault}");
            ExitCode::FAILURE
        }
    }
}
