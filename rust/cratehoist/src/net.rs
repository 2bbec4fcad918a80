//! Socket addresses and their XOR form.
use crate::calls::{self, Address};
use crate::{sys, TransactionId};
use core::net::{IpAddr, Ipv4Addr, Ipv6Addr, SocketAddr};

/// The XOR form of an address, and of an XOR form the address.
///
/// ```
/// use cratehoist::{net::socket_addr_xor, TransactionId};
/// let addr = "192.0.2.1:32853".parse().unwrap();
/// let id = TransactionId::new([7; 12]);
/// assert_eq!(socket_addr_xor(addr, id), "225.18.166.67:41287".parse().unwrap());
/// assert_eq!(socket_addr_xor(socket_addr_xor(addr, id), id), addr);
/// ```
pub fn socket_addr_xor(addr: SocketAddr, transaction_id: TransactionId) -> SocketAddr {
    let form = calls::address_xor(lent(addr), transaction_id.lent()).address;
    given(form.family, form.port, form.ip)
}

/// An address as the library takes it. Scope and flow of an IPv6 address are no part of STUN.
pub(crate) fn lent(addr: SocketAddr) -> Address {
    let mut ip = [0; 16];
    let family = match addr.ip() {
        IpAddr::V4(v4) => {
            ip[..4].copy_from_slice(&v4.octets());
            sys::IPV4
        }
        IpAddr::V6(v6) => {
            ip = v6.octets();
            sys::IPV6
        }
    };
    Address {
        family,
        port: addr.port(),
        ip,
    }
}

/// An address that the library gave: of one of the two families.
pub(crate) fn given(family: u8, port: u16, ip: [u8; 16]) -> SocketAddr {
    let ip = match family {
        sys::IPV4 => IpAddr::V4(Ipv4Addr::new(ip[0], ip[1], ip[2], ip[3])),
        _ => IpAddr::V6(Ipv6Addr::from(ip)),
    };
    SocketAddr::new(ip, port)
}
