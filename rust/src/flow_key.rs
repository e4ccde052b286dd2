//! The key of a flow, made of addresses, ports and protocol.

use std::fmt;
use std::net::{IpAddr, Ipv4Addr, Ipv6Addr};
use std::ops::Deref;
use std::str::FromStr;

use crate::{Ipv4Key, Ipv6Key, IPV4_WIDTH, IPV6_WIDTH};

/// The key of an IPv4 or an IPv6 flow: source address, destination address, source port, destination port, protocol (of IPv6 the next header), the
/// numbers high byte first. It goes wherever a key's bytes are taken.
///
/// As text it is as in `bin/calls`: the five with a space between.
///
/// ```
/// use flow::{FlowKey, Refusal, Settings, Table};
///
/// let key: FlowKey = "10.0.0.1 10.0.0.2 5060 5060 17".parse().unwrap();
/// assert_eq!(key, FlowKey::v4([10, 0, 0, 1].into(), [10, 0, 0, 2].into(), 5060, 5060, 17));
/// assert_eq!(key.to_string(), "10.0.0.1 10.0.0.2 5060 5060 17");
/// assert_eq!(key.len(), 13);
///
/// let mut table = Table::new(Settings::new(6, 3, 2, 4, 128, 8, key.width())?);
/// table.add(&key, 5)?;
/// assert_eq!(table.search(&key), Ok(Some(5)));
///
/// let key: FlowKey = "2001:db8::1 2001:db8::2 5060 5060 17".parse().unwrap();
/// assert_eq!(key.len(), 37);
/// assert_eq!(table.search(&key), Err(Refusal::KeyLength));
/// # Ok::<(), Refusal>(())
/// ```
#[derive(Clone, Copy, PartialEq, Eq, PartialOrd, Ord, Hash)]
pub enum FlowKey {
    /// Of an IPv4 flow, 13 bytes.
    V4(Ipv4Key),
    /// Of an IPv6 flow, 37 bytes.
    V6(Ipv6Key),
}

/// What is no key of a flow.
#[derive(Clone, Debug, PartialEq, Eq)]
#[non_exhaustive]
pub enum BadFlowKey {
    /// So many bytes; a key has 13 or 37.
    Length(usize),
    /// One address is of IPv4, the other of IPv6.
    Versions,
    /// So many fields; a key's text has five.
    Fields(usize),
    /// A field that is no address.
    Address(String),
    /// A field that is no port, 0 to 65535.
    Port(String),
    /// A field that is no protocol, 0 to 255.
    Protocol(String),
}

impl FlowKey {
    /// Of addresses of either version, which have to be alike: else [`BadFlowKey::Versions`].
    ///
    /// ```
    /// use flow::{BadFlowKey, FlowKey};
    ///
    /// let (four, six) = ("10.0.0.1".parse().unwrap(), "2001:db8::1".parse().unwrap());
    /// assert_eq!(FlowKey::new(four, four, 1, 2, 6).unwrap().width(), 13);
    /// assert_eq!(FlowKey::new(six, six, 1, 2, 6).unwrap().width(), 37);
    /// assert_eq!(FlowKey::new(four, six, 1, 2, 6), Err(BadFlowKey::Versions));
    /// ```
    pub fn new(
        source: IpAddr,
        destination: IpAddr,
        source_port: u16,
        destination_port: u16,
        protocol: u8,
    ) -> Result<FlowKey, BadFlowKey> {
        let (from, to) = (source_port, destination_port);
        match (source, destination) {
            (IpAddr::V4(source), IpAddr::V4(destination)) => {
                Ok(FlowKey::v4(source, destination, from, to, protocol))
            }
            (IpAddr::V6(source), IpAddr::V6(destination)) => {
                Ok(FlowKey::v6(source, destination, from, to, protocol))
            }
            _ => Err(BadFlowKey::Versions),
        }
    }

    /// Of an IPv4 flow.
    pub fn v4(
        source: Ipv4Addr,
        destination: Ipv4Addr,
        source_port: u16,
        destination_port: u16,
        protocol: u8,
    ) -> FlowKey {
        let mut key = [0; IPV4_WIDTH as usize];
        key[..4].copy_from_slice(&source.octets());
        key[4..8].copy_from_slice(&destination.octets());
        write_rest(&mut key[8..], source_port, destination_port, protocol);
        FlowKey::V4(key)
    }

    /// Of an IPv6 flow. The protocol is the packet's next header.
    pub fn v6(
        source: Ipv6Addr,
        destination: Ipv6Addr,
        source_port: u16,
        destination_port: u16,
        protocol: u8,
    ) -> FlowKey {
        let mut key = [0; IPV6_WIDTH as usize];
        key[..16].copy_from_slice(&source.octets());
        key[16..32].copy_from_slice(&destination.octets());
        write_rest(&mut key[32..], source_port, destination_port, protocol);
        FlowKey::V6(key)
    }

    /// The width, a setting of the tables that it goes into.
    pub fn width(&self) -> u64 {
        match self {
            FlowKey::V4(_) => IPV4_WIDTH,
            FlowKey::V6(_) => IPV6_WIDTH,
        }
    }

    /// The source address.
    pub fn source(&self) -> IpAddr {
        self.addresses().0
    }

    /// The destination address.
    pub fn destination(&self) -> IpAddr {
        self.addresses().1
    }

    /// The source port.
    pub fn source_port(&self) -> u16 {
        let rest = self.rest();
        u16::from_be_bytes([rest[0], rest[1]])
    }

    /// The destination port.
    pub fn destination_port(&self) -> u16 {
        let rest = self.rest();
        u16::from_be_bytes([rest[2], rest[3]])
    }

    /// The protocol; of IPv6 the next header.
    pub fn protocol(&self) -> u8 {
        self.rest()[4]
    }

    fn addresses(&self) -> (IpAddr, IpAddr) {
        match self {
            FlowKey::V4(key) => (address::<4>(&key[..4]), address::<4>(&key[4..8])),
            FlowKey::V6(key) => (address::<16>(&key[..16]), address::<16>(&key[16..32])),
        }
    }

    // Ports and protocol, the last five bytes.
    fn rest(&self) -> &[u8] {
        &self[self.len() - 5..]
    }
}

fn write_rest(to: &mut [u8], source_port: u16, destination_port: u16, protocol: u8) {
    to[..2].copy_from_slice(&source_port.to_be_bytes());
    to[2..4].copy_from_slice(&destination_port.to_be_bytes());
    to[4] = protocol;
}

// An address of N bytes.
fn address<const N: usize>(bytes: &[u8]) -> IpAddr
where
    IpAddr: From<[u8; N]>,
{
    let mut octets = [0; N];
    octets.copy_from_slice(bytes);
    IpAddr::from(octets)
}

impl Deref for FlowKey {
    type Target = [u8];

    fn deref(&self) -> &[u8] {
        match self {
            FlowKey::V4(key) => key,
            FlowKey::V6(key) => key,
        }
    }
}

impl AsRef<[u8]> for FlowKey {
    fn as_ref(&self) -> &[u8] {
        self
    }
}

impl From<Ipv4Key> for FlowKey {
    fn from(key: Ipv4Key) -> FlowKey {
        FlowKey::V4(key)
    }
}

impl From<Ipv6Key> for FlowKey {
    fn from(key: Ipv6Key) -> FlowKey {
        FlowKey::V6(key)
    }
}

impl TryFrom<&[u8]> for FlowKey {
    type Error = BadFlowKey;

    /// ```
    /// use flow::{BadFlowKey, FlowKey};
    ///
    /// assert_eq!(FlowKey::try_from(&[1; 13][..]), Ok(FlowKey::V4([1; 13])));
    /// assert_eq!(FlowKey::try_from(&[1; 37][..]), Ok(FlowKey::V6([1; 37])));
    /// assert_eq!(FlowKey::try_from(&[1; 14][..]), Err(BadFlowKey::Length(14)));
    /// ```
    fn try_from(bytes: &[u8]) -> Result<FlowKey, BadFlowKey> {
        if let Ok(key) = bytes.try_into() {
            return Ok(FlowKey::V4(key));
        }
        match bytes.try_into() {
            Ok(key) => Ok(FlowKey::V6(key)),
            Err(_) => Err(BadFlowKey::Length(bytes.len())),
        }
    }
}

impl fmt::Display for FlowKey {
    fn fmt(&self, f: &mut fmt::Formatter<'_>) -> fmt::Result {
        let (source, destination) = self.addresses();
        let (from, to, protocol) = (self.source_port(), self.destination_port(), self.protocol());
        write!(f, "{source} {destination} {from} {to} {protocol}")
    }
}

impl fmt::Debug for FlowKey {
    /// `FlowKey(10.0.0.1 10.0.0.2 5060 5060 17)`
    fn fmt(&self, f: &mut fmt::Formatter<'_>) -> fmt::Result {
        write!(f, "FlowKey({self})")
    }
}

impl FromStr for FlowKey {
    type Err = BadFlowKey;

    /// ```
    /// use flow::{BadFlowKey, FlowKey};
    ///
    /// let wrong = "10.0.0.1 10.0.0.2 5060 65536 17".parse::<FlowKey>();
    /// assert_eq!(wrong, Err(BadFlowKey::Port("65536".to_string())));
    /// ```
    fn from_str(text: &str) -> Result<FlowKey, BadFlowKey> {
        let fields: Vec<&str> = text.split_whitespace().collect();
        let [source, destination, from, to, protocol] = match <[&str; 5]>::try_from(&fields[..]) {
            Ok(fields) => fields,
            Err(_) => return Err(BadFlowKey::Fields(fields.len())),
        };
        FlowKey::new(
            field(source, BadFlowKey::Address)?,
            field(destination, BadFlowKey::Address)?,
            field(from, BadFlowKey::Port)?,
            field(to, BadFlowKey::Port)?,
            field(protocol, BadFlowKey::Protocol)?,
        )
    }
}

// A number is digits alone; Rust would take a plus sign too.
fn field<T: FromStr>(text: &str, bad: fn(String) -> BadFlowKey) -> Result<T, BadFlowKey> {
    match text.parse() {
        Ok(read) if !text.starts_with('+') => Ok(read),
        _ => Err(bad(text.to_string())),
    }
}

impl fmt::Display for BadFlowKey {
    fn fmt(&self, f: &mut fmt::Formatter<'_>) -> fmt::Result {
        match self {
            BadFlowKey::Length(n) => write!(f, "{n} bytes, where a key has 13 or 37"),
            BadFlowKey::Versions => write!(f, "one address is of IPv4, the other of IPv6"),
            BadFlowKey::Fields(n) => write!(
                f,
                "{n} fields, where a key has five: SOURCE DESTINATION SOURCE-PORT DESTINATION-PORT PROTOCOL"
            ),
            BadFlowKey::Address(text) => write!(f, "{text:?} is no address"),
            BadFlowKey::Port(text) => write!(f, "{text:?} is no port, 0 to 65535"),
            BadFlowKey::Protocol(text) => write!(f, "{text:?} is no protocol, 0 to 255"),
        }
    }
}

impl std::error::Error for BadFlowKey {}
