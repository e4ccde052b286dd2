//! 'Packet': the key of an IPv4 packet, and that of an IPv6 packet (document 02, U7). A header is read field by field, each as wide as RFC 791,
//! section 3.1, or RFC 8200, section 3, draws it.

use crate::records::Key;
use crate::settings::{IPV4_WIDTH, IPV6_WIDTH};

/// The bits of a packet from the first on, as the RFC numbers them: the most significant bit of a byte comes first.
struct Bits<'a> {
    packet: &'a [u8],
    at: usize,
}

impl Bits<'_> {
    /// The number that the next bits are.
    fn field(&mut self, width: usize) -> u32 {
        (0..width).fold(0, |number, _| {
            let bit = self.packet[self.at / 8] >> (7 - self.at % 8) & 1;
            self.at += 1;
            number << 1 | u32::from(bit)
        })
    }
}

/// What the key depends on.
struct Header {
    version: u32,
    words: u32,
    fragment_offset: u32,
    protocol: u32,
    source: u32,
    destination: u32,
}

impl Header {
    /// The fixed part, of a packet of 20 bytes or more.
    fn of(packet: &[u8]) -> Header {
        let mut bits = Bits { packet, at: 0 };
        let [version, words] = [4, 4].map(|width| bits.field(width));
        let [_service, _total_length, _identification, _flags] =
            [8, 16, 16, 3].map(|width| bits.field(width));
        let [fragment_offset, _time_to_live, protocol, _checksum] =
            [13, 8, 8, 16].map(|width| bits.field(width));
        let [source, destination] = [32, 32].map(|width| bits.field(width));
        Header {
            version,
            words,
            fragment_offset,
            protocol,
            source,
            destination,
        }
    }

    /// Document 02, U2: only the first fragment of a packet has them, and a packet that was not cut into fragments.
    fn has_ports(&self) -> bool {
        self.fragment_offset == 0 && WITH_PORTS.contains(&self.protocol)
    }
}

/// The protocols that have ports.
const WITH_PORTS: [u32; 2] = [6, 17];

/// Source address, destination address, source port, destination port, protocol; or 10 or 11.
pub fn packet_key(packet: &[u8]) -> Result<Key, u32> {
    if packet.len() < 20 {
        return Err(10);
    }
    let header = Header::of(packet);
    let header_bytes = 4 * header.words as usize;
    if header.version != 4 || header_bytes < 20 || header_bytes > packet.len() {
        return Err(10);
    }
    let data = &packet[header_bytes..];
    if header.has_ports() && data.len() < 4 {
        return Err(11);
    }
    let mut key = vec![0; IPV4_WIDTH as usize];
    key[..4].copy_from_slice(&header.source.to_be_bytes());
    key[4..8].copy_from_slice(&header.destination.to_be_bytes());
    if header.has_ports() {
        key[8..12].copy_from_slice(&data[..4]);
    }
    key[12] = header.protocol as u8;
    Ok(key)
}

/// The bytes of an IPv6 header; what follows it, an extension header among that, is data here.
const IPV6_HEADER_BYTES: usize = 40;

/// Source address, destination address, source port, destination port, next header; or 16 or 11.
pub fn packet6_key(packet: &[u8]) -> Result<Key, u32> {
    if packet.len() < IPV6_HEADER_BYTES {
        return Err(16);
    }
    let mut bits = Bits { packet, at: 0 };
    let version = bits.field(4);
    let [_traffic_class, _flow_label, _payload_length] = [8, 20, 16].map(|width| bits.field(width));
    let [next_header, _hop_limit] = [8, 8].map(|width| bits.field(width));
    let addresses: Vec<u8> = (0..32).map(|_| bits.field(8) as u8).collect();
    if version != 6 {
        return Err(16);
    }
    let data = &packet[IPV6_HEADER_BYTES..];
    let mut ports = [0; 4];
    if WITH_PORTS.contains(&next_header) {
        // "a short port part remains 11"
        ports.copy_from_slice(data.get(..4).ok_or(11u32)?);
    }
    let key = [&addresses[..], &ports, &[next_header as u8]].concat();
    assert_eq!(key.len() as u64, IPV6_WIDTH);
    Ok(key)
}

/// 0 with the key in the buffer, or a refusal and the buffer as it was.
pub fn packet_key_into(packet: &[u8], buffer: &mut [u8]) -> u32 {
    into(IPV4_WIDTH, packet_key, packet, buffer)
}

/// The same for an IPv6 packet.
pub fn packet6_key_into(packet: &[u8], buffer: &mut [u8]) -> u32 {
    into(IPV6_WIDTH, packet6_key, packet, buffer)
}

fn into(
    width: u64,
    key_of: impl Fn(&[u8]) -> Result<Key, u32>,
    packet: &[u8],
    buffer: &mut [u8],
) -> u32 {
    if buffer.len() as u64 != width {
        return 3;
    }
    match key_of(packet) {
        Err(number) => number,
        Ok(key) => {
            buffer.copy_from_slice(&key);
            0
        }
    }
}
