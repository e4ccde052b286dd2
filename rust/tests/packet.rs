//! The doors for a packet's key against the model. IPv4: every length up to 80 with every header length, random packets, and fragments. IPv6:
//! every length up to 88 with every version and next header, and random packets.

use flow::{doors, packet6_key, packet6_key_into, packet_key, packet_key_into, Refusal};
use model::packet as paper;
use model::settings::{IPV4_WIDTH, IPV6_WIDTH};
use testing::at_both_widths;
use testing::made::{other_width, random_bytes};
use testing::random::Random;
use testing::seen::Seen;

const PACKETS: u64 = 300_000;
const FRAGMENTS: u64 = 200_000;
const MOST_BYTES: u64 = 80;
const MOST_IPV6_BYTES: u64 = 88;
const _: () = assert!(PACKETS >= 200_000);

// A version of the protocol: its doors and its numbers.
struct Ip {
    width: u64,
    version: u8,
    // the bytes of the least header, and the byte with the protocol or the next header
    header: usize,
    protocol_at: usize,
    wrong_header: u32,
    door: fn(&[u8], &mut [u8]) -> u32,
    by_paper: fn(&[u8], &mut [u8]) -> u32,
    key_by_paper: fn(&[u8]) -> Result<Vec<u8>, u32>,
    safe: fn(&[u8]) -> Result<Vec<u8>, Refusal>,
    safe_into: fn(&[u8], &mut [u8]) -> Result<(), Refusal>,
}

const IPV4: Ip = Ip {
    width: IPV4_WIDTH,
    version: 4,
    header: 20,
    protocol_at: 9,
    wrong_header: 10,
    door: doors::packet_key,
    by_paper: paper::packet_key_into,
    key_by_paper: paper::packet_key,
    safe: |packet| packet_key(packet).map(|key| key.to_vec()),
    safe_into: packet_key_into,
};

const IPV6: Ip = Ip {
    width: IPV6_WIDTH,
    version: 6,
    header: 40,
    protocol_at: 6,
    wrong_header: 16,
    door: doors::packet6_key,
    by_paper: paper::packet6_key_into,
    key_by_paper: paper::packet6_key,
    safe: |packet| packet6_key(packet).map(|key| key.to_vec()),
    safe_into: packet6_key_into,
};

fn ip_of(width: u64) -> Ip {
    match width {
        IPV4_WIDTH => IPV4,
        _ => IPV6,
    }
}

impl Ip {
    // The door and the model on a buffer with any contents, which a refusal leaves; the answer.
    fn compare(&self, random: &mut Random, packet: &[u8], buffer: usize) -> u32 {
        let before = random_bytes(random, buffer as u64);
        let mut expected = before.clone();
        let by_paper = (self.by_paper)(packet, &mut expected);
        let mut after = before.clone();
        let answer = (self.door)(packet, &mut after);
        assert_eq!(
            (answer, &after),
            (by_paper, &expected),
            "{packet:?} into {buffer} bytes"
        );
        assert!(answer == 0 || after == before);
        answer
    }

    // A buffer's length: now and then that of the other version's key, or any.
    fn buffer(&self, random: &mut Random) -> usize {
        let length = match random.between(0, 19) {
            0 => other_width(self.width),
            1 => random.between(0, 80),
            _ => self.width,
        };
        length as usize
    }

    fn report(&self, seen: &Seen, what: &str, with_buffers: bool) {
        let all = [0, self.wrong_header, 11, 3];
        seen.report(
            what,
            &[("packet key", &all[..if with_buffers { 4 } else { 3 }])],
        );
    }
}

// Bytes 6 and 7 (RFC 791, section 3.1): three flags, then the offset.
fn set_fragment(packet: &mut [u8], flags: u8, offset: u16) {
    assert!(flags < 8 && offset < 1 << 13);
    let bytes = (u16::from(flags) << 13 | offset).to_be_bytes();
    packet[6..8].copy_from_slice(&bytes);
}

// Any flags; mostly offset zero, else one bit of it or any.
fn set_random_fragment(random: &mut Random, packet: &mut [u8]) {
    let offset = match random.between(0, 5) {
        0 => 1 << random.between(0, 12),
        1 => random.between(0, 8191),
        _ => 0,
    };
    set_fragment(packet, random.between(0, 7) as u8, offset as u16);
}

#[test]
fn every_length_and_header_length() {
    let mut random = Random::new(61);
    let mut seen = Seen::default();
    for length in 0..=MOST_BYTES {
        for words in 0..16 {
            for version in 0..16 {
                for protocol in [6, 17, 1, 0, 7, 16, 255] {
                    let mut packet = random_bytes(&mut random, length);
                    if let Some(first) = packet.get_mut(0) {
                        *first = 16 * version + words;
                    }
                    if let Some(byte) = packet.get_mut(9) {
                        *byte = protocol;
                        set_random_fragment(&mut random, &mut packet);
                    }
                    let buffer = IPV4.width as usize;
                    seen.note("packet key", IPV4.compare(&mut random, &packet, buffer));
                }
            }
        }
    }
    IPV4.report(&seen, "packets of every length and header length", false);
}

// Next headers: the two with ports, extension headers and what else may follow (RFC 8200, section 4; the IANA's protocol numbers).
const NEXT_HEADERS: [u8; 20] = [
    6, 17, 0, 43, 44, 50, 51, 58, 59, 60, 135, 139, 140, 4, 41, 1, 7, 16, 253, 255,
];

// Each with a version of every number, also behind bytes that are random, so with any flow label and payload length.
#[test]
fn every_length_version_and_next_header() {
    let mut random = Random::new(66);
    let mut seen = Seen::default();
    for length in 0..=MOST_IPV6_BYTES {
        for version in 0..16 {
            for next_header in NEXT_HEADERS {
                for _ in 0..8 {
                    let mut packet = random_bytes(&mut random, length);
                    if let Some(first) = packet.get_mut(0) {
                        *first = 16 * version + *first % 16;
                    }
                    if let Some(byte) = packet.get_mut(6) {
                        *byte = next_header;
                    }
                    let buffer = IPV6.buffer(&mut random);
                    let answer = IPV6.compare(&mut random, &packet, buffer);
                    seen.note("packet key", answer);
                    let expected = if buffer != 37 {
                        3
                    } else if length < 40 || version != 6 {
                        16
                    } else if [6, 17].contains(&next_header) && length < 44 {
                        11
                    } else {
                        0
                    };
                    assert_eq!(answer, expected, "{packet:?} into {buffer} bytes");
                }
            }
        }
    }
    IPV6.report(
        &seen,
        "IPv6 packets of every length, version and next header",
        true,
    );
    assert!(seen.total() >= 200_000);
}

// Mostly of the right version, with a header and ports that may just fit.
fn random_packets(width: u64) {
    let ip = ip_of(width);
    let mut random = Random::new(62);
    let mut seen = Seen::default();
    let (mut long_headers, mut without_ports) = (0, 0);
    while seen.total() < PACKETS {
        let words = random.between(0, 15);
        let length = match random.between(0, 3) {
            0 => random.between(0, MOST_IPV6_BYTES),
            1 if ip.version == 4 => 4 * words + random.between(0, 5),
            1 => 36 + random.between(0, 9),
            2 => random.between(20, 1500),
            _ => random.between(60, MOST_IPV6_BYTES),
        };
        let mut packet = random_bytes(&mut random, length);
        if length as usize > ip.protocol_at && random.between(0, 9) != 0 {
            packet[0] = 16 * ip.version + words as u8;
            if ip.version == 4 {
                set_random_fragment(&mut random, &mut packet);
            }
            packet[ip.protocol_at] = match random.between(0, 8) {
                0..=3 => [6, 17][random.between(0, 1) as usize],
                4 => random.number() as u8,
                _ => NEXT_HEADERS[random.between(0, NEXT_HEADERS.len() as u64 - 1) as usize],
            };
        }
        let buffer = ip.buffer(&mut random);
        let answer = ip.compare(&mut random, &packet, buffer);
        seen.note("packet key", answer);
        if (ip.key_by_paper)(&packet).is_ok() {
            let protocol = packet[ip.protocol_at];
            long_headers += u64::from(words > 5);
            without_ports += u64::from(protocol != 6 && protocol != 17);
        }
    }
    ip.report(&seen, "random packets", true);
    println!("{long_headers} keys of packets with options (in IPv6 of a low half-byte above 5), {without_ports} without ports");
    assert!(long_headers > 0 && without_ports > 0);
}

// Zero, each of the 13 bits alone, and 20 random ones.
fn offsets(random: &mut Random) -> Vec<u16> {
    let mut offsets = vec![0];
    offsets.extend((0..13).map(|bit| 1 << bit));
    offsets.extend((0..20).map(|_| random.between(1, 8191) as u16));
    offsets
}

// Every packet is cut at every length, so 0 to 8 bytes and more follow its header.
#[test]
fn fragments() {
    let mut random = Random::new(65);
    let mut seen = Seen::default();
    let mut would_be_11 = 0;
    for offset in offsets(&mut random) {
        let later = offset != 0;
        let kind = ["offset zero", "later fragment"][usize::from(later)];
        for flags in 0..8 {
            for protocol in [6, 17, 1, 44, 255] {
                for header_bytes in [20, 24, 60] {
                    let mut first = random_bytes(&mut random, 68);
                    first[0] = 16 * 4 + header_bytes / 4;
                    first[9] = protocol;
                    set_fragment(&mut first, flags, 0);
                    let mut packet = first.clone();
                    set_fragment(&mut packet, flags, offset);
                    for length in 0..=packet.len() {
                        let answer = IPV4.compare(&mut random, &packet[..length], 13);
                        seen.note(kind, answer);
                        if later && paper::packet_key(&first[..length]) == Err(11) {
                            assert_eq!(answer, 0, "{:?}", &packet[..length]);
                            would_be_11 += 1;
                        }
                        assert!(!later || answer != 11);
                    }
                    let buffer = [0, 4, 12, 14, 37][random.between(0, 4) as usize];
                    seen.note(kind, IPV4.compare(&mut random, &packet, buffer));
                }
            }
        }
    }
    seen.report(
        "packets at 34 fragment offsets",
        &[
            ("offset zero", &[0, 3, 10, 11]),
            ("later fragment", &[0, 3, 10]),
        ],
    );
    println!("{would_be_11} later fragments answered 0 that would be 11 at offset zero");
    assert!(seen.total() >= FRAGMENTS && would_be_11 > 0);
}

// Behind a fragment header (44), also one that says offset zero and names a protocol with ports: the ports are zero, and never missing.
#[test]
fn behind_extension_headers() {
    let mut random = Random::new(67);
    let mut keys = 0;
    for next_header in (0..=255).filter(|number| ![6, 17].contains(number)) {
        for length in 40..=MOST_IPV6_BYTES {
            let mut packet = random_bytes(&mut random, length);
            packet[0] = 0x60;
            packet[6] = next_header;
            if length >= 44 {
                packet[40] = [6, 17][random.between(0, 1) as usize];
                packet[41..44].fill(0);
            }
            let key = packet6_key(&packet).unwrap();
            assert_eq!(key[..32], packet[8..40]);
            assert_eq!(key[32..], [0, 0, 0, 0, next_header]);
            keys += 1;
        }
    }
    println!("{keys} keys behind other next headers");
    assert_eq!(keys, 254 * 49);
}

// The key is made of the bytes it is said to be made of: another byte anywhere else makes no difference.
fn bytes_that_make_the_key(width: u64) {
    let ip = ip_of(width);
    let mut random = Random::new(63);
    let (mut alike, mut other) = (0, 0);
    for _ in 0..2_000 {
        let header = match ip.version {
            4 => 4 * random.between(5, 15) as usize,
            _ => ip.header,
        };
        let length = header as u64 + random.between(4, 30);
        let mut packet = random_bytes(&mut random, length);
        let low = match ip.version {
            4 => header as u8 / 4,
            _ => random.between(0, 15) as u8,
        };
        packet[0] = 16 * ip.version + low;
        packet[ip.protocol_at] = [6, 17, 44][random.between(0, 2) as usize];
        let later = ip.version == 4 && random.between(0, 2) == 0;
        if ip.version == 4 {
            let offset = random.between(1, 8191) as u16;
            let flags = random.between(0, 7) as u8;
            set_fragment(&mut packet, flags, if later { offset } else { 0 });
        }
        let key = (ip.safe)(&packet).unwrap();
        let ports = packet[ip.protocol_at] != 44 && !later;
        let (addresses, fragment) = match ip.version {
            4 => (12..20, &[6, 7][..]),
            _ => (8..40, &[][..]),
        };
        for at in (1..packet.len()).filter(|at| *at != ip.protocol_at && !fragment.contains(at)) {
            let mut altered = packet.clone();
            altered[at] ^= random.between(1, 255) as u8;
            let of_key = addresses.contains(&at) || ports && (header..header + 4).contains(&at);
            assert_eq!((ip.safe)(&altered).unwrap() != key, of_key, "byte {at}");
            if of_key {
                other += 1;
            } else {
                alike += 1;
            }
        }
        // in IPv4 the flags, in IPv6 the low half of the first byte, which is the traffic class's
        for bits in 1..8 {
            let mut altered = packet.clone();
            match ip.version {
                4 => altered[6] ^= bits << 5,
                _ => altered[0] ^= bits,
            }
            assert_eq!((ip.safe)(&altered).as_ref(), Ok(&key));
            alike += 1;
        }
    }
    println!("{other} bytes that altered the key, {alike} alterations that did not");
    assert!(other > 0 && alike > 0);
}

// Where each field of an IPv6 key comes from.
#[test]
fn fields_of_an_ipv6_key() {
    let packet: Vec<u8> = (0..60)
        .map(|at| match at {
            0 => 0x60,
            6 => 17,
            at => 100 + at,
        })
        .collect();
    let key = packet6_key(&packet).unwrap();
    let source: Vec<u8> = (108..124).collect();
    let destination: Vec<u8> = (124..140).collect();
    assert_eq!(key[..16], source);
    assert_eq!(key[16..32], destination);
    assert_eq!(key[32..], [140, 141, 142, 143, 17]);
}

// The safe calls hand on what the door says.
fn safe_calls(width: u64) {
    let ip = ip_of(width);
    let mut random = Random::new(64);
    let mut seen = Seen::default();
    for _ in 0..20_000 {
        let length = ip.header as u64 + random.between(3, 4);
        let mut packet = random_bytes(&mut random, length);
        packet[0] = 16 * ip.version + 5 + random.between(0, 2) as u8;
        if random.between(0, 9) == 0 {
            packet[0] ^= 0x20;
        }
        if ip.version == 4 {
            set_random_fragment(&mut random, &mut packet);
        }
        packet[ip.protocol_at] = random.between(5, 7) as u8;
        let by_paper = (ip.key_by_paper)(&packet);
        assert_eq!((ip.safe)(&packet).map_err(Refusal::number), by_paper);
        let length = ip.buffer(&mut random);
        let mut buffer = vec![7; length];
        let answer = (ip.safe_into)(&packet, &mut buffer).map_err(Refusal::number);
        match by_paper {
            _ if length as u64 != ip.width => {
                assert_eq!((answer, buffer), (Err(3), vec![7; length]))
            }
            Ok(key) => assert_eq!((answer, buffer), (Ok(()), key)),
            Err(number) => assert_eq!((answer, buffer), (Err(number), vec![7; length])),
        }
        seen.note("packet key", answer.err().unwrap_or(0));
    }
    ip.report(&seen, "packets through the safe calls", true);
}

at_both_widths!(random_packets, bytes_that_make_the_key, safe_calls);
