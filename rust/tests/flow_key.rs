//! Keys of addresses, ports and protocol: their bytes, their text, and what is refused.

use flow::{packet6_key, packet_key, BadFlowKey, FlowKey};
use std::net::{IpAddr, Ipv4Addr, Ipv6Addr};
use testing::random::Random;

fn bytes<const N: usize>(random: &mut Random) -> [u8; N] {
    // few values, so that zeros and runs of zeros, which IPv6's text shortens, occur
    [0; N].map(|_| [0, 0, 1, 0x20, 0xff][random.between(0, 4) as usize])
}

// A key has the bytes that the doors give a packet of the same fields.
#[test]
fn a_key_is_that_of_its_packet() {
    let mut random = Random::new(1);
    for _ in 0..2_000 {
        let (source, destination): ([u8; 4], [u8; 4]) = (bytes(&mut random), bytes(&mut random));
        let rest: [u8; 4] = bytes(&mut random);
        let ports = [0, 2].map(|i| u16::from_be_bytes([rest[i], rest[i + 1]]));
        let protocol = [6, 17][random.between(0, 1) as usize];
        let mut packet = vec![0x45, 0, 0, 24, 0, 0, 0, 0, 64, protocol, 0, 0];
        packet.extend(source.iter().chain(&destination).chain(&rest));
        let key = FlowKey::v4(
            source.into(),
            destination.into(),
            ports[0],
            ports[1],
            protocol,
        );
        assert_eq!(packet_key(&packet).unwrap()[..], key[..]);
        check_parts(&key, source.into(), destination.into(), ports, protocol);

        let (source, destination): ([u8; 16], [u8; 16]) = (bytes(&mut random), bytes(&mut random));
        let mut packet = vec![0x60, 0, 0, 0, 0, 4, protocol, 64];
        packet.extend(source.iter().chain(&destination).chain(&rest));
        let key = FlowKey::v6(
            source.into(),
            destination.into(),
            ports[0],
            ports[1],
            protocol,
        );
        assert_eq!(packet6_key(&packet).unwrap()[..], key[..]);
        check_parts(&key, source.into(), destination.into(), ports, protocol);
    }
}

// The parts of a key, and its ways through text and bytes.
fn check_parts(key: &FlowKey, source: IpAddr, destination: IpAddr, ports: [u16; 2], protocol: u8) {
    assert_eq!((key.source(), key.destination()), (source, destination));
    assert_eq!([key.source_port(), key.destination_port()], ports);
    assert_eq!(key.protocol(), protocol);
    assert_eq!(
        FlowKey::new(source, destination, ports[0], ports[1], protocol).as_ref(),
        Ok(key)
    );
    assert_eq!(key.to_string().parse().as_ref(), Ok(key));
    assert_eq!(FlowKey::try_from(&key[..]).as_ref(), Ok(key));
    assert_eq!(format!("{key:?}"), format!("FlowKey({key})"));
    assert_eq!(key.width() as usize, key.len());
}

#[test]
fn what_is_no_key() {
    let parsed = |text: &str| text.parse::<FlowKey>().unwrap_err();
    assert_eq!(parsed(""), BadFlowKey::Fields(0));
    assert_eq!(parsed("10.0.0.1 10.0.0.2 1 2"), BadFlowKey::Fields(4));
    assert_eq!(parsed("10.0.0.1 10.0.0.2 1 2 6 5"), BadFlowKey::Fields(6));
    assert_eq!(parsed("10.0.0.1 2001:db8::1 1 2 6"), BadFlowKey::Versions);
    assert_eq!(
        parsed("10.0.0 10.0.0.2 1 2 6"),
        BadFlowKey::Address("10.0.0".into())
    );
    assert_eq!(
        parsed("10.0.0.1 10.0.0.256 1 2 6"),
        BadFlowKey::Address("10.0.0.256".into())
    );
    for port in ["65536", "-1", "+1", "0x1", "a"] {
        assert_eq!(
            parsed(&format!("::1 ::2 {port} 2 6")),
            BadFlowKey::Port(port.into())
        );
        assert_eq!(
            parsed(&format!("::1 ::2 1 {port} 6")),
            BadFlowKey::Port(port.into())
        );
    }
    for protocol in ["256", "udp", "+6"] {
        assert_eq!(
            parsed(&format!("::1 ::2 1 2 {protocol}")),
            BadFlowKey::Protocol(protocol.into())
        );
    }
    for length in [0, 12, 14, 36, 38] {
        assert_eq!(
            FlowKey::try_from(&vec![0; length][..]),
            Err(BadFlowKey::Length(length))
        );
    }
    let (four, six) = (
        IpAddr::from(Ipv4Addr::LOCALHOST),
        IpAddr::from(Ipv6Addr::LOCALHOST),
    );
    assert_eq!(FlowKey::new(six, four, 1, 2, 6), Err(BadFlowKey::Versions));
    assert!(parsed("a b 1 2 6\n")
        .to_string()
        .contains("\"a\" is no address"));
}
