//! The key of an IPv4 packet, and that of an IPv6 packet.

use crate::{accepted, doors, Ipv4Key, Ipv6Key, Refusal, IPV4_WIDTH, IPV6_WIDTH};

/// The key of an IPv4 packet (RFC 791): source address, destination address, source port, destination port, protocol. The ports are zero
/// unless the protocol is 6 or 17 and the fragment offset (low 13 bits of bytes 6 and 7) is zero.
///
/// [`Refusal::PacketHeader`] where the packet has under 20 bytes, is not of version 4, or has a header length under 20 or beyond the
/// packet; [`Refusal::PacketPorts`] where the protocol is 6 or 17 and the fragment offset zero, with under 4 bytes after the header.
///
/// ```
/// use flow::{packet_key, Refusal};
///
/// let mut packet = vec![0; 24];
/// packet[0] = 0x45; // version 4, a header of five words
/// packet[9] = 6;
/// packet[12..16].copy_from_slice(&[192, 0, 2, 1]);
/// packet[16..20].copy_from_slice(&[192, 0, 2, 2]);
/// packet[20..24].copy_from_slice(&[0x04, 0xd2, 0x00, 0x50]);
/// assert_eq!(
///     packet_key(&packet),
///     Ok([192, 0, 2, 1, 192, 0, 2, 2, 0x04, 0xd2, 0x00, 0x50, 6])
/// );
/// assert_eq!(packet_key(&packet[..23]), Err(Refusal::PacketPorts));
/// assert_eq!(packet_key(&packet[..19]), Err(Refusal::PacketHeader));
/// ```
///
/// # Fragments
///
/// A later fragment of a packet, whose offset is not zero, carries payload where the first one has its ports. Its key is the addresses, zero
/// ports and the protocol, and it is never refused for missing ports. The flags, 'more fragments' among them, are not read, and no fragments
/// are put together. So the later fragments of a flow are found only if a flow of the same addresses and protocol with zero ports is held:
/// control software adds that flow beside the flow itself, in the class that all later fragments of the protocol between the two addresses
/// are to have.
///
/// ```
/// use flow::packet_key;
///
/// let mut first = vec![0; 1500];
/// first[0] = 0x45;
/// first[6] = 0x20; // more fragments follow
/// first[9] = 17;
/// first[12..20].copy_from_slice(&[192, 0, 2, 1, 192, 0, 2, 2]);
/// first[20..24].copy_from_slice(&[0x13, 0x8c, 0x13, 0x8d]);
/// let mut later = first.clone();
/// later[6..8].copy_from_slice(&[0, 185]); // 185 * 8 = 1480 bytes of the packet came before
/// assert_eq!(
///     packet_key(&first),
///     Ok([192, 0, 2, 1, 192, 0, 2, 2, 0x13, 0x8c, 0x13, 0x8d, 17])
/// );
/// assert_eq!(
///     packet_key(&later),
///     Ok([192, 0, 2, 1, 192, 0, 2, 2, 0, 0, 0, 0, 17])
/// );
/// assert_eq!(packet_key(&later[..20]), packet_key(&later));
/// ```
pub fn packet_key(packet: &[u8]) -> Result<Ipv4Key, Refusal> {
    let mut key = [0; IPV4_WIDTH as usize];
    packet_key_into(packet, &mut key)?;
    Ok(key)
}

/// [`packet_key`] into a lent buffer, which a refused call leaves as it was. Also [`Refusal::KeyLength`] where the buffer is not of 13
/// bytes.
pub fn packet_key_into(packet: &[u8], key: &mut [u8]) -> Result<(), Refusal> {
    accepted(doors::packet_key(packet, key))
}

/// The key of an IPv6 packet (RFC 8200): source address, destination address, source port, destination port, next header. The ports are the first
/// four bytes after the header of 40 bytes where its next header is 6 or 17, and zero for any other next header, an extension header among them.
/// The payload length is not read.
///
/// [`Refusal::Packet6Header`] where the packet has under 40 bytes or is not of version 6; [`Refusal::PacketPorts`] where the next header is 6 or
/// 17, with under 4 bytes after the header.
///
/// ```
/// use flow::{packet6_key, Refusal};
///
/// let mut packet = vec![0; 44];
/// packet[0] = 0x60; // version 6
/// packet[6] = 17;
/// packet[8..12].copy_from_slice(&[0x20, 0x01, 0x0d, 0xb8]); // from 2001:db8::1
/// packet[23] = 1;
/// packet[24..28].copy_from_slice(&[0x20, 0x01, 0x0d, 0xb8]); // to 2001:db8::2
/// packet[39] = 2;
/// packet[40..44].copy_from_slice(&[0x13, 0xc4, 0x13, 0xc4]);
/// let key = packet6_key(&packet)?;
/// assert_eq!(key[..32], packet[8..40]);
/// assert_eq!(key[32..], [0x13, 0xc4, 0x13, 0xc4, 17]);
/// assert_eq!(packet6_key(&packet[..43]), Err(Refusal::PacketPorts));
/// assert_eq!(packet6_key(&packet[..39]), Err(Refusal::Packet6Header));
///
/// // behind an extension header, here one for a fragment, the ports are not looked for
/// packet[6] = 44;
/// assert_eq!(packet6_key(&packet)?[32..], [0, 0, 0, 0, 44]);
/// # Ok::<(), Refusal>(())
/// ```
///
/// So the packets of a flow that come behind an extension header are found only if a flow of the same addresses with zero ports and that
/// extension header's number is held: control software adds that flow beside the flow itself.
pub fn packet6_key(packet: &[u8]) -> Result<Ipv6Key, Refusal> {
    let mut key = [0; IPV6_WIDTH as usize];
    packet6_key_into(packet, &mut key)?;
    Ok(key)
}

/// [`packet6_key`] into a lent buffer, which a refused call leaves as it was. Also [`Refusal::KeyLength`] where the buffer is not of 37
/// bytes.
pub fn packet6_key_into(packet: &[u8], key: &mut [u8]) -> Result<(), Refusal> {
    accepted(doors::packet6_key(packet, key))
}
