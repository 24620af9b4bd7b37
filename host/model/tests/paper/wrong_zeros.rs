//! Wrong rules for the zero in front of a plug-and-play packet (request 2 of document 02). The tests of `compare` try them too.

/// What a packet has to be for a right unit, with this time number, to take it as the wrong rule takes the packet that came.
pub type Rule = fn(&[u8], u8) -> Vec<u8>;

pub const WRONG: [(&str, Rule); 17] = [
    ("there is none, as before the request", |packet, _| unless(packet, true)),
    ("it comes behind the protocol check where the time number is FE", |packet, time| unless(packet, time == 0xFE)),
    ("it comes behind that check elsewhere", |packet, time| unless(packet, time != 0xFE)),
    ("it wants four bytes", |packet, _| unless(packet, packet.len() < 4)),
    ("it wants a whole header", |packet, _| unless(packet, packet.len() < 17)),
    ("it leaves replies alone", |packet, _| unless(packet, packet.get(3).is_some_and(|byte| byte >> 6 == 0))),
    ("it leaves all but commands alone", |packet, _| unless(packet, packet.get(3).is_some_and(|byte| byte >> 6 != 1))),
    ("it goes for the header alone", header_alone),
    ("the end of the packet stays where it was", |packet, _| match ignored(packet) {
        Some(rest) => [rest, &[0]].concat(),
        None => packet.to_vec(),
    }),
    ("the last byte goes with it", |packet, _| match ignored(packet) {
        Some([rest @ .., _]) => rest.to_vec(),
        _ => packet.to_vec(),
    }),
    ("all zeros go", |packet, _| {
        let zeros = packet.iter().take_while(|byte| **byte == 0).count();
        if packet[zeros..].starts_with(&[0xFE, 3]) { packet[zeros..].to_vec() } else { packet.to_vec() }
    }),
    ("any byte goes", |packet, _| without_first(packet, matches!(packet, [_, 0xFE, 3, ..]))),
    ("before any address", |packet, _| without_first(packet, matches!(packet, [0, _, 3, ..]))),
    ("before any protocol", |packet, _| without_first(packet, matches!(packet, [0, 0xFE, ..]))),
    ("before RMAP too", |packet, _| without_first(packet, matches!(packet, [0, 0xFE, 1, ..]))),
    ("before RMAP to the unit too", |packet, _| without_first(packet, matches!(packet, [0, 0x43, 1, ..]))),
    ("before time packets too", |packet, time| without_first(packet, matches!(packet, [0, _, n, ..] if *n == time))),
];

/// The packet behind the zero that is to be ignored.
fn ignored(packet: &[u8]) -> Option<&[u8]> {
    packet.starts_with(&[0, 0xFE, 3]).then(|| &packet[1..])
}

/// Where `not` holds the zero is not ignored. Any other byte in its place has the fate that it had.
fn unless(packet: &[u8], not: bool) -> Vec<u8> {
    match ignored(packet) {
        Some(rest) if not => [&[1], rest].concat(),
        _ => packet.to_vec(),
    }
}

fn without_first(packet: &[u8], goes: bool) -> Vec<u8> {
    packet[usize::from(goes)..].to_vec()
}

/// Data are looked for where they would begin without the zero: at the last byte of the header.
fn header_alone(packet: &[u8], _: u8) -> Vec<u8> {
    let size = packet.get(3).map_or(0, |instruction| 16 + 4 * usize::from(instruction & 3));
    match ignored(packet) {
        Some(rest) if rest.len() >= size => [&rest[..size], &packet[size..]].concat(),
        _ => packet.to_vec(),
    }
}
