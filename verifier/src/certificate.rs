//! Certificates as the engine assembles them: which component each signature of a packet list is on.

use crate::fingerprint::Fingerprint;
use crate::keys;
use crate::notice::What;
use crate::number::Place;
use crate::packets::{kind, Packet, Packets};

/// An import line has at most 16,777,216 octets: the word, a space, and two digits an octet.
pub const LONGEST: usize = (16_777_216 - "import ".len()) / 2;

pub struct Certificate<'a> {
    /// None unless the key is of version 4 or 6.
    fingerprint: Option<Fingerprint>,
    /// The first is the key.
    packets: Vec<Packet<'a>>,
    positions: Vec<Position>,
}

/// Where a signature is, by places in the packet list; the component of one on the key is the key.
struct Position {
    signature: usize,
    component: usize,
    place: Place,
}

/// A signature's body with what it is on.
pub struct PlacedSignature<'c> {
    pub place: Place,
    /// Empty if the signature is on the key.
    pub component: &'c [u8],
    pub body: &'c [u8],
}

impl<'a> Certificate<'a> {
    /// The certificate of a packet list that begins with a key and has no other, or why the engine refuses it.
    pub fn assemble(packets: Vec<Packet<'a>>) -> Result<Certificate<'a>, What> {
        let mut certificate =
            Certificate { fingerprint: Fingerprint::of_key(&packets[0].body), packets, positions: Vec::new() };
        certificate.place_signatures()?;
        if certificate.octets().len() > LONGEST {
            return Err(What::Long);
        }
        Ok(certificate)
    }

    fn place_signatures(&mut self) -> Result<(), What> {
        // What the next signature is on; None after a packet that is dropped together with its signatures.
        let mut component = None;
        for (index, packet) in self.packets.iter().enumerate() {
            match packet.kind {
                kind::KEY => component = Some((index, Place::Key)),
                kind::SIGNATURE => self.positions.extend(component.map(|(component, place)| Position {
                    signature: index,
                    component,
                    place,
                })),
                kind::USER_ID => component = Some((index, Place::UserId)),
                kind::ATTRIBUTE => component = Some((index, Place::Attribute)),
                kind::SUBKEY => component = Some((index, Place::Subkey)),
                kind::MARKER | 12 | kind::PADDING => {}
                40..=63 => component = None,
                kind::SECRET_KEY | kind::SECRET_SUBKEY => return Err(What::Secret),
                kind::COMPRESSED => return Err(What::Compressed),
                other => return Err(What::Kind(other)),
            }
        }
        Ok(())
    }

    pub fn fingerprint(&self) -> Option<Fingerprint> {
        self.fingerprint
    }

    /// The key's body.
    pub fn key(&self) -> &[u8] {
        &self.packets[0].body
    }

    /// The bodies of the key and of its subkeys.
    pub fn keys(&self) -> impl Iterator<Item = &[u8]> {
        let is_key = |packet: &&Packet| matches!(packet.kind, kind::KEY | kind::SUBKEY);
        self.packets.iter().filter(is_key).map(|packet| &*packet.body)
    }

    /// The bodies of the user IDs.
    pub fn user_ids(&self) -> impl Iterator<Item = &[u8]> {
        let is_user_id = |packet: &&Packet| packet.kind == kind::USER_ID;
        self.packets.iter().filter(is_user_id).map(|packet| &*packet.body)
    }

    pub fn signatures(&self) -> impl ExactSizeIterator<Item = PlacedSignature<'_>> {
        self.positions.iter().map(move |position| PlacedSignature {
            place: position.place,
            component: match position.place {
                Place::Key => &[],
                _ => &self.packets[position.component].body,
            },
            body: &self.packets[position.signature].body,
        })
    }

    /// The packets' own octets, but for the lengths that the engine refuses.
    pub fn octets(&self) -> Vec<u8> {
        let mut octets = Vec::new();
        self.packets.iter().for_each(|packet| packet.write(&mut octets));
        octets
    }

    /// Whether both have the same packets.
    pub fn is_double_of(&self, other: &Certificate) -> bool {
        self.packets.len() == other.packets.len()
            && self.packets.iter().zip(&other.packets).all(|(one, two)| one.kind == two.kind && one.body == two.body)
    }
}

/// The certificates of a text of packets. `report` gets what is left out or spelled again, with its place in the text.
pub fn certificates<'a>(text: &'a [u8], public: bool, mut report: impl FnMut(usize, What)) -> Vec<Certificate<'a>> {
    let mut certificates = Vec::new();
    let mut cut = None;
    let mut lists: Vec<Vec<Packet>> = Vec::new();
    for packet in Packets::new(text) {
        match packet {
            Err(fault) => cut = Some(fault),
            Ok(packet) if begins_certificate(&packet) => lists.push(vec![packet]),
            Ok(packet) => match lists.last_mut() {
                Some(list) => list.push(packet),
                // These are ignored wherever they are (RFC 9580, sections 5.8 and 5.14).
                None if matches!(packet.kind, kind::MARKER | kind::PADDING) => {}
                None => report(packet.place, What::BeforeFirst),
            },
        }
    }
    if let Some(fault) = cut {
        // The certificate that the fault cuts short may lack a revocation.
        let place = lists.pop().map_or(fault.place, |list| list[0].place);
        report(place, What::Fault(fault));
    }
    for list in lists {
        let place = list[0].place;
        list.iter().filter(|packet| packet.is_respelled()).for_each(|packet| report(packet.place, What::Respelled));
        let list = if public { without_secrets(list) } else { Ok(list) };
        match list.and_then(Certificate::assemble) {
            Ok(certificate) => certificates.push(certificate),
            Err(what) => report(place, what),
        }
    }
    certificates
}

fn begins_certificate(packet: &Packet) -> bool {
    matches!(packet.kind, kind::KEY | kind::SECRET_KEY)
}

fn without_secrets(packets: Vec<Packet>) -> Result<Vec<Packet>, What> {
    packets.into_iter().map(without_secret).collect()
}

fn without_secret(packet: Packet) -> Result<Packet, What> {
    let kind = match packet.kind {
        kind::SECRET_KEY => kind::KEY,
        kind::SECRET_SUBKEY => kind::SUBKEY,
        _ => return Ok(packet),
    };
    let length = keys::public_length(&packet.body).ok_or(What::PublicPart)?;
    Ok(packet.cut_to(kind, length))
}

#[cfg(test)]
mod tests {
    use super::*;

    const KEY: &[u8] = &[0xc6, 6, 4, 0, 0, 0, 1, 1];

    fn text(packets: &[&[u8]]) -> Vec<u8> {
        packets.concat()
    }

    /// The certificates' signatures, as place, component and body, and what was reported.
    #[allow(clippy::type_complexity)]
    fn cut(text: &[u8], public: bool) -> (Vec<Vec<(Place, Vec<u8>, Vec<u8>)>>, Vec<(usize, What)>) {
        let mut reported = Vec::new();
        let certificates = certificates(text, public, |place, what| reported.push((place, what)));
        let signatures = |certificate: &Certificate| {
            let placed = certificate.signatures();
            placed.map(|one| (one.place, one.component.to_vec(), one.body.to_vec())).collect()
        };
        (certificates.iter().map(signatures).collect(), reported)
    }

    #[test]
    fn signatures_are_on_the_component_before_them() {
        let text = text(&[
            KEY,
            &[0xc2, 1, 1],
            &[0xcd, 1, b'a', 0xcc, 1, 6, 0xc2, 1, 2],
            &[0xc0 | 40, 0, 0xc2, 1, 9, 0xca, 0, 0xc2, 1, 9],
            &[0xd1, 1, b'b', 0xc2, 1, 3],
            &[0xce, 1, b'c', 0xc2, 1, 4, 0xc2, 1, 5],
            KEY,
        ]);
        let expected = [
            vec![
                (Place::Key, vec![], vec![1]),
                (Place::UserId, vec![b'a'], vec![2]),
                (Place::Attribute, vec![b'b'], vec![3]),
                (Place::Subkey, vec![b'c'], vec![4]),
                (Place::Subkey, vec![b'c'], vec![5]),
            ],
            vec![],
        ];
        assert_eq!(cut(&text, false), (expected.to_vec(), vec![]));
    }

    #[test]
    fn what_the_engine_refuses_is_left_out_alone() {
        let secret = [0xc5, 8, 4, 0, 0, 0, 1, 27, 0, 0];
        let reported = vec![(0, What::Secret)];
        assert_eq!(cut(&text(&[&secret, KEY]), false), (vec![vec![]], reported));
        let secret_subkey = [0xc7, 8, 4, 0, 0, 0, 1, 27, 0, 0];
        for (packet, what) in
            [(&[0xc8, 0][..], What::Compressed), (&[0xcb, 0], What::Kind(11)), (&secret_subkey, What::Secret)]
        {
            let text = text(&[KEY, packet, KEY]);
            assert_eq!(cut(&text, false), (vec![vec![]], vec![(0, what)]));
        }
        let marked = text(&[&[0xca, 3, b'P', b'G', b'P', 0xd5, 1, 0], KEY]);
        assert_eq!(cut(&marked, false), (vec![vec![]], vec![]));
        let text = text(&[&[0xcd, 0], KEY, KEY, &[0xc2, 7]]);
        let (certificates, reported) = cut(&text, false);
        assert_eq!(certificates.len(), 1);
        assert_eq!(reported[0], (0, What::BeforeFirst));
        assert!(matches!(reported[1], (10, What::Fault(fault)) if fault.place == 18));
    }

    #[test]
    fn secret_parts_are_dropped_on_request() {
        let public = [4, 0, 0, 0, 1, 22, 2, 0x2b, 6, 0, 9, 1, 0xff];
        let text = text(&[&[0xc5, 16], &public, &[0, 1, 2], &[0xcd, 1, b'a'], &[0xc7, 15], &public, &[0, 1]]);
        let reported = |_: usize, what: What| panic!("{what:?}");
        let certificates = certificates(&text, true, reported);
        assert_eq!(certificates.len(), 1);
        let expected = [&[0xc6, 13][..], &public, &[0xcd, 1, b'a', 0xce, 13], &public].concat();
        assert_eq!(certificates[0].octets(), expected);
    }
}
