//! Texts that are not of the form, or no longer: every small change of small texts, and random ones.
use super::generate::Draft;
use crate::check::generate::Random;

/// Between them they have every part that a text can have.
pub const SMALL: [&[u8]; 6] = [
    b"parity 0;\n0 0 0 0;\n",
    b"parity 1;\n1 4294967295 1 0,1;\n0 10 0 1 \"a b\";\n",
    b"parity 2;\n0 0 0 1;\n1 0 0 2;\n2 0 1 0;\n",
    b"parity 0;\n0 0 1 0,0 \"\";\n",
    b"parity 10;\n",
    b"parity 1;\n0 0 0 1 \"0 0 0 1;\";\n1 12 1 0;\n",
];

/// Bytes that mean something in a text, those next to them, and those that other forms have.
pub const BYTES: [u8; 26] = [
    b'0', b'1', b'2', b'9', b'/', b':', b' ', b'!', b',', b'-', b'+', b'.', b';', b'<', b'"', b'#', b'\'', b'\n',
    b'\r', b'\t', 0x0b, b'p', b'P', 0, 128, 255,
];

/// The text up to each of its bytes.
pub fn truncated(text: &[u8]) -> impl Iterator<Item = Vec<u8>> {
    (0..=text.len()).map(|end| text[..end].to_vec())
}

/// One byte changed, put in, or taken out, at every place.
pub fn changed(text: &[u8]) -> impl Iterator<Item = Vec<u8>> {
    let at = |place: usize| {
        let (front, back) = text.split_at(place);
        let rest = back.get(1..).unwrap_or(&[]);
        let put = move |byte: u8| [[front, &[byte], rest].concat(), [front, &[byte], back].concat()];
        std::iter::once([front, rest].concat()).chain(BYTES.into_iter().flat_map(put))
    };
    (0..=text.len()).flat_map(at)
}

/// Two bytes changed, at every two places.
pub fn changed_twice(text: &[u8]) -> impl Iterator<Item = Vec<u8>> {
    const FEW: [u8; 8] = [b'0', b'1', b' ', b',', b';', b'"', b'\n', b'2'];
    let pairs = (1..text.len()).flat_map(|second| (0..second).map(move |first| (first, second)));
    pairs.flat_map(move |(first, second)| {
        FEW.into_iter().flat_map(move |one| {
            FEW.map(|other| {
                let mut new = text.to_vec();
                (new[first], new[second]) = (one, other);
                new
            })
        })
    })
}

/// Every text of up to so many of these bytes behind `front` and before `back`.
pub fn every(
    front: &'static [u8],
    bytes: &'static [u8],
    most: u32,
    back: &'static [u8],
) -> impl Iterator<Item = Vec<u8>> {
    let count = bytes.len();
    let of = move |length: u32, code: usize| {
        let byte = |i: u32| bytes[code / count.pow(i) % count];
        [front, &(0..length).map(byte).collect::<Vec<u8>>(), back].concat()
    };
    (0..=most).flat_map(move |length| (0..count.pow(length)).map(move |code| of(length, code)))
}

/// Every small part of a text: what may stand behind `parity `, as a line, as its end, behind the text.
pub fn every_part() -> impl Iterator<Item = Vec<u8>> {
    every(b"parity ", b"012;\n ", 5, b"")
        .chain(every(b"", b"p 0;\n", 5, b"parity 0;\n0 0 0 0;\n"))
        .chain(every(b"parity 0;\n0 0 0 0;\n", b"01 ;\n\0", 6, b""))
        .chain(every(b"parity 1;\n1 0 0 1;\n", b"01 ;", 9, b";\n"))
        .chain(every(b"parity 1;\n1 0 0 1;\n0 0 0 ", b"01,; \"\n", 6, b""))
        .chain(every(b"parity 1;\n1 0 0 1;\n0 0 0 0", b"1,; \"\n", 6, b"\n"))
        .chain(every(b"parity 0;\n0 ", b"012 ", 6, b" 0;\n"))
}

/// Changes bytes of a text of the form at random.
pub fn damage(random: &mut Random, text: &mut Vec<u8>) {
    let at = random.below(text.len() + 1);
    let byte = random.pick(&BYTES);
    match random.below(6) {
        0 => text.insert(at, byte),
        1 if at < text.len() => drop(text.remove(at)),
        2 => text.truncate(at),
        3 => text.extend(std::iter::repeat_n(random.pick(&[0, b'\n', b' ']), random.within(1, 9))),
        4 => {
            let other = random.below(text.len() + 1);
            let part = text[at.min(other)..at.max(other)].to_vec();
            let place = random.below(text.len() + 1);
            text.splice(place..place, part.into_iter().take(40));
        }
        _ => text[at..].iter_mut().take(1).for_each(|old| *old = byte),
    }
}

/// Changes a part of a line so that the text is no longer of the form.
pub fn damage_form(random: &mut Random, draft: &mut Draft) {
    if draft.lines.is_empty() {
        draft.highest = "00".to_string();
        return;
    }
    let at = random.below(draft.lines.len());
    let line = &mut draft.lines[at];
    match random.below(8) {
        0 => line.owner = random.pick(&["2", "", "00", "10", "-0", " 0"]).to_string(),
        1 => line.successors.clear(),
        2 => line.number = format!("0{}", line.number),
        3 => line.priority = format!("{}{}", random.pick(&["0", "+", " ", "\t"]), line.priority),
        4 => line.successors.push(random.pick(&["", " 0", "00", "0 ", "0x"]).to_string()),
        5 => line.name = Some(random.pick(&[&b"\n"[..], b"\"", b"a\"b", b"\" ", b"\"\""]).to_vec()),
        6 => draft.highest = format!("{}{}", random.pick(&["0", " ", "-"]), draft.highest),
        _ => line.priority.push_str(random.pick(&[" ", "\r", "."])),
    }
}
