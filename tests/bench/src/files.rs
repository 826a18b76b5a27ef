//! The files to measure on, each exactly as long as asked.

use reference::generate::{identcode_of, valid_iban, valid_identcode, Rng};
use reference::profile::Record;
use reference::version::Version;

/// What is drawn comes from here.
pub const SEED: u64 = 7;

/// The shortest 060 line, which fills files up.
const SHORTEST: usize = 18;

const NAMES: [&str; 8] = [
    "Muster", "Gruber", "Huber", "Bauer", "Wagner", "Pichler", "Steiner", "Hofer",
];
const STREETS: [&str; 6] = [
    "Hauptstrasse",
    "Bahnhofstrasse",
    "Ring",
    "Kirchengasse",
    "Am Anger",
    "Feldweg",
];
const TOWNS: [(&str, &str); 6] = [
    ("1010", "Wien"),
    ("8010", "Graz"),
    ("4020", "Linz"),
    ("5020", "Salzburg"),
    ("6020", "Innsbruck"),
    ("9020", "Klagenfurt"),
];

/// The kinds of file.
#[derive(Clone, Copy)]
pub enum Kind {
    /// Senders, shipments with a parcel or two, products and features, most of them cash.
    Typical,
    /// The same of version 7: each parcel has its type.
    TypicalSeven,
    /// The typical file with a feature code in its last line that there is not.
    RefusedAtItsEnd,
    /// The typical file, but its senders have neither phone nor mail.
    WithoutContacts,
    /// One shipment of as many parcels as there is room for.
    Parcels(Codes),
}

/// How the identcodes of a file of parcels follow each other. What is said of digits is said of those in front of the check digit.
#[derive(Clone, Copy)]
pub enum Codes {
    Drawn,
    LastDigitsRise,
    LastDigitsFall,
    FirstDigitsRise,
    FirstDigitsFall,
    LastTwoAlike,
    /// Each way through the library's tree of identcodes passes 99 forks: those of the first hundred codes, nine for each of the
    /// last eleven digits.
    DeepTree,
}

/// A file of this kind and size.
pub fn file(kind: Kind, size: usize) -> Vec<u8> {
    match kind {
        Kind::Typical => typical(Version::V5, size, sender),
        Kind::TypicalSeven => typical(Version::V7, size, sender),
        Kind::RefusedAtItsEnd => refused_at_its_end(size),
        Kind::WithoutContacts => typical(Version::V5, size, sender_without_contacts),
        Kind::Parcels(codes) => parcels(codes, size),
    }
}

fn typical(version: Version, size: usize, sender: fn(&mut Rng) -> Vec<u8>) -> Vec<u8> {
    let mut rng = Rng::new(SEED);
    let mut file = [header(version), sender(&mut rng)].concat();
    loop {
        let mut block = Vec::new();
        if rng.percent(5) {
            block.extend(sender(&mut rng));
        }
        block.extend(shipment(&mut rng));
        for _ in 0..rng.between(1, 2) {
            let code = valid_identcode(&mut rng);
            block.extend(match version {
                Version::V5 => parcel(&code),
                Version::V7 => parcel_with_type(&code),
            });
        }
        block.extend(product());
        for _ in 0..rng.between(0, 2) {
            block.extend(feature(&mut rng));
        }
        if file.len() + block.len() + SHORTEST > size {
            break;
        }
        file.extend(block);
    }
    fill_up(version, &mut file, size);
    file
}

fn refused_at_its_end(size: usize) -> Vec<u8> {
    let mut file = typical(Version::V5, size, sender);
    let end = file.windows(4).rposition(|part| part == b"\n060");
    let code = end.expect("the last line is a feature") + 5;
    file[code..code + 3].copy_from_slice(b"005");
    file
}

fn parcels(codes: Codes, size: usize) -> Vec<u8> {
    let mut rng = Rng::new(SEED);
    let version = Version::V5;
    let mut file = [header(version), sender(&mut rng), shipment(&mut rng)].concat();
    let room = size - file.len() - product().len() - SHORTEST;
    let count = room / parcel(&[b'0'; 22]).len();
    for index in 0..count {
        file.extend(parcel(&identcode(
            codes,
            &mut rng,
            index as u128,
            count as u128,
        )));
    }
    file.extend(product());
    fill_up(version, &mut file, size);
    file
}

/// The identcode of one of so many parcels, which passes.
fn identcode(codes: Codes, rng: &mut Rng, index: u128, count: u128) -> Vec<u8> {
    const FIRST: u128 = 10_u128.pow(20);
    const IN_FRONT: u128 = 10_u128.pow(17);
    let body = match codes {
        Codes::Drawn => return valid_identcode(rng),
        Codes::LastDigitsRise => FIRST + index,
        Codes::LastDigitsFall => FIRST + count - index,
        Codes::FirstDigitsRise => (1000 + index) * IN_FRONT,
        Codes::FirstDigitsFall => (1000 + count - index) * IN_FRONT,
        Codes::LastTwoAlike => FIRST + index.min(count - 2),
        Codes::DeepTree => deep(index),
    };
    identcode_of(format!("{body:021}").into_bytes())
}

/// Behind a code of zeros, nine codes for each of the last eleven digits, from the right, with nines behind it; then codes that end in
/// eleven nines. The check digit follows these digits, and no fork asks it.
fn deep(index: u128) -> u128 {
    if index == 0 {
        return 0;
    }
    if index > 99 {
        return (index + 1) * 10_u128.pow(11) - 1;
    }
    let digit = 10_u128.pow((index as u32 - 1) / 9);
    ((index - 1) % 9 + 2) * digit - 1
}

fn header(version: Version) -> Vec<u8> {
    let front = b"010;0012345678;Muster;2021-02-23T13:37:50;2021-02-24T14:20:55;1005;";
    [&front[..], version.mark(), b";;;;\r\n"].concat()
}

fn sender(rng: &mut Rng) -> Vec<u8> {
    let (name, street, (code, town)) = (rng.pick(&NAMES), rng.pick(&STREETS), rng.pick(&TOWNS));
    let (house, phone) = (rng.between(1, 200), rng.between(100_000, 9_999_999));
    format!(
        "020;{name} GmbH;;;;AT;{code};{town};;{street};;{house};{phone};office@{name}.at;;;\r\n"
    )
    .into_bytes()
}

/// The same sender, so that what follows is drawn alike.
fn sender_without_contacts(rng: &mut Rng) -> Vec<u8> {
    let line = sender(rng);
    let mut parts: Vec<&[u8]> = line.split(|byte| *byte == b';').collect();
    (parts[12], parts[13]) = (b"", b"");
    parts.join(&b';')
}

fn shipment(rng: &mut Rng) -> Vec<u8> {
    let (name, street, (code, town)) = (rng.pick(&NAMES), rng.pick(&STREETS), rng.pick(&TOWNS));
    let (number, house) = (rng.between(10_000_000, 99_999_999), rng.between(1, 200));
    let (stair, phone) = (rng.between(1, 9), rng.between(100_000, 9_999_999));
    format!(
        "030;{number};;;;;;;;;;;;;;;Anna {name};;;;AT;{code};{town};;{street};Stiege {stair};{house};;\
         {phone};{name}@post.at;;;;;;;;;;;\r\n"
    )
    .into_bytes()
}

fn parcel(code: &[u8]) -> Vec<u8> {
    [b"040;", code, b";;\r\n"].concat()
}

fn parcel_with_type(code: &[u8]) -> Vec<u8> {
    [b"040;", code, b";2.500;;C\r\n"].concat()
}

fn product() -> Vec<u8> {
    b"050;10\r\n".to_vec()
}

/// Cash to collect, a message by mail, or a feature that needs nothing.
fn feature(rng: &mut Rng) -> Vec<u8> {
    let name = rng.pick(&NAMES);
    match rng.below(6) {
        0..=3 => {
            let (invoice, euro, cents) = (
                rng.between(1, 99_999),
                rng.between(1, 999),
                rng.between(0, 99),
            );
            let iban = String::from_utf8(austrian_iban(rng)).expect("letters and digits");
            format!("060;006;Rechnung {invoice};{euro}.{cents:02};EUR;{name} GmbH;{iban};BKAUATWW;;;\r\n").into_bytes()
        }
        4 => format!("060;054;;;;;;;;{name}@post.at;\r\n").into_bytes(),
        _ => b"060;004;;;;;;;;;\r\n".to_vec(),
    }
}

fn austrian_iban(rng: &mut Rng) -> Vec<u8> {
    loop {
        let iban = valid_iban(rng);
        if iban.starts_with(b"AT") && iban.len() == 20 {
            return iban;
        }
    }
}

/// Adds 060 lines up to exactly this size; the room is 0, or at least the shortest line.
fn fill_up(version: Version, file: &mut Vec<u8>, size: usize) {
    let widths = [2, 5, 10].map(|number| Record::R060.widths(version)[number - 1]);
    let longest = SHORTEST + widths.iter().sum::<usize>();
    while file.len() < size {
        let room = size - file.len();
        let length = if room <= longest {
            room
        } else {
            longest.min(room / 2)
        };
        let mut left = length - SHORTEST;
        let [second, fifth, tenth] = widths.map(|width| {
            let length = left.min(width);
            left -= length;
            "x".repeat(length)
        });
        file.extend(format!("060;004;{second};;;{fifth};;;;;{tenth}\r\n").into_bytes());
    }
}
