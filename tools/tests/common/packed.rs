//! Reads the lists that the data of a page packs into base64, for tests.

/// What stands behind `"name":` in an object, up to the end of its string or list.
pub fn member<'a>(json: &'a str, name: &str) -> &'a str {
    let (_, behind) = json.split_once(&format!("\"{name}\":")).unwrap();
    let end = match behind.as_bytes()[0] {
        b'"' => behind[1..].find('"').unwrap() + 2,
        b'{' => behind.find('}').unwrap() + 1,
        b'[' => behind.find(']').unwrap() + 1,
        _ => behind.find([',', '}']).unwrap(),
    };
    &behind[..end]
}

/// Bytes from base64, by their alphabet and not by the encoder's code.
pub fn bytes(json: &str, name: &str) -> Vec<u8> {
    let mut found = Vec::new();
    let (mut bits, mut count) = (0u32, 0);
    for letter in member(json, name).trim_matches('"').trim_end_matches('=').bytes() {
        let six = match letter {
            b'A'..=b'Z' => letter - b'A',
            b'a'..=b'z' => letter - b'a' + 26,
            b'0'..=b'9' => letter - b'0' + 52,
            b'+' => 62,
            b'/' => 63,
            _ => panic!("{letter} in base64"),
        };
        bits = bits << 6 | u32::from(six);
        count += 6;
        if count >= 8 {
            count -= 8;
            found.push((bits >> count) as u8);
        }
    }
    found
}

pub fn numbers(json: &str, name: &str, width: usize) -> Vec<u32> {
    let little_endian =
        |bytes: &[u8]| bytes.iter().rev().fold(0, |number, &byte| number << 8 | u32::from(byte));
    bytes(json, name).chunks(width).map(little_endian).collect()
}
