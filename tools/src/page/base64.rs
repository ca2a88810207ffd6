//! Bytes as base64, which a browser turns back into bytes faster than lists of numbers.

const LETTERS: &[u8; 64] = b"ABCDEFGHIJKLMNOPQRSTUVWXYZabcdefghijklmnopqrstuvwxyz0123456789+/";

pub fn encoded(bytes: &[u8]) -> String {
    let mut text = String::with_capacity(bytes.len().div_ceil(3) * 4);
    for three in bytes.chunks(3) {
        let part = |index: usize| u32::from(three.get(index).copied().unwrap_or(0));
        let bits = part(0) << 16 | part(1) << 8 | part(2);
        for letter in 0..4 {
            // Three bytes give four letters, two give three, one gives two; the rest is filled up.
            if letter <= three.len() {
                let six = bits >> (18 - 6 * letter) & 63;
                text.push(LETTERS[six as usize].into());
            } else {
                text.push('=');
            }
        }
    }
    text
}
