//! The remainder: long division, modulo 2, of a string of bits by x^16 + x^12 + x^5 + 1.

/// The bits of the polynomial, from x^16 down to 1.
const POLYNOMIAL: [bool; 17] = {
    let mut bits = [false; 17];
    bits[16 - 16] = true;
    bits[16 - 12] = true;
    bits[16 - 5] = true;
    bits[16] = true;
    bits
};

/// The bits of all bytes in the order of the papers: byte after byte, each highest bit first.
pub fn bits_of(bytes: &[u8]) -> Vec<bool> {
    bytes.iter().flat_map(|byte| (0..8).rev().map(move |power| (byte >> power) % 2 == 1)).collect()
}

/// What is left of the bytes times x^16 after the division. The empty string leaves 0.
pub fn remainder(bytes: &[u8]) -> u16 {
    let mut dividend = bits_of(bytes);
    let steps = dividend.len();
    dividend.extend([false; 16]);
    for step in 0..steps {
        if dividend[step] {
            for (power, bit) in POLYNOMIAL.iter().enumerate() {
                dividend[step + power] ^= bit;
            }
        }
    }
    dividend[steps..].iter().fold(0, |number, bit| number * 2 + u16::from(*bit))
}
