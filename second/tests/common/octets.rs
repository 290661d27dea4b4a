/// Bytes as the examples have them, in hex with spaces.
pub fn octets(hex: &str) -> Vec<u8> {
    let octet = |word: &str| u8::from_str_radix(word, 16).expect("two hex digits");
    hex.split_whitespace().map(octet).collect()
}
