//! Lines of values as `legs` reads them.

/// The values of a line go to a vector that is used again; false if it is not hexadecimal digits and commas as said.
pub fn values(line: &[u8], out: &mut Vec<f64>) -> bool {
    out.clear();
    if line.is_empty() {
        return true;
    }
    for item in line.split(|byte| *byte == b',') {
        if item.len() != 16 {
            return false;
        }
        let mut bits = 0u64;
        for byte in item {
            let digit = match byte {
                b'0'..=b'9' => byte - b'0',
                b'a'..=b'f' => byte - b'a' + 10,
                _ => return false,
            };
            bits = bits << 4 | u64::from(digit);
        }
        out.push(f64::from_bits(bits));
    }
    true
}
