//! One node of a formula's bytes.

/// Bytes of a node.
pub const NODE_SIZE: usize = 16;

/// Appends a node; its children follow.
pub fn node(out: &mut Vec<u8>, kind: u8, operator: u8, children: usize, symbol: u32, value: u64) {
    out.extend([kind, operator]);
    out.extend((children as u16).to_le_bytes());
    out.extend(symbol.to_le_bytes());
    out.extend(value.to_le_bytes());
}
