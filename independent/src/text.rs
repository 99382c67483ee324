//! Numbers and hex bytes in text.

/// Whether a field is a decimal number without needless zeros.
fn is_number(field: &[u8]) -> bool {
    let needless_zero = field.len() > 1 && field[0] == b'0';
    !field.is_empty() && !needless_zero && field.iter().all(u8::is_ascii_digit)
}

/// A decimal number; None too for one beyond u64.
pub fn number(field: &[u8]) -> Option<u64> {
    if !is_number(field) {
        return None;
    }
    let digit = |byte: &u8| u64::from(byte - b'0');
    field.iter().try_fold(0u64, |value, byte| value.checked_mul(10)?.checked_add(digit(byte)))
}

/// A unit's number: any number at all, as the shelf refuses those not declared.
pub fn unit_number(field: &[u8]) -> Option<u32> {
    let unit = number(field).and_then(|unit| u32::try_from(unit).ok());
    is_number(field).then_some(unit.unwrap_or(u32::MAX))
}

/// Bytes of pairs of hex digits in either case.
pub fn hex_bytes(field: &[u8]) -> Option<Vec<u8>> {
    let digit = |byte: u8| char::from(byte).to_digit(16);
    let pairs = field.chunks(2).map(|pair| match *pair {
        [high, low] => Some((digit(high)? << 4 | digit(low)?) as u8),
        _ => None,
    });
    pairs.collect()
}

/// Adds bytes as pairs of hex digits in capitals.
pub fn push_hex(out: &mut Vec<u8>, bytes: &[u8]) {
    const DIGITS: &[u8; 16] = b"0123456789ABCDEF";
    for byte in bytes {
        out.push(DIGITS[usize::from(byte >> 4)]);
        out.push(DIGITS[usize::from(byte & 15)]);
    }
}
