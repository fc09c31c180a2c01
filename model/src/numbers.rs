//! The numbers of a statement file: 1 to 5 groups of seven bits, lowest first, in shortest form.

use crate::refusal::{FILE_ENDS, NOT_A_NUMBER};

/// The number that starts at `position`: its value and the position after it, or refusal 1 or 2.
pub fn read(bytes: &[u8], position: usize) -> Result<(u32, usize), usize> {
    let rest = bytes.get(position..).unwrap_or(&[]);
    let mut value = 0;
    for (group, &byte) in rest.iter().take(5).enumerate() {
        // Four groups hold 28 bits, so a fifth byte above 15 is too large or asks for a sixth.
        if group == 4 && byte > 15 {
            return Err(NOT_A_NUMBER);
        }
        value += u32::from(byte % 128) << (7 * group);
        if byte < 128 {
            // A last group of zero adds nothing: the number had a shorter form.
            let shortest = byte != 0 || group == 0;
            return if shortest { Ok((value, position + group + 1)) } else { Err(NOT_A_NUMBER) };
        }
    }
    // A fifth byte always decides above, so only the end of the bytes leads here.
    Err(FILE_ENDS)
}

/// Appends the shortest form of `value`.
pub fn write(value: u32, out: &mut Vec<u8>) {
    let mut left = value;
    while left >= 128 {
        out.push(128 + (left % 128) as u8);
        left /= 128;
    }
    out.push(left as u8);
}
