//! The bytes of one PCD data field (document 01, Field bytes).

use crate::edition::Edition;
use crate::expression::{evaluate, Value};
use crate::refusal::{self, Refusal};

/// The datum codes.
pub mod datum {
    pub const VOID: u8 = 0;
    pub const BOOLEAN: u8 = 1;
    pub const UINT8: u8 = 2;
    pub const UINT16: u8 = 3;
    pub const UINT32: u8 = 4;
    pub const UINT64: u8 = 5;
}

/// Writes the field to the front of `buf` and gives its length. A refusal
/// writes nothing, so the length is compared before the first byte is written.
pub fn field(
    expr: &[u8],
    table: &[u8],
    datum: u8,
    edition: Edition,
    buf: &mut [u8],
) -> Result<usize, Refusal> {
    let value = evaluate(expr, table, edition)?.value;
    write(value, datum, buf).map_err(Refusal::nowhere)
}

/// Gives refusals 23 to 26, which have no place.
fn write(value: Value, datum: u8, buf: &mut [u8]) -> Result<usize, u8> {
    if datum > datum::UINT64 {
        return Err(refusal::DATUM);
    }
    match (datum, value) {
        (datum::VOID, Value::Text(text)) => {
            let room = room(buf, text.len() + 1)?;
            room[..text.len()].copy_from_slice(text);
            room[text.len()] = 0;
            Ok(room.len())
        }
        (datum::VOID, Value::Wide(text)) => {
            let room = room(buf, 2 * text.len() + 2)?;
            room.fill(0);
            for (pair, &byte) in room.chunks_exact_mut(2).zip(text) {
                pair[0] = byte;
            }
            Ok(room.len())
        }
        (datum::VOID, Value::Number(_)) => Err(refusal::DATUM_KIND),
        (_, Value::Number(number)) => {
            let (len, largest) = match datum {
                datum::BOOLEAN => (1, 1),
                datum::UINT8 => (1, u64::from(u8::MAX)),
                datum::UINT16 => (2, u64::from(u16::MAX)),
                datum::UINT32 => (4, u64::from(u32::MAX)),
                _ => (8, u64::MAX),
            };
            if number > largest {
                return Err(refusal::DATUM_RANGE);
            }
            let room = room(buf, len)?;
            room.copy_from_slice(&number.to_le_bytes()[..len]);
            Ok(room.len())
        }
        _ => Err(refusal::DATUM_KIND),
    }
}

fn room(buf: &mut [u8], len: usize) -> Result<&mut [u8], u8> {
    buf.get_mut(..len).ok_or(refusal::BUFFER)
}
