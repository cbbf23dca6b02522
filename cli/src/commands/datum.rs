//! The datum types.

use crate::library::datum;

pub struct DatumType {
    pub name: &'static str,
    pub code: u8,
    /// The values that it takes.
    pub taken: &'static str,
}

const fn of(name: &'static str, code: u8, taken: &'static str) -> DatumType {
    DatumType { name, code, taken }
}

pub static DATUM_TYPES: [DatumType; 6] = [
    of("VOID*", datum::VOID, "a string or a wide string"),
    of("BOOLEAN", datum::BOOLEAN, "0 or 1"),
    of("UINT8", datum::UINT8, "0 to 255"),
    of("UINT16", datum::UINT16, "0 to 65,535"),
    of("UINT32", datum::UINT32, "0 to 4,294,967,295"),
    of("UINT64", datum::UINT64, "any number"),
];

/// The type of a name.
pub fn datum_type(name: &[u8]) -> Option<&'static DatumType> {
    DATUM_TYPES
        .iter()
        .find(|datum| datum.name.as_bytes() == name)
}
