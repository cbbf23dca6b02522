//! The edition in which everything is timed: the old one, since it accepts all that the new one does, with the same answers.

/// As the library takes it, in bit 0 of a dialect.
pub const DIALECT: u8 = 1;

pub const EDITION: oracle::Edition = oracle::Edition::Old;
