//! A ration: how many bytes of data may still go one way in one session.

use std::fmt;

#[derive(Clone, Copy, Debug, PartialEq, Eq)]
pub enum Ration {
    Finite(u32),
    Endless,
}

impl Ration {
    /// The largest finite ration.
    pub const LARGEST: u32 = 0x7FFF_FFFF;

    /// The bytes that each unit of a header number grants, and so the smallest starting ration.
    pub const UNIT: u32 = 256;

    /// Gives the starting ration that a header number grants: that many units, or endless for 0.
    pub fn from_header(number: u16) -> Ration {
        match number {
            0 => Ration::Endless,
            n => Ration::Finite(u32::from(n) * Ration::UNIT),
        }
    }

    /// Gives the smaller of `wanted` and this ration.
    pub fn at_most(self, wanted: u32) -> u32 {
        match self {
            Ration::Finite(left) => wanted.min(left),
            Ration::Endless => wanted,
        }
    }

    /// Gives the ration less `length`, or nothing if `length` is above it.
    pub fn spend(self, length: u32) -> Option<Ration> {
        match self {
            Ration::Finite(left) => left.checked_sub(length).map(Ration::Finite),
            Ration::Endless => Some(Ration::Endless),
        }
    }

    /// Gives the ration plus `amount`, or nothing past the largest; endless stays endless.
    pub fn grow(self, amount: u32) -> Option<Ration> {
        match self {
            Ration::Finite(left) => match left.checked_add(amount) {
                Some(sum) if sum <= Ration::LARGEST => Some(Ration::Finite(sum)),
                _ => None,
            },
            Ration::Endless => Some(Ration::Endless),
        }
    }
}

impl fmt::Display for Ration {
    fn fmt(&self, f: &mut fmt::Formatter<'_>) -> fmt::Result {
        match self {
            Ration::Finite(left) => write!(f, "{left}"),
            Ration::Endless => f.write_str("endless"),
        }
    }
}

#[cfg(test)]
mod tests {
    use super::*;

    #[test]
    fn header_numbers() {
        assert_eq!(Ration::from_header(4), Ration::Finite(1024));
        assert_eq!(Ration::from_header(65535), Ration::Finite(16_776_960));
        assert_eq!(Ration::from_header(0), Ration::Endless);
    }

    #[test]
    fn case_4_spending() {
        let ration = Ration::from_header(1);
        assert_eq!(ration.spend(256), Some(Ration::Finite(0)));
        assert_eq!(ration.spend(257), None);
        assert_eq!(Ration::Finite(0).spend(0), Some(Ration::Finite(0)));
        assert_eq!(Ration::Endless.spend(65535), Some(Ration::Endless));
    }

    #[test]
    fn case_5_growing() {
        let ration = Ration::Finite(2_147_483_000);
        assert_eq!(ration.grow(647), Some(Ration::Finite(Ration::LARGEST)));
        assert_eq!(ration.grow(648), None);
        assert_eq!(Ration::Finite(u32::MAX / 2).grow(65535 << 14), None);
        assert_eq!(Ration::Endless.grow(65535 << 14), Some(Ration::Endless));
    }

    #[test]
    fn numbers_are_compared_as_numbers() {
        assert_eq!(Ration::Finite(9216).at_most(10240), 9216);
        assert_eq!(Ration::Finite(10240).at_most(9216), 9216);
        assert_eq!(Ration::Endless.at_most(10240), 10240);
    }
}
