//! Arithmetic modulo 65521 (document 01, "The desk and its parts").

/// A number modulo 65521, stored as a word below 65521.
#[derive(Clone, Copy, Debug, PartialEq, Eq)]
pub struct Residue(u16);

impl Residue {
    /// The modulus p, a prime.
    pub const MODULUS: u64 = 65521;
    pub const ZERO: Residue = Residue(0);
    pub const ONE: Residue = Residue(1);

    /// Reduces any number.
    pub fn new(number: u64) -> Residue {
        Residue((number % Self::MODULUS) as u16)
    }

    /// Takes a word as a residue. None for a word of p or more.
    pub fn from_word(word: u16) -> Option<Residue> {
        if u64::from(word) < Self::MODULUS {
            Some(Residue(word))
        } else {
            None
        }
    }

    /// Returns the word below p that stores this residue.
    pub fn word(self) -> u16 {
        self.0
    }

    fn number(self) -> u64 {
        u64::from(self.0)
    }

    pub fn plus(self, other: Residue) -> Residue {
        Residue::new(self.number() + other.number())
    }

    /// Subtracts. Adds p first, so that nothing goes below zero.
    pub fn minus(self, other: Residue) -> Residue {
        Residue::new(self.number() + Self::MODULUS - other.number())
    }

    pub fn negated(self) -> Residue {
        Residue::ZERO.minus(self)
    }

    pub fn times(self, other: Residue) -> Residue {
        Residue::new(self.number() * other.number())
    }

    /// Adds the product of a and b, and reduces once. The sum is at most
    /// 65520 * 65520 + 65520, which fits 32 bits.
    pub fn plus_product(self, a: Residue, b: Residue) -> Residue {
        let sum = u32::from(self.0) + u32::from(a.0) * u32::from(b.0);
        Residue((sum % Self::MODULUS as u32) as u16)
    }

    /// Raises to a power by repeated squaring. Throughout, the result times the
    /// square to the power left is the power wanted.
    pub fn power(self, exponent: u64) -> Residue {
        let mut result = Residue::ONE;
        let mut square = self;
        let mut left = exponent;
        while left > 0 {
            if left % 2 == 1 {
                result = result.times(square);
            }
            square = square.times(square);
            left /= 2;
        }
        result
    }

    /// Finds the reciprocal by Fermat's theorem, x^(p-2). None for zero.
    pub fn reciprocal(self) -> Option<Residue> {
        if self == Residue::ZERO {
            None
        } else {
            Some(self.power(Self::MODULUS - 2))
        }
    }
}
