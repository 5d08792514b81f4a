//! Document 01, "The desk and its parts": arithmetic modulo 65521.

use reference::residue::Residue;

#[test]
fn modulus_zero_and_one() {
    assert_eq!(Residue::MODULUS, 65_521);
    assert_eq!(Residue::ZERO.word(), 0);
    assert_eq!(Residue::ONE.word(), 1);
}

#[test]
fn modulus_is_prime() {
    assert!((2..256).all(|divisor| !Residue::MODULUS.is_multiple_of(divisor)));
}

#[test]
fn any_number_is_reduced() {
    assert_eq!(Residue::new(65_520).word(), 65_520);
    assert_eq!(Residue::new(65_521), Residue::ZERO);
    assert_eq!(Residue::new(65_522), Residue::ONE);
    assert_eq!(
        u64::from(Residue::new(u64::MAX).word()),
        u64::MAX % Residue::MODULUS
    );
}

#[test]
fn words_of_the_modulus_or_more_store_nothing() {
    for word in 0..=u16::MAX {
        let stored = Residue::from_word(word).map(Residue::word);
        let expected = if word < 65_521 { Some(word) } else { None };
        assert_eq!(stored, expected);
    }
}

#[test]
fn every_nonzero_residue_has_a_reciprocal() {
    assert_eq!(Residue::ZERO.reciprocal(), None);
    for number in 1..Residue::MODULUS {
        let residue = Residue::new(number);
        let reciprocal = residue.reciprocal().expect("a reciprocal");
        assert_eq!(residue.times(reciprocal), Residue::ONE);
    }
}

#[test]
fn operations_agree_with_whole_numbers() {
    let samples = [0, 1, 2, 3, 255, 256, 32_760, 32_761, 65_519, 65_520];
    for &a in &samples {
        let x = Residue::new(a);
        assert_eq!(x.plus(x.negated()), Residue::ZERO);
        for &b in &samples {
            let y = Residue::new(b);
            assert_eq!(x.plus(y), Residue::new(a + b));
            assert_eq!(x.times(y), Residue::new(a * b));
            assert_eq!(x.minus(y).plus(y), x);
            for &c in &samples {
                let sum = Residue::new(c).plus_product(x, y);
                assert_eq!(sum, Residue::new(c + a * b));
            }
        }
    }
}

#[test]
fn powers() {
    let two = Residue::new(2);
    assert_eq!(two.power(0), Residue::ONE);
    assert_eq!(Residue::ZERO.power(0), Residue::ONE);
    assert_eq!(two.power(16).word(), 15);
    assert_eq!(two.power(Residue::MODULUS - 1), Residue::ONE);
    assert_eq!(two.power(u64::MAX), two.power(u64::MAX % 65_520));
}
