//! The root at its corners, by name, and where its guess misses: the oracle's and the library's are
//! the same to the bit.
use compare::call::{Answer, Call, Reason};
use compare::guess::{Guess, guess, missed};
use compare::oracle::{ARGUMENT, answer};
use compare::run::difference;

const LEAST: f64 = f64::from_bits(1);

/// Values of which only digits tell: the quick test is too shy to say that the nearest to the root is
/// one above the guess, and that it is the guess.
const ONE_ABOVE: f64 = f64::from_bits(0x3FE7_29FA_AFE0_1ED5);
const THE_GUESS: f64 = f64::from_bits(0x3FE0_5834_2D4B_0204);

fn root(x: f64, expected: Result<f64, u32>, name: &str) {
    let call = Call::Root { x };
    let outcome = answer(&call);
    let expected = expected.map(Answer::Number).map_err(Reason::only);
    assert_eq!(outcome, expected, "{name}");
    if let Some(text) = difference(&call, &outcome) {
        panic!("{name}: {text}");
    }
}

#[test]
#[rustfmt::skip]
fn a_root_at_its_corners() {
    for (name, x, expected) in [
        ("+0.0", 0., Ok(0.)),
        ("-0.0", -0., Ok(0.)),
        ("the least", LEAST, Ok(f64::from_bits(0x1E60_0000_0000_0000))),
        ("the largest subnormal", f64::MIN_POSITIVE.next_down(), Ok(f64::from_bits(0x1FFF_FFFF_FFFF_FFFF))),
        ("2^-1022", f64::MIN_POSITIVE, Ok(f64::from_bits(0x2000_0000_0000_0000))),
        ("a square", 9., Ok(3.)),
        ("below a square", 9_f64.next_down(), Ok(3_f64.next_down())),
        ("above a square", 9_f64.next_up(), Ok(3_f64.next_up())),
        ("the midpoint of two roots, squared and rounded", 1_f64.next_up(), Ok(1.)),
        ("an odd exponent", 2., Ok(f64::from_bits(0x3FF6_A09E_667F_3BCD))),
        ("an even exponent", 4., Ok(2.)),
        ("all ones, even", 4_f64.next_down(), Ok(2_f64.next_down())),
        ("all ones, odd", 2_f64.next_down(), Ok(f64::from_bits(0x3FF6_A09E_667F_3BCC))),
        ("the largest", f64::MAX, Ok(f64::from_bits(0x5FEF_FFFF_FFFF_FFFF))),
        ("infinity", f64::INFINITY, Err(ARGUMENT)),
        ("no number", f64::NAN, Err(ARGUMENT)),
        ("a negative", -1., Err(ARGUMENT)),
        ("a negative subnormal", -LEAST, Err(ARGUMENT)),
        ("only digits tell, below a square", 25_f64.next_down(), Ok(5.)),
        ("only digits tell, one above the guess", ONE_ABOVE, Ok(f64::from_bits(0x3FEB_39D1_E788_8A59))),
        ("only digits tell, the guess", THE_GUESS, Ok(f64::from_bits(0x3FE6_DEA7_F400_0000))),
    ] {
        root(x, expected, name);
    }
    let told = [ONE_ABOVE, THE_GUESS, 25_f64.next_down()];
    assert_eq!(told.map(guess), [Guess::Digits; 3]);
}

/// A guess that misses is one off, at these values.
#[test]
fn values_that_the_guess_misses() {
    for x in missed(1024) {
        assert_eq!(guess(x), Guess::Beside, "{x}");
        root(x, Ok(x.sqrt()), "missed");
    }
}
