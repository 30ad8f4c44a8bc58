//! Jobs in parts through the C calls: at the places where a cut could matter, and states of any words.
use compare::jobs::parts::{Lent, answered};
use compare::jobs::run;

const BAR: &[u8] = b"bar\t0\t1000\t20000\t0\t1000\n";

/// The answer of the whole, cut in two at every place, byte by byte, and with nothing in parts between.
fn every_cut(input: &[u8]) {
    let expected = run(input);
    for at in 0..=input.len() {
        let (first, second) = input.split_at(at);
        assert_eq!(answered([first, second]), expected, "cut at {at}");
        assert_eq!(answered([b"", first, b"", b"", second, b""]), expected);
    }
    assert_eq!(answered(input.chunks(1)), expected);
    assert_eq!(answered([input]), expected);
}

/// The bar and a line of so many bytes with its newline.
fn line_of(bytes: usize, last: &[u8]) -> Vec<u8> {
    let line = format!("arc\t{}", "x".repeat(bytes - 4 - last.len()));
    [BAR, line.as_bytes(), last].concat()
}

#[test]
fn lines_of_127_128_and_129_bytes() {
    for bytes in [127, 128, 129, 130] {
        every_cut(&line_of(bytes, b"\n"));
        every_cut(&line_of(bytes, b""));
    }
}

#[test]
fn a_number_cut_at_each_digit() {
    every_cut(
        &[
            BAR,
            b"drill\t-1000000000\t4000\t1000000000\nring\t0\t1000\t5000\t6000\n",
        ]
        .concat(),
    );
    every_cut(b"bar\t-1000000000\t1000000000\t1000000000\t0\t1000000000\n");
}

#[test]
fn a_carriage_return_before_the_newline() {
    every_cut(b"bar\t0\t1000\t20000\t0\t1000\r\n");
    every_cut(&[BAR, b"arc\r\n"].concat());
}

#[test]
fn no_bytes_zeros_and_high_bytes() {
    every_cut(b"");
    assert_eq!(answered([]), b"refused\t1\t15\n");
    assert_eq!(answered([&b""[..], b""]), b"refused\t1\t15\n");
    every_cut(b"\0");
    every_cut(b"\xFF\n");
    every_cut(&[BAR, b"\0\n"].concat());
    every_cut(b"\n");
}

#[test]
fn input_that_ends_inside_a_line() {
    every_cut(&BAR[..BAR.len() - 1]);
    every_cut(&[BAR, b"drill\t0\t4000\t0"].concat());
    // after a refusal the unfinished line says nothing any more
    every_cut(&[BAR, b"arc\ndrill\t0"].concat());
}

#[test]
fn more_may_be_taken_after_an_end() {
    let mut lent = Lent::fresh();
    lent.take(&BAR[..10]);
    assert_eq!(lent.answer(), b"refused\t1\t15\n");
    lent.take(&BAR[10..]);
    assert_eq!(lent.answer(), run(BAR));
    lent.take(b"drill\t-1000\t4000\t0\n");
    let whole = [BAR, b"drill\t-1000\t4000\t0\n"].concat();
    assert_eq!(lent.answer(), run(&whole));
}

#[test]
fn a_refused_job_takes_nothing() {
    let mut lent = Lent::fresh();
    lent.take(&[BAR, b"arc\n"].concat());
    assert_eq!(lent.finish(), (13, Some(2)));
    let before = lent.words();
    lent.take(&[BAR, b"drill\t-1000\t4000\t0\nxx"].concat());
    assert!(lent.words() == before);
}

/// The words of a state after a part.
fn state_after(state: [u64; 8], part: &[u8]) -> [u64; 8] {
    let mut lent = Lent::fresh();
    lent.state = state;
    let before = lent.words();
    lent.take(part);
    // neither the bar nor a cell nor a ring is written without an accepted line
    assert!(lent.words()[8..8 + 5 + 2048 + 256] == before[8..8 + 5 + 2048 + 256]);
    lent.state
}

#[test]
fn states_of_any_words() {
    const MOST: u64 = u64::MAX;
    // refused already, by any number: nothing moves, and its number is told in 32 bits
    let ones = [MOST; 8];
    assert_eq!(state_after(ones, &[BAR, b"\n\nxx"].concat()), ones);
    let mut lent = Lent::fresh();
    lent.state = ones;
    assert_eq!(lent.finish(), (u32::MAX, Some(MOST)));
    assert_eq!(
        lent.output(0),
        format!("refused\t{MOST}\t{MOST}\n").into_bytes()
    );
    // more bytes held than a line has: 15 at its newline, and at any other byte
    for held in [127, 128, 129, MOST - 1, MOST] {
        for byte in [b"\n", b"x"] {
            let found = state_after([0, 0, 0, 0, 6, 0, held, 9], byte);
            assert_eq!(found, [0, 0, 0, 0, 7, 15, 0, 9]);
        }
        assert_eq!(
            state_after([0, 0, 0, 0, 6, 0, held, 9], b""),
            [0, 0, 0, 0, 6, 0, held, 9]
        );
    }
    // counts over the room: the spec that is all patterns is refused first, whatever the line
    for count in [513, 1 << 62, MOST] {
        let found = state_after([512, count, count, 3, 1, 0, 0, 0], b"drill\t0\t1\t0\n");
        assert_eq!(found, [512, count, count, 3, 2, 1, 0, 0]);
        let found = state_after([512, count, count, 3, 1, 0, 0, 0], b"ring\t0\t1\t0\t1\n");
        assert_eq!(found, [512, count, count, 3, 2, 1, 0, 0]);
    }
    // the line's number wraps
    assert_eq!(
        state_after([0, 0, 0, 0, MOST, 0, 0, 0], b"\n"),
        [0, 0, 0, 0, 0, 15, 0, 0]
    );
}

/// The edition is the caller's: no line changes its word, and no answer has it.
#[test]
fn the_edition_of_a_job_stays() {
    let input = [BAR, b"drill\t-1000\t4000\t0\nring\t0\t1000\t5000\t6000\n"].concat();
    for refused in [&b""[..], b"arc\n"] {
        let whole = [&input, refused].concat();
        for edition in [0, 1, u32::MAX as u64, 1 << 32, u64::MAX] {
            let mut lent = Lent::fresh();
            lent.state[7] = edition;
            whole.chunks(7).for_each(|part| lent.take(part));
            assert_eq!(lent.answer(), run(&whole));
            assert_eq!(lent.state[7], edition);
        }
    }
}

/// A job after its bar, with other words.
fn barred(change: impl Fn(&mut [u64; 8])) -> Box<Lent> {
    let mut lent = Lent::fresh();
    lent.take(b"bar\t0\t512000\t20000\t0\t1000\n");
    change(&mut lent.state);
    lent
}

#[test]
fn counts_over_the_room_of_a_job() {
    // 512 cells fill the room: a count over it reads as all of them
    for count in [513, 600, 1 << 62, u64::MAX] {
        let mut lent = barred(|state| state[1] = count);
        lent.take(b"drill\t-1000\t4000\t0\n");
        let whole = run(b"bar\t0\t512000\t20000\t0\t1000\ndrill\t-1000\t4000\t0\n");
        assert_eq!(lent.answer(), whole);
    }
    // more rings than the room has are stored rings that do not fit
    let mut lent = barred(|state| state[2] = 65);
    lent.take(b"ring\t0\t1000\t5000\t6000\n");
    assert_eq!(lent.finish(), (4, Some(2)));
    // the last generation
    let mut lent = barred(|state| state[3] = u64::MAX);
    lent.take(b"drill\t-1000\t4000\t0\n");
    assert_eq!(lent.finish(), (12, Some(2)));
}
