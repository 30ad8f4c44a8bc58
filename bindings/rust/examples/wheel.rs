//! The wheel of `examples/wheel.job`: drilled, turned, bored, stepped; kept in a stock file, read back, and asked.
//!
//! `cargo run --example wheel -- wheel.stock` writes the file of `examples/wheel.stock`, byte for byte, and prints what
//! `examples/wheel.out` has. The same program stands in C (`examples/wheel.c`) and in Python (`bindings/python/examples/wheel.py`).
use std::error::Error;
use std::fs::File;
use turning::{Cut, Segment, Side, Spec, Stock};

fn main() -> Result<(), Box<dyn Error>> {
    let path = std::env::args_os()
        .nth(1)
        .ok_or("usage: wheel FILE, the stock file to write")?;

    let mut wheel = Stock::new(Spec::new(0.0, 12.0, 30.0, 0.0, 1.0))?;
    let drill = wheel.drill(-5.0, 5.0, 3.0)?;
    wheel.commit(&drill)?;
    for (side, rn, radius, start) in [
        (Side::Outer, 0.8, 28.8, -1.0), // turn to 28
        (Side::Inner, 0.4, 7.6, -1.0),  // bore to 8
        (Side::Outer, 0.8, 15.8, 8.8),  // a step to 15 at the end
    ] {
        let path = Segment::new([radius, start], [radius, 13.0]);
        let list = wheel.preview(&Cut::line(side, rn, path))?;
        wheel.commit(&list)?;
    }

    // Keep it, and go on with what was kept.
    wheel.write_to(File::create(&path)?)?;
    let wheel = Stock::read_from(File::open(&path)?, 512)?;
    for bin in wheel.bins() {
        let [ol, ou, il, iu] = <[f64; 4]>::from(bin.cell);
        println!(
            "bin {} from {} to {}: outer {ol} to {ou}, inner {il} to {iu}",
            bin.index, bin.z[0], bin.z[1]
        );
    }
    if let Some(most) = wheel.range(7.5, 8.5)? {
        println!(
            "from z 7.5 to 8.5 there may be metal from radius {} to {}",
            most.bore_lower_mm, most.outer_upper_mm
        );
    }

    // A list is of the stock that it was taken of: the stock has gone on since.
    let mut gone_on = wheel;
    let list = gone_on.thread_cut(9.0, 12.0, 14.0)?;
    gone_on.commit(&list)?;
    match gone_on.commit(&list) {
        Ok(()) => println!("the same list again: made"),
        Err(refusal) => println!("the same list again: {}", refusal.number()),
    }
    Ok(())
}
