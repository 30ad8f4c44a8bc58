//! How much stack each call needs: a thread's stack is painted, and where the paint is gone after calls of every kind tells.
//! What is counted begins in the caller, so that it is never less than what the call itself takes.
use crate::files;
use crate::generate::{FAMILIES, Rng, family};
use crate::jobs::parts;
use crate::memory::Memory;
use crate::{call::Call, library, limits};
use std::collections::BTreeMap;
use std::hint::black_box;

/// What is painted below the caller.
const DEPTH: usize = 2 << 20;
const PAINT: u64 = 0x5A5A_A5A5_3C3C_C3C3;
/// Words below the painter's own that it leaves as they are: its frame.
const FRAME: usize = 64;

/// The words from DEPTH below an address up to the address.
fn below(top: usize) -> impl DoubleEndedIterator<Item = *mut u64> {
    let words = DEPTH / 8;
    (0..words).map(move |k| ((top & !7) - DEPTH + 8 * k) as *mut u64)
}

#[inline(never)]
fn paint(top: usize) {
    let words = DEPTH / 8 - FRAME;
    for word in below(top).take(words) {
        // SAFETY: the thread's stack reaches further down than DEPTH, and nothing is in use there.
        unsafe { word.write_volatile(PAINT) };
    }
}

#[inline(never)]
fn used(top: usize) -> usize {
    // SAFETY: as above.
    let touched = below(top).find(|word| unsafe { word.read_volatile() } != PAINT);
    touched.map_or(0, |word| top - word as usize)
}

/// The bytes of stack from this frame down to the deepest that a run wrote.
#[inline(never)]
pub fn used_by(run: impl FnOnce()) -> usize {
    let here = 0_u64;
    let top = black_box(&here) as *const u64 as usize;
    paint(top);
    run();
    used(top)
}

/// The same of a call.
pub fn needs(call: &Call) -> usize {
    let mut memory = Memory::of(call);
    used_by(|| {
        black_box(library::run(call, black_box(&mut memory)));
    })
}

/// The most of each call, over COUNT calls of each family, COUNT jobs and COUNT stock files from the seed, and every call at a limit.
pub fn most(count: usize, seed: u64) -> BTreeMap<&'static str, usize> {
    let measure = move || {
        let mut most = BTreeMap::new();
        let mut add = |call: Call| {
            let bytes = needs(&call);
            let entry = most.entry(call.name()).or_insert(0);
            *entry = bytes.max(*entry);
        };
        limits::calls().into_iter().for_each(|(call, _)| add(call));
        (limits::all_bins().into_iter()).for_each(|(call, _)| add(call));
        for (name, ..) in FAMILIES {
            let (make, mut rng) = (family(name).expect("a family"), Rng::new(seed));
            (0..count).for_each(|_| add(make(&mut rng)));
        }
        let files = files::run::stack(count, seed);
        for (name, bytes) in parts::stack(count, seed).into_iter().chain(files) {
            let entry = most.entry(name).or_insert(0);
            *entry = bytes.max(*entry);
        }
        most
    };
    let thread = std::thread::Builder::new().stack_size(4 * DEPTH);
    thread.spawn(measure).unwrap().join().unwrap()
}
