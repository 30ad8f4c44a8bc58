//! A loop of previews and commits takes memory with its first turn alone.
use std::alloc::{GlobalAlloc, Layout, System};
use std::sync::atomic::{AtomicUsize, Ordering};
use turning::{ChangeList, Cut, Ring, Segment, Side, Spec, Stock};

struct Counting;

static TAKEN: AtomicUsize = AtomicUsize::new(0);

// SAFETY: every call is handed on to the system's allocator.
unsafe impl GlobalAlloc for Counting {
    unsafe fn alloc(&self, layout: Layout) -> *mut u8 {
        TAKEN.fetch_add(1, Ordering::SeqCst);
        System.alloc(layout)
    }
    unsafe fn dealloc(&self, start: *mut u8, layout: Layout) {
        System.dealloc(start, layout)
    }
}

#[global_allocator]
static COUNTING: Counting = Counting;

// One test alone in this file: another that runs beside it would be counted too.
#[test]
fn a_loop_takes_memory_once() {
    let mut stock = Stock::new(Spec::new(0.0, 1000.0, 20.0, 0.0, 1.0)).expect("a bar");
    let mut list = ChangeList::new();
    let mut after_first = 0;
    for k in 0..200 {
        let radius = 19.0 - 0.05 * f64::from(k);
        let path = Segment::new([radius + 0.5, -9.0], [radius + 0.5, 1009.0]);
        let turn = Cut::line(Side::Outer, 0.5, path);
        stock.preview_into(&turn, &mut list).expect("a turn");
        assert_eq!(list.len(), 1000);
        stock.commit(&list).expect("its list");
        let thread = Cut::ThreadCut {
            z0: 0.0,
            z1: 500.0,
            radius: radius - 0.01,
        };
        stock.preview_into(&thread, &mut list).expect("a thread");
        let z = f64::from(k) * 4.0;
        let ring = Ring {
            z0: z,
            z1: z + 1.0,
            r0: 1.0,
            r1: 2.0,
        };
        stock.apply_move(&list, &[ring]).expect("a move");
        stock.range(0.0, 1000.0).expect("a range");
        stock.volume().expect("a volume");
        if k == 0 {
            after_first = TAKEN.load(Ordering::SeqCst);
        }
    }
    assert_eq!(TAKEN.load(Ordering::SeqCst) - after_first, 0);
}
