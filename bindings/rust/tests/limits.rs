//! The limits of the rules, and the sentences of refusals.
use turning::*;

const STACK: usize = 8 << 20;

/// Runs over a stack as large as a main thread has.
fn roomy<T: Send + 'static>(f: impl FnOnce() -> T + Send + 'static) -> T {
    std::thread::Builder::new()
        .stack_size(STACK)
        .spawn(f)
        .expect("a thread")
        .join()
        .expect("no panic")
}

fn bar(bins: usize) -> Spec {
    Spec::new(0.0, bins as f64, 20.0, 0.0, 1.0)
}

#[test]
fn the_most_cells() {
    roomy(|| {
        assert_eq!(bar(CELL_LIMIT).validate(), Ok(CELL_LIMIT));
        assert_eq!(bar(CELL_LIMIT + 1).validate(), Err(Refusal::CellCount));
        for n in [1, 512, 513, 4096, 4097, CELL_LIMIT] {
            let mut stock = Stock::new(bar(n)).expect("a bar");
            let all = Segment::new([15.5, -9.0], [15.5, n as f64 + 9.0]);
            let list = stock
                .preview(&Cut::line(Side::Outer, 0.5, all))
                .expect("a turn");
            assert_eq!(list.len(), n);
            stock.commit(&list).expect("its list");
            let list = stock.drill(-50.0, 3.0, 0.0).expect("a drill");
            assert_eq!(list.len(), n);
            stock
                .apply_move(
                    &list,
                    &[Ring {
                        z0: 0.0,
                        z1: 0.5,
                        r0: 4.0,
                        r1: 5.0,
                    }],
                )
                .expect("a move");
            assert_eq!(stock.generation(), 3);
            let there = stock.range(0.0, n as f64).expect("a range").expect("metal");
            assert_eq!((there.bore_lower_mm, there.outer_upper_mm), (3.0, 15.0));
            assert_eq!(
                stock.envelope_at(n as f64).expect("an end").expect("metal"),
                there
            );
            let targets = vec![
                Target {
                    lower_mm: 14.0,
                    upper_mm: 15.0
                };
                n
            ];
            assert!(matches!(
                check_passes(&stock, &targets, &[]),
                Ok(Verdict::Yes(_))
            ));
            assert_eq!(propose_passes(&stock, &targets, 0.5), Ok(vec![]));
        }
    });
}

#[test]
fn a_file_of_every_size_reads_back() {
    for n in [1, 63, 64, 65, 512, 4096, 4097, CELL_LIMIT] {
        let mut stock = Stock::with_edition(bar(n), n as u32).expect("a bar");
        stock
            .commit(
                &stock
                    .thread_cut(0.0, n as f64 / 2.0, 7.0)
                    .expect("a thread"),
            )
            .expect("its list");
        let mut file = Vec::new();
        stock.write_to(&mut file).expect("memory");
        let read = Stock::read_from(&file[..], CELL_LIMIT).expect("its file");
        assert_eq!(read.cells(), stock.cells());
        assert_eq!(read.blocks(), stock.blocks());
        assert_eq!((read.edition(), read.generation()), (n as u32, 0));
        if n > 1 {
            let few = Stock::read_from(&file[..], n - 1).unwrap_err();
            assert!(
                matches!(few, ReadError::Refused(Refusal::CellCount)),
                "{few}"
            );
        }
    }
}

#[test]
fn the_most_rings() {
    let mut stock = Stock::new(bar(512)).expect("a bar");
    for k in 0..RING_LIMIT {
        let z = 2.0 * k as f64;
        let tests = stock.remove_ring(Ring {
            z0: z,
            z1: z + 1.0,
            r0: 4.0,
            r1: 5.0,
        });
        assert_eq!(tests, Ok(k));
    }
    let before = stock.clone();
    let more = stock.remove_ring(Ring {
        z0: 0.0,
        z1: 1.0,
        r0: 6.0,
        r1: 7.0,
    });
    assert_eq!(more, Err(Refusal::RingRoom));
    assert_eq!(stock, before);
    let mut file = Vec::new();
    stock.write_to(&mut file).expect("memory");
    assert_eq!(
        Stock::read_from(&file[..], 512).expect("its file").rings(),
        stock.rings()
    );
}

#[test]
fn the_most_segments_points_and_cuts() {
    roomy(|| {
        let stock = Stock::new(bar(64)).expect("a bar");
        let segments = vec![Segment::new([18.0, 1.0], [18.0, 2.0]); 4097];
        let nose = |n: usize| {
            stock.preview(&Cut::Nose {
                side: Side::Outer,
                rn: 1.0,
                segments: &segments[..n],
            })
        };
        assert!(nose(4096).is_ok());
        assert_eq!(nose(4097), Err(Refusal::Argument));
        assert_eq!(nose(0).expect("no segment").len(), 0);
        let points = vec![[1.0, 8.0]; 65];
        assert!(stock
            .preview_polygon(&points[..64], Side::Outer, 0.0)
            .is_ok());
        assert_eq!(
            stock.preview_polygon(&points, Side::Outer, 0.0),
            Err(Refusal::Argument)
        );
        assert!(Envelope::new(vec![[0.0, 0.0]; 1024]).is_ok());
        assert_eq!(
            Envelope::new(vec![[0.0, 0.0]; 1025]),
            Err(Refusal::Envelope)
        );
        let targets = vec![
            Target {
                lower_mm: 0.0,
                upper_mm: 30.0
            };
            64
        ];
        let cuts = vec![
            Cut::ThreadCut {
                z0: 0.0,
                z1: 9.0,
                radius: 8.0
            };
            129
        ];
        assert!(matches!(
            check_passes(&stock, &targets, &cuts[..128]),
            Ok(Verdict::Yes(_))
        ));
        assert_eq!(check_passes(&stock, &targets, &cuts), Err(Refusal::Passes));
        let arc = [cuts[0], Cut::Arc];
        let no = Verdict::CutFails {
            cut: 1,
            reason: Refusal::Arc,
        };
        assert_eq!(check_passes(&stock, &targets, &arc), Ok(no));
    });
}

#[test]
fn the_most_chords() {
    // 255 half circles, each halved ten times: as many chords as a profile may have.
    let wave: Vec<[f64; 3]> = (0..256).map(|k| [500.0, 900.0 * k as f64, 1.0]).collect();
    let chords = Profile::new(wave)
        .segments(0.0011)
        .expect("within the tolerance");
    assert_eq!(chords.len(), 255 * 1024);
    assert_eq!(chords[255 * 1024 - 1].b, [500.0, 255.0 * 900.0]);
}

#[test]
fn every_refusal_says_a_sentence() {
    let refusals = [
        (Refusal::Spec, "refused with 1: a number of the spec is outside the rules"),
        (Refusal::Order { change: 5 }, "refused with 7 at change 5: the indices of the changes do not strictly rise"),
        (Refusal::Ring { ring: 2 }, "refused with 10 at ring 2: the ring is not finite, or is empty in a list"),
        (Refusal::StockLine { line: 12 }, "refused with 16 at line 12: the line of the stock file is not of its form, or is missing"),
        (Refusal::Job { line: 3, number: 13 }, "refused with 13 at line 3 of the job: an arc is no cut"),
        (Refusal::NoBin { change: None }, "refused with 21: there is no bin of that index"),
    ];
    for (refusal, said) in refusals {
        assert_eq!(refusal.to_string(), said);
    }
    let _: &dyn std::error::Error = &refusals[0].0;
}

#[test]
fn a_list_with_a_bad_change_and_a_fall_names_the_fall() {
    let mut stock = Stock::new(bar(8)).expect("a bar");
    let cell = stock.cells()[0];
    let change = |index| Change {
        index,
        before: cell,
        after: cell,
    };
    let list = ChangeList::from_records(stock.stamp(), [0, 1, 2, 3, 9, 5].map(change));
    assert_eq!(stock.commit(&list), Err(Refusal::Order { change: 5 }));
    let list = ChangeList::from_records(stock.stamp(), [0, 1, 9].map(change));
    assert_eq!(stock.commit(&list), Err(Refusal::NoBin { change: Some(2) }));
    let mut raised = change(3);
    raised.before.outer.lower_mm = 1.0;
    let list = ChangeList::from_records(stock.stamp(), [raised]);
    assert_eq!(stock.commit(&list), Err(Refusal::Before { change: 0 }));
    let rings = [Ring::default()];
    let none = ChangeList::from_records(stock.stamp(), []);
    assert_eq!(
        stock.apply_move(&none, &rings),
        Err(Refusal::Ring { ring: 0 })
    );
}

#[test]
fn two_readers_that_fail() {
    struct Fails;
    impl std::io::Read for Fails {
        fn read(&mut self, _: &mut [u8]) -> std::io::Result<usize> {
            Err(std::io::Error::other("no disk"))
        }
    }
    assert!(matches!(Stock::read_from(Fails, 8), Err(ReadError::Io(_))));
    /// Answers more than it was lent.
    struct Lies;
    impl std::io::Read for Lies {
        fn read(&mut self, _: &mut [u8]) -> std::io::Result<usize> {
            Ok(usize::MAX)
        }
    }
    assert!(matches!(
        Stock::read_from(Lies, 8),
        Err(ReadError::Refused(_))
    ));
    assert!(Stock::read_from(&b""[..], 8).is_err());
}

#[test]
fn the_wheel_of_the_job_is_its_stock_file() {
    let root = std::path::Path::new(env!("CARGO_MANIFEST_DIR")).join("../../examples");
    let Ok(text) = std::fs::read(root.join("wheel.job")) else {
        return;
    };
    let mut job = Job::new();
    for part in text.chunks(7) {
        job.write(part);
    }
    let mut file = Vec::new();
    job.finish()
        .expect("the job")
        .write_to(&mut file)
        .expect("memory");
    assert_eq!(
        file,
        std::fs::read(root.join("wheel.stock")).expect("the file")
    );
}

#[test]
fn many_cells_have_five_digits_in_a_file() {
    for (n, starts) in [(4096, "stock\t2\t"), (4097, "stock\t3\t")] {
        let mut file = Vec::new();
        Stock::new(bar(n))
            .expect("a bar")
            .write_to(&mut file)
            .expect("memory");
        assert!(file.starts_with(starts.as_bytes()));
        let last = format!(
            "cell\t{:0width$}\t",
            n - 1,
            width = if n > 4096 { 5 } else { 4 }
        );
        assert!(String::from_utf8(file).expect("text").contains(&last));
    }
}

#[test]
fn a_thread_with_a_small_stack_may_check_passes() {
    let small = std::thread::Builder::new().stack_size(64 << 10);
    let said = small.spawn(|| {
        let stock = Stock::new(bar(CELL_LIMIT)).expect("a bar");
        let targets = vec![
            Target {
                lower_mm: 0.0,
                upper_mm: 30.0
            };
            CELL_LIMIT
        ];
        let all = Segment::new([15.5, -9.0], [15.5, 20_000.0]);
        matches!(
            check_passes(&stock, &targets, &[Cut::line(Side::Outer, 0.5, all)]),
            Ok(Verdict::Yes(_))
        )
    });
    assert!(said.expect("a thread").join().expect("no panic"));
}
