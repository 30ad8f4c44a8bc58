//! Seeded jobs, valid and damaged.
use crate::generate::Rng;

/// A number from about low to high, as a rule a round one.
fn whole(rng: &mut Rng, low: i64, high: i64) -> i64 {
    let step = rng.pick(&[1, 1, 10, 100, 500, 1000]);
    (low + rng.below((high - low + 1) as usize) as i64) / step * step
}

/// A cut or a ring about a bar of that length and radius, as a line of a job.
pub fn cut_line(rng: &mut Rng, length: i64, outer: i64) -> String {
    let z = |rng: &mut Rng| whole(rng, -length / 4, length + length / 4);
    let r = |rng: &mut Rng| whole(rng, 0, outer + outer / 4);
    match rng.below(6) {
        0 | 1 => {
            let side = rng.pick(&["outer", "inner"]);
            let rn = rng.pick(&[0, 400, 800, 5000, 50000]);
            let sag = rng.pick(&[0, 0, 0, 10, 800, 900]);
            let [a_r, b_r] = [r(rng), r(rng)];
            let [a_z, b_z] = [z(rng), z(rng)];
            format!("line\t{side}\t{rn}\t{sag}\t{a_r}\t{a_z}\t{b_r}\t{b_z}\n")
        }
        2 => {
            let word = rng.pick(&["thread_cut", "thread_cut_inner"]);
            format!("{word}\t{}\t{}\t{}\n", z(rng), z(rng), r(rng))
        }
        3 => format!(
            "drill\t{}\t{}\t{}\n",
            z(rng),
            r(rng).max(1),
            whole(rng, -100, 5000)
        ),
        _ => format!("ring\t{}\t{}\t{}\t{}\n", z(rng), z(rng), r(rng), r(rng)),
    }
}

/// A byte, a field or a line of the job is not as it should be.
fn damage(rng: &mut Rng, job: &mut Vec<u8>) {
    let at = rng.below(job.len());
    match rng.below(12) {
        0 => job[at] = rng.word() as u8,
        1 => drop(job.remove(at)),
        2 => job.insert(at, rng.pick(b"\t\n\r -+0159.acgx")),
        3 => job.truncate(at),
        4 => drop(job.pop()),
        5 => {
            *job = String::from_utf8_lossy(job)
                .replacen('\n', "\r\n", 1)
                .into_bytes()
        }
        6 => job.extend(b"arc\touter\t0\n"),
        7 => job.extend(b"bar\t0\t1000\t1000\t0\t1000\n"),
        8 => job.extend(format!("{}\n", "x".repeat(100 + rng.below(60))).bytes()),
        9 => job.extend(format!("arc{}\n", "\t".repeat(110 + rng.below(30))).bytes()),
        10 => job.extend(format!("drill\t{}\t1\t0\n", rng.word() % 100_000_000_000).bytes()),
        _ => job.extend(rng.pick(&[
            &b"drill\t0\t0\t0\n"[..],
            b"thread_cut\t0\t1\t-1\n",
            b"line\touter\t-1\t0\t0\t0\t0\t0\n",
            b"line\tinner\t1\t-1\t0\t0\t0\t0\n",
            b"ring\t1\t0\t1\t0\n",
            b"ring\t-0\t00001\t-0\t1\n",
            b"\n",
            b"arc\n",
            b"arcs\n",
            b"thread_cut\t0\t1000000001\t1\n",
            b"thread_cut\t0\t1000000000\t1\n",
        ])),
    }
}

/// A bar and some lines, damaged now and then.
pub fn job(rng: &mut Rng) -> Vec<u8> {
    let length = whole(rng, 1, 60_000).max(1);
    let outer = whole(rng, 2, 50_000).max(2);
    let bore = rng.pick(&[0, 0, 0, outer / 3, outer - 1, outer]);
    let from = rng.pick(&[0, 0, -1000, -length / 2]);
    let most = rng.pick(&[4, 12, 40, 200, 520]);
    let bins = 1 + rng.below(most) as i64;
    let cell = (length / bins).max(rng.pick(&[0, 1, 1, 1]));
    let mut job = format!("bar\t{from}\t{}\t{outer}\t{bore}\t{cell}\n", from + length);
    let most = rng.pick(&[3, 8, 8, 30, 120]);
    let lines = rng.below(most);
    let rings_only = rng.once_in(20);
    for _ in 0..lines {
        let line = cut_line(rng, length, outer);
        if !rings_only || line.starts_with("ring") {
            job += &line;
        }
    }
    // small ones apart, to fill the store
    for k in 0..if rings_only { rng.below(80) as i64 } else { 0 } {
        let [z, r] = [k % 9, k / 9].map(|n| 3 * n);
        let [z, r] = [from + length * z / 28, outer * r / 28];
        let [z1, r1] = [z + length / 28, r + outer / 28];
        job += &format!("ring\t{z}\t{z1}\t{r}\t{r1}\n");
    }
    let mut job = job.into_bytes();
    while rng.once_in(3) && !job.is_empty() {
        damage(rng, &mut job);
    }
    if rng.once_in(2000) { vec![] } else { job }
}
