//! The program `chop`: what it writes by a second reading of its rule, its lines through the job's reader, and the cells after them.
//! Where the variable CHOP names the program, it is run.
use compare::call::{Answer, Call, Room, Spec, Stamp};
use compare::generate::Rng;
use compare::jobs::parts::answered;
use compare::oracle::answer;
use compare::oracle::profile::segments;
use compare::oracle::stock::{bar, fresh};
use compare::run::difference;
use std::io::Write;
use std::process::{Command, Stdio};

const N: usize = 100;
const BAR: &[u8] = b"bar\t0\t50000\t40000\t5000\t500\n";
const SPEC: Spec = Spec {
    z_min: 0.,
    z_max: 50.,
    outer: 40.,
    bore: 5.,
    cell: 0.5,
    max_cells: 512,
};

/// An optional minus and 1 to 10 digits, at most 1,000,000,000 in size.
fn whole(field: &[u8]) -> Option<i64> {
    let (sign, digits) = match field.strip_prefix(b"-") {
        Some(rest) => (-1, rest),
        None => (1, field),
    };
    let good = (1..=10).contains(&digits.len()) && digits.iter().all(u8::is_ascii_digit);
    let n: i64 = std::str::from_utf8(digits)
        .ok()
        .filter(|_| good)?
        .parse()
        .ok()?;
    (n <= 1_000_000_000).then_some(sign * n)
}

/// Millimetres as whole micrometres.
fn micrometres(x: f64) -> String {
    let n = (x.abs() * 1000. + 0.5) as u64;
    format!("{}{n}", if x < 0. && n != 0 { "-" } else { "" })
}

struct Profile {
    side: String,
    rn: f64,
    tolerance: f64,
    points: Vec<f64>,
}

enum Line {
    Head(String, f64, f64),
    Point([f64; 3]),
}

fn line(text: &[u8]) -> Option<Line> {
    let fields: Vec<&[u8]> = text.split(|b| *b == b'\t').collect();
    let [word, a, b, c] = fields[..] else {
        return None;
    };
    let mm = |f: &[u8]| whole(f).map(|n| n as f64 / 1000.);
    match word {
        b"profile" if a == b"outer" || a == b"inner" => Some(Line::Head(
            String::from_utf8(a.to_vec()).unwrap(),
            mm(b)?,
            mm(c)?,
        )),
        b"point" => Some(Line::Point([mm(a)?, mm(b)?, whole(c)? as f64 / 1e6])),
        _ => None,
    }
}

/// The profile of a file, or the first line that is not of its form.
fn read(input: &[u8]) -> Result<(Profile, usize), usize> {
    let mut pieces: Vec<&[u8]> = input.split(|b| *b == b'\n').collect();
    let last = pieces.pop().unwrap();
    let mut profile = None;
    for (k, piece) in pieces.iter().enumerate() {
        if piece.len() > 127 {
            return Err(k + 1);
        }
        match (line(piece), &mut profile) {
            (Some(Line::Head(side, rn, tolerance)), None) => {
                profile = Some(Profile {
                    side,
                    rn,
                    tolerance,
                    points: vec![],
                })
            }
            (Some(Line::Point(p)), Some(profile)) => profile.points.extend(p),
            _ => return Err(k + 1),
        }
    }
    match profile {
        Some(profile) if last.is_empty() => Ok((profile, pieces.len())),
        _ => Err(pieces.len() + 1),
    }
}

/// The chords, with the side and the nose.
fn chords(input: &[u8]) -> Result<(Profile, Vec<[f64; 5]>), (usize, u32)> {
    let (profile, lines) = read(input).map_err(|k| (k, 15))?;
    match segments(&profile.points, profile.tolerance, 5 * 4096) {
        Ok(chords) => Ok((profile, chords)),
        Err(reason) => Err((lines, reason.number)),
    }
}

fn chopped(input: &[u8]) -> Vec<u8> {
    let (profile, chords) = match chords(input) {
        Ok(all) => all,
        Err((k, number)) => return format!("refused\t{k}\t{number}\n").into_bytes(),
    };
    let text = |c: &[f64; 5]| {
        let ends: Vec<String> = c[..4].iter().map(|x| micrometres(*x)).collect();
        let sag = (c[4] * 1000.).ceil() as u64 + 1;
        let rn = micrometres(profile.rn);
        format!("line\t{}\t{rn}\t{sag}\t{}\n", profile.side, ends.join("\t"))
    };
    chords.iter().map(text).collect::<String>().into_bytes()
}

/// A profile of shop size that a job takes.
fn good(rng: &mut Rng) -> Vec<u8> {
    let whole = |rng: &mut Rng, a: f64, b: f64| rng.between(a, b) as i64;
    let side = rng.pick(&["outer", "inner"]);
    let (rn, tolerance) = (whole(rng, 100., 3000.), rng.pick(&[5, 20, 100, 700]));
    let mut text = format!("profile\t{side}\t{rn}\t{tolerance}\n");
    for _ in 0..2 + rng.below(4) {
        let (r, z) = (whole(rng, 0., 42000.), whole(rng, -2000., 52000.));
        let bulge = if rng.once_in(4) {
            0
        } else {
            whole(rng, -1e6, 1e6)
        };
        text += &format!("point\t{r}\t{z}\t{bulge}\n");
    }
    text.into_bytes()
}

/// Any profile: damaged, far, with too many points, cut off.
fn any(rng: &mut Rng) -> Vec<u8> {
    let mut text = good(rng);
    if rng.once_in(3) {
        for _ in 0..rng.below(280) {
            let (r, z) = (rng.below(2_000_000_000), rng.below(1_200_000_000));
            text.extend(format!("point\t{r}\t-{z}\t{}\n", rng.below(1_100_000)).bytes());
        }
    }
    for _ in 0..rng.below(3) {
        let at = rng.below(text.len());
        match rng.below(4) {
            0 => text[at] = rng.pick(b"\t\n-0195 xe\r\0"),
            1 => text.truncate(at),
            2 => text.insert(at, rng.pick(b"0123456789\t\n-")),
            _ => _ = text.remove(at),
        }
        if text.is_empty() {
            break;
        }
    }
    text
}

/// The cells after a nose along the chords.
fn cut(cells: &[[f64; 4]], side: u32, rn: f64, chords: &[[f64; 5]]) -> Vec<[f64; 4]> {
    let call = Call::Preview {
        spec: SPEC,
        stamp: Stamp::default(),
        cells: cells.as_flattened().to_vec(),
        side,
        rn,
        segments: chords.as_flattened().to_vec(),
        room: Room {
            indices: N,
            records: 8 * N,
        },
    };
    let outcome = answer(&call);
    if let Some(text) = difference(&call, &outcome) {
        panic!("{text}");
    }
    let Ok(Answer::Changes(changes, _)) = outcome else {
        panic!("{outcome:?}")
    };
    let mut cells = cells.to_vec();
    for change in changes {
        cells[change.index] = change.after;
    }
    cells
}

/// The cells that a job's answer tells.
fn told(answer: &[u8]) -> Vec<[f64; 4]> {
    let text = std::str::from_utf8(answer).unwrap();
    assert!(text.lines().last().unwrap().starts_with("gen\t"), "{text}");
    let number = |f: &str| f64::from_bits(u64::from_str_radix(f, 16).unwrap());
    let cells = text.lines().filter(|l| l.starts_with("cell\t"));
    cells
        .map(|l| {
            let fields: Vec<f64> = l.split('\t').skip(2).map(number).collect();
            fields.try_into().unwrap()
        })
        .collect()
}

#[test]
fn the_example() {
    let input = include_bytes!("../../examples/scallop.profile");
    assert_eq!(chopped(input), include_bytes!("../../crates/chop/stdout"));
}

/// 10,000 profiles: the job reads each line as a line of that side with these numbers, and never certifies more than the chords.
#[test]
fn lines_through_the_job() {
    let mut rng = Rng::new(26);
    let stock = bar(&SPEC).unwrap();
    let (mut done, mut lines_seen) = (0, 0);
    while done < 10_000 {
        let input = good(&mut rng);
        let Ok((profile, chords)) = chords(&input) else {
            continue;
        };
        if chords.len() > 200 {
            continue;
        }
        done += 1;
        let lines = chopped(&input);
        let side = u32::from(profile.side == "inner");
        let mut cells = fresh(&stock);
        for line in std::str::from_utf8(&lines).unwrap().lines() {
            let fields: Vec<&str> = line.split('\t').collect();
            assert_eq!(fields[..2], ["line", &profile.side]);
            let n: Vec<f64> = fields[2..]
                .iter()
                .map(|f| f.parse::<i64>().unwrap() as f64 / 1000.)
                .collect();
            let [rn, sag, ar, az, br, bz] = n[..] else {
                panic!("{line}")
            };
            assert_eq!(rn, profile.rn);
            cells = cut(&cells, side, rn, &[[ar, az, br, bz, sag]]);
            lines_seen += 1;
        }
        let job = told(&answered([BAR, &lines[..]]));
        assert_eq!(job, cells, "{}", String::from_utf8_lossy(&input));
        let nose = cut(&fresh(&stock), side, profile.rn, &chords);
        for (a, b) in job.iter().zip(&nose) {
            // outside the lower is at most the nose's and the upper at least it; inside the mirror
            let text = || format!("{}: {a:?} {b:?}", String::from_utf8_lossy(&input));
            assert!(a[0] <= b[0] && a[1] >= b[1], "{}", text());
            assert!(a[2] <= b[2] && a[3] >= b[3], "{}", text());
        }
    }
    println!("{lines_seen} lines");
}

/// Every number of micrometres that a file can have is spelled as it is read.
#[test]
fn rn_is_the_number_read() {
    for v in 0..=1_000_000_000u64 {
        let x = v as f64 / 1000.;
        assert_eq!((x.abs() * 1000. + 0.5) as u64, v);
    }
}

/// What the program writes, fed in two pieces.
#[test]
fn the_program() {
    let Ok(program) = std::env::var("CHOP") else {
        println!("CHOP names no program");
        return;
    };
    let mut rng = Rng::new(27);
    for k in 0..3_000 {
        let input = if k % 3 == 0 {
            good(&mut rng)
        } else {
            any(&mut rng)
        };
        let mut child = Command::new(&program)
            .stdin(Stdio::piped())
            .stdout(Stdio::piped())
            .spawn()
            .unwrap();
        let mut stdin = child.stdin.take().unwrap();
        let (a, b) = input.split_at(rng.below(input.len() + 1));
        stdin.write_all(a).unwrap();
        stdin.flush().unwrap();
        stdin.write_all(b).unwrap();
        drop(stdin);
        let got = child.wait_with_output().unwrap().stdout;
        assert!(
            got == chopped(&input),
            "{}\n{}",
            String::from_utf8_lossy(&input),
            String::from_utf8_lossy(&got)
        );
    }
}
