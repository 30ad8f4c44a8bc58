//! compare whole [SECONDS] [SEED] [PROGRAM..]
//! compare FAMILY|all [COUNT] [SEED] | thousandths [STEP] | far|arcs [COUNT] [SEED] | record [COUNT] [SEED] [FAMILY] | bench [WORD] [PICTURE]
//! compare stack [COUNT] [SEED]
//! compare exact KIND COUNT SEED [SIZE]
//! compare jobs [COUNT] [SEED] PROGRAM [WORD..] | job | job_bench PROGRAM [WORD..] | parts_bench | files_bench
//! compare pair FIRST SECOND | pairs_bench PROGRAM
use compare::generate::{FAMILIES, FILE, JOB_PARTS, SEQUENCE};
use compare::pairs::SIDE_BY_SIDE;
use compare::{arcs, bench, exact, far, files, jobs, pairs, record, run, stack, whole};
use std::io::{Read, Write};
use std::process::ExitCode;

const SEED: u64 = 1;

fn usage() -> ExitCode {
    eprintln!("compare whole [SECONDS] [SEED] [PROGRAM..]   everything, for so long");
    eprintln!("compare FAMILY [COUNT] [SEED]   compares so many calls; status 1 on a difference");
    eprintln!("compare all [PERCENT] [SEED]    every family, PERCENT of its default count");
    eprintln!(
        "compare thousandths [STEP]      the roots of k/1000, every STEPth k to 1,000,000,000"
    );
    eprintln!(
        "compare far [COUNT] [SEED]      the distance of 01's length from the untouched Rust"
    );
    eprintln!("compare arcs [COUNT] [SEED]     how far a chord's told sag is from the true one");
    eprintln!(
        "compare record [COUNT] [SEED] [FAMILY|limits]   COUNT lines a family, see record.rs"
    );
    eprintln!("compare bench [WORD] [PICTURE]  times both; only rows with WORD");
    eprintln!(
        "compare stack [COUNT] [SEED]    the stack that each call needs, over COUNT calls a family"
    );
    eprintln!("compare exact KIND COUNT SEED [SIZE]   bounds against exact geometry, so many bins");
    eprintln!(
        "  kinds: {}; sizes: job typed long shop metre million",
        exact::KINDS.join(" ")
    );
    eprintln!("compare count ROW SIDE          some goes of a row of the bench, for callgrind");
    eprintln!("compare jobs COUNT SEED PROGRAM..   so many jobs through a job program");
    eprintln!("compare job                     the job on standard input, over the Rust");
    eprintln!("compare job_bench PROGRAM..     times a job program beside the Rust");
    eprintln!("compare parts_bench             times a job in parts, through the C calls");
    eprintln!("compare files_bench             times stock files beside a plain reader and writer");
    eprintln!(
        "compare pair FIRST SECOND       what differs between two stock files, over the Rust"
    );
    eprintln!("compare pairs_bench PROGRAM     times stock_compare beside that");
    let families = FAMILIES
        .iter()
        .chain([&SEQUENCE, &JOB_PARTS, &FILE, &SIDE_BY_SIDE]);
    let names = families.map(|(name, count)| format!("{name} ({count})"));
    let names: Vec<String> = names.collect();
    eprintln!("families: {}", names.join(", "));
    ExitCode::from(2)
}

fn main() -> ExitCode {
    let words: Vec<String> = std::env::args().skip(1).collect();
    let Some(name) = words.first() else {
        return usage();
    };
    if name == "job" {
        let mut input = vec![];
        std::io::stdin().read_to_end(&mut input).unwrap();
        std::io::stdout().write_all(&jobs::run(&input)).unwrap();
        return ExitCode::SUCCESS;
    }
    if name == "job_bench" && words.len() > 1 {
        jobs::bench(&words[1..], 100_000);
        return ExitCode::SUCCESS;
    }
    if name == "parts_bench" {
        jobs::parts_bench();
        return ExitCode::SUCCESS;
    }
    if name == "files_bench" {
        files::bench::bench();
        return ExitCode::SUCCESS;
    }
    if name == "pair" && words.len() == 3 {
        let text = pairs::bench::plain_compare(&words[1], &words[2]);
        std::io::stdout().write_all(text.as_bytes()).unwrap();
        return ExitCode::SUCCESS;
    }
    if name == "pairs_bench" && words.len() == 2 {
        pairs::bench::bench(&words[1]);
        return ExitCode::SUCCESS;
    }
    if name == "bench" {
        let picture = bench::bench(words.get(1).map_or("", |w| w));
        if let Some(file) = words.get(2) {
            std::fs::write(file, picture).expect("the picture is written");
        }
        return ExitCode::SUCCESS;
    }
    if name == "count" && words.len() == 3 {
        let Ok(side) = words[2].parse() else {
            return usage();
        };
        bench::counted_side(&words[1], side);
        return ExitCode::SUCCESS;
    }
    let number = |at: usize, default: u64| words.get(at).map_or(Ok(default), |w| w.parse());
    let Ok(seed) = number(2, SEED) else {
        return usage();
    };
    if name == "exact" {
        let (Some(kind), Some(Ok(count))) = (words.get(1), words.get(2).map(|w| w.parse())) else {
            return usage();
        };
        let Ok(seed) = number(3, SEED) else {
            return usage();
        };
        let known = exact::exact(kind, count, seed, words.get(4).map(String::as_str));
        return if known { ExitCode::SUCCESS } else { usage() };
    }
    if name == "whole" {
        let Ok(seconds) = number(1, 600) else {
            return usage();
        };
        let program = words.get(3..).unwrap_or_default();
        let failed = whole::whole(seconds, seed, program);
        return ExitCode::from((failed > 0) as u8);
    }
    if name == "jobs" && words.len() > 3 {
        let Ok(count) = number(1, 0) else {
            return usage();
        };
        let differences = jobs::compare(&words[3..], count as usize, seed);
        return ExitCode::from((differences > 0) as u8);
    }
    let mut families = FAMILIES
        .iter()
        .chain([&SEQUENCE, &JOB_PARTS, &FILE, &SIDE_BY_SIDE]);
    let family = families.find(|(family, ..)| family == name);
    let default = match (name.as_str(), family) {
        (_, Some((_, count))) => *count as u64,
        ("all", _) => 100,
        ("far", _) => 1_000_000,
        ("arcs", _) => 100_000,
        ("thousandths", _) => 19,
        ("record", _) => 40,
        ("stack", _) => 1000,
        _ => return usage(),
    };
    let Ok(count) = number(1, default) else {
        return usage();
    };
    let count = count as usize;
    match name.as_str() {
        "far" => far::far(count, seed),
        "arcs" => arcs::arcs(count, seed),
        "thousandths" => {
            return ExitCode::from((run::thousandths(count.max(1)) > 0) as u8);
        }
        "stack" => {
            for (name, bytes) in stack::most(count, seed) {
                println!("turning_{name}: {bytes} bytes");
            }
        }
        "record" => {
            let only = words.get(3);
            let mut lines = vec![];
            for (family, ..) in FAMILIES {
                if only.is_none_or(|o| o == family) {
                    lines.extend(record::sample(family, count, seed).unwrap());
                }
            }
            if only.is_none_or(|o| o == "limits") {
                lines.extend(record::at_the_limits());
            }
            for line in lines {
                println!("{line}");
            }
        }
        "all" => {
            let mut differences = 0;
            for (family, default) in FAMILIES.iter().chain([&SEQUENCE, &JOB_PARTS, &FILE]) {
                differences += run::family(family, default / 100 * count, seed);
            }
            if pairs::named_program().is_some() {
                differences += pairs::run::compare(SIDE_BY_SIDE.1 / 100 * count, seed);
            }
            return ExitCode::from((differences > 0) as u8);
        }
        _ if name == SIDE_BY_SIDE.0 => {
            return ExitCode::from((pairs::run::compare(count, seed) > 0) as u8);
        }
        _ => {
            let differences = run::family(name, count, seed);
            return ExitCode::from((differences > 0) as u8);
        }
    }
    ExitCode::SUCCESS
}
