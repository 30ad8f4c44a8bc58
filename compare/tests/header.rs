//! include/turning.h says what the code of crate `turning_c` says, and so does src/library.rs: of each call what it returns, and
//! each parameter's name and type, in order. Every call is compared and timed, and needs no more stack than the header says.
use compare::bench;
use compare::generate::{FAMILIES, Rng, family};
use compare::stack;
use std::collections::{BTreeMap, BTreeSet};

/// What a call returns, and its parameters in order, each `type name` in C's words.
type Calls = BTreeMap<String, (String, Vec<String>)>;

fn read(name: &str) -> String {
    let file = format!("{}/../{name}", env!("CARGO_MANIFEST_DIR"));
    std::fs::read_to_string(&file).unwrap_or_else(|e| panic!("{file}: {e}"))
}

fn words(text: &str) -> String {
    text.split_whitespace().collect::<Vec<_>>().join(" ")
}

/// The text without what stands between the two marks, at each place.
fn without(text: &str, open: &str, close: &str) -> String {
    let mut rest = text;
    let mut left = String::new();
    while let Some(at) = rest.find(open) {
        left.push_str(&rest[..at]);
        let end = rest[at..]
            .find(close)
            .map_or(rest.len(), |e| at + e + close.len());
        rest = &rest[end..];
    }
    left + rest
}

fn is_word(c: char) -> bool {
    c.is_alphanumeric() || c == '_'
}

/// Each name that begins with `turning_` and has a list in parentheses: the word before it, the name, the list, what follows.
fn lists(text: &str) -> Vec<(&str, &str, &str, &str)> {
    let mut found = vec![];
    for (at, _) in text.match_indices("turning_") {
        if text[..at].ends_with(is_word) {
            continue;
        }
        let name = text[at..].split(|c| !is_word(c)).next().unwrap();
        let Some(list) = text[at + name.len()..].strip_prefix('(') else {
            continue;
        };
        let end = list.find(')').unwrap();
        let before = text[..at].trim_end().rsplit(|c: char| !is_word(c)).next();
        found.push((before.unwrap(), name, &list[..end], &list[end + 1..]));
    }
    found
}

/// `const double *cells` as `const double * cells`, however it is written.
fn parameter(text: &str) -> String {
    words(&text.replace('*', " * "))
}

/// The declarations of the header, its macros written out.
fn header() -> Calls {
    let text = without(&read("include/turning.h"), "/*", "*/").replace("\\\n", " ");
    let (defines, code): (Vec<&str>, Vec<&str>) =
        text.lines().partition(|l| l.starts_with("#define"));
    let mut code = code.join("\n");
    for line in defines {
        let mut parts = line.splitn(3, ' ').skip(1);
        let (name, value) = (parts.next().unwrap(), parts.next().unwrap_or_default());
        code = code.replace(name, value);
    }
    let calls = lists(&code).into_iter().map(|(returned, name, list, _)| {
        let parameters = list.split(',').map(parameter).filter(|p| p != "void");
        let parameters = parameters.collect();
        (name.to_string(), (returned.to_string(), parameters))
    });
    calls.collect()
}

/// A number's type in C's words, by its name in the code.
fn number(name: &str) -> &str {
    match name {
        "f64" => "double",
        "usize" => "size_t",
        "u8" => "uint8_t",
        "u32" => "uint32_t",
        "u64" => "uint64_t",
        "i32" => "int32_t",
        other => panic!("no type of the header is {other}"),
    }
}

/// The text of each source file of a crate.
fn sources(krate: &str) -> Vec<String> {
    let folder = format!("crates/{krate}/src");
    let files = std::fs::read_dir(format!("{}/../{folder}", env!("CARGO_MANIFEST_DIR")));
    let names = files.unwrap().map(|f| f.unwrap().file_name());
    names
        .map(|n| read(&format!("{folder}/{}", n.to_str().unwrap())))
        .collect()
}

/// A length, or the constant of the code that is one: a number, or a product of numbers and constants.
fn array_length(name: &str) -> usize {
    if let Ok(length) = name.parse() {
        return length;
    }
    let mark = format!("const {name}: usize = ");
    let mut found = vec![];
    for krate in ["turning_c", "job_run", "job_words", "text"] {
        for text in sources(krate) {
            let values = text.split(&mark).skip(1);
            found.extend(values.map(|v| v.split(';').next().unwrap().to_string()));
        }
    }
    // The calls of a job and of a file have a constant of a name each.
    found.dedup();
    assert_eq!(found.len(), 1, "{name} has one value");
    found[0].split(" * ").map(array_length).product()
}

/// An array of a fixed length as C has it, lent to be written or (`const `) to be read.
fn array(constant: &str, kind: &str, name: &str) -> Option<String> {
    let (of, length) = kind
        .strip_prefix('[')?
        .strip_suffix(']')?
        .split_once("; ")?;
    let (of, length) = (number(of), array_length(length));
    Some(format!("{constant}{of} {name}[{length}]"))
}

/// A parameter of the code as C has it: a slice is a pointer and a length.
fn of_code(text: &str) -> Vec<String> {
    let (name, kind) = text.split_once(": ").unwrap();
    let length = format!("size_t {name}_len");
    for (mark, constant) in [("&mut ", ""), ("&", "const ")] {
        let kind = kind.strip_prefix(mark);
        if let Some(found) = kind.and_then(|k| array(constant, k, name)) {
            return vec![found];
        }
    }
    if let Some(n) = kind.strip_prefix("&mut [") {
        return vec![
            format!("{} * {name}", number(n.trim_end_matches(']'))),
            length,
        ];
    }
    if let Some(n) = kind.strip_prefix("&[") {
        return vec![
            format!("const {} * {name}", number(n.trim_end_matches(']'))),
            length,
        ];
    }
    match kind.strip_prefix("&mut ") {
        Some(n) => vec![format!("{} * {name}", number(n))],
        None => vec![format!("{} {name}", number(kind))],
    }
}

/// The exported functions of crate `turning_c`.
fn code() -> Calls {
    let mut calls = Calls::new();
    for text in sources("turning_c") {
        for part in text.split("pub extern \"C\" fn ").skip(1) {
            let (_, name, list, after) = lists(part)[0];
            let parameters = list.split(',').map(words).filter(|p| !p.is_empty());
            let returned = words(after)
                .strip_prefix("-> ")
                .unwrap()
                .split(' ')
                .next()
                .unwrap()
                .to_string();
            let parameters = parameters.flat_map(|p| of_code(&p)).collect();
            calls.insert(name.into(), (number(&returned).into(), parameters));
        }
    }
    calls
}

/// A type of src/library.rs in C's words.
fn of_library(kind: &str) -> String {
    match kind {
        "In" => "const double *".into(),
        "Out" => "double *".into(),
        "Sizes" => "const size_t *".into(),
        "Size" => "size_t *".into(),
        _ => match (kind.strip_prefix("*mut "), kind.strip_prefix("*const ")) {
            (Some(n), _) => format!("{} *", number(n)),
            (_, Some(n)) => format!("const {} *", number(n)),
            _ => number(kind).into(),
        },
    }
}

/// A parameter of src/library.rs in C's words.
fn parameter_of_library(name: &str, kind: &str) -> String {
    for (mark, constant) in [("*mut ", ""), ("*const ", "const ")] {
        let kind = kind.strip_prefix(mark);
        if let Some(found) = kind.and_then(|k| array(constant, k, name)) {
            return found;
        }
    }
    format!("{} {name}", of_library(kind))
}

/// The declarations of src/library.rs.
fn library() -> Calls {
    let text = read("compare/src/library.rs");
    let of = |part: &str| {
        part.split_once(": ")
            .map(|(name, kind)| parameter_of_library(name, kind))
    };
    let returned = text.split("-> ").nth(1).unwrap().split(';').next().unwrap();
    let spec = &text[text.find("z_min: f64").unwrap()..];
    let spec = spec.split("$(").next().unwrap();
    let mut calls = Calls::new();
    for (mark, first) in [
        ("\n    declare! {", ""),
        ("\n    declare_with_spec! {", spec),
    ] {
        let block = text
            .split(mark)
            .nth(1)
            .unwrap()
            .split("\n    }")
            .next()
            .unwrap();
        for (_, name, list, _) in lists(block) {
            let parts = first.split(',').chain(list.split(','));
            let parameters = parts.filter_map(|p| of(&words(p))).collect();
            calls.insert(name.into(), (number(returned).into(), parameters));
        }
    }
    calls
}

/// It says for which header the archive was built, and is no call to compare or to time.
const NO_CALL: &str = "turning_header";

/// The calls that the header declares, `turning_` left off.
fn declared() -> BTreeSet<String> {
    let names = header().into_keys().filter(|n| n != NO_CALL);
    names
        .map(|n| n.strip_prefix("turning_").unwrap().to_string())
        .collect()
}

/// A caller of another header finds out: the archive says the number that the header has.
#[test]
fn the_archive_is_of_this_header() {
    let text = read("include/turning.h");
    let number = text.split("#define TURNING_HEADER ").nth(1).unwrap();
    let number: u32 = number.split_whitespace().next().unwrap().parse().unwrap();
    // SAFETY: it takes nothing.
    assert_eq!(unsafe { compare::library::c::turning_header() }, number);
    assert_eq!(number, 7);
    assert_eq!(header()[NO_CALL], ("uint32_t".to_string(), vec![]));
}

/// Both have the same calls, each with the same parameters.
fn same(ours: Calls, theirs: Calls) {
    for name in ours.keys().chain(theirs.keys()) {
        assert_eq!(ours.get(name), theirs.get(name), "{name}");
    }
}

#[test]
fn the_header_declares_what_the_code_exports() {
    same(header(), code());
}

#[test]
fn the_library_is_called_as_the_header_declares() {
    same(library(), header());
}

/// The calls that a file makes: those of a job src/jobs/parts.rs, those of a stock file src/files/run.rs.
fn called_in(file: &str) -> Vec<String> {
    let text = read(file);
    let calls = lists(&text).into_iter();
    calls
        .map(|(_, name, ..)| name.strip_prefix("turning_").unwrap().to_string())
        .collect()
}

#[test]
fn every_call_is_compared() {
    let mut made = BTreeSet::new();
    for (name, ..) in FAMILIES {
        let (make, mut rng) = (family(name).unwrap(), Rng::new(1));
        made.extend((0..100).map(|_| make(&mut rng).name().to_string()));
    }
    made.extend(called_in("compare/src/jobs/parts.rs"));
    made.extend(called_in("compare/src/files/run.rs"));
    assert_eq!(made, declared());
}

#[test]
fn every_call_is_timed() {
    let mut timed: BTreeSet<String> = bench::names().map(String::from).collect();
    // jobs are timed in parts, by the calls that parts.rs makes
    let parts = read("compare/src/jobs/bench.rs");
    if parts.contains("answered(input.as_bytes().chunks(size))") {
        timed.extend(called_in("compare/src/jobs/parts.rs"));
    }
    assert_eq!(timed, declared());
}

/// The KiB of stack that the header says beside each call.
fn stacks() -> BTreeMap<String, usize> {
    let text = words(&read("include/turning.h").replace("\n *", " "));
    let mut said = BTreeMap::new();
    let mut rest = text.as_str();
    while let Some((_, after)) = rest.split_once("Stack ") {
        let (figure, after) = after
            .split_once(" KiB. */")
            .expect("a figure in KiB ends a comment");
        let name = after
            .split_once("turning_")
            .unwrap()
            .1
            .split('(')
            .next()
            .unwrap();
        said.insert(name.into(), figure.parse().expect("a whole number"));
        rest = after;
    }
    said
}

#[test]
fn no_call_needs_more_stack_than_the_header_says() {
    let said = stacks();
    assert_eq!(said.keys().cloned().collect::<BTreeSet<_>>(), declared());
    let most = stack::most(200, 1);
    let measured: BTreeSet<String> = most.keys().map(|n| n.to_string()).collect();
    assert_eq!(measured, declared());
    for (name, bytes) in most {
        assert!(
            bytes <= 1024 * said[name],
            "turning_{name} needs {bytes} bytes of stack"
        );
    }
}
