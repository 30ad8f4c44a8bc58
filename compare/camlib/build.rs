//! Makes the root module of camlib's files. CAMLIB names the checkout; the default is
//! ../shared/docs/src, and a relative name counts from the repository's root.
//!
//! Package `plain` has every file as it stands in the checkout. Package `length` has stock.rs with
//! 01's length, as Req 03 of 02 has it, in the place of `hypot` and with `preview` cut in two, so that chords with
//! their sag can be handed in, and profile.rs with `within`, `eroded` and the order made public.
use std::path::{Path, PathBuf};
use std::{env, fs};

const SPLIT: &str = "        let flip = |p: [f64; 2]| match side {";
const SPLIT_HERE: &str = "        self.preview_segments(&segments, rn, side)
    }
    pub fn preview_segments(
        &self,
        segments: &[([f64; 2], [f64; 2], f64)],
        rn: f64,
        side: TurnSide,
    ) -> Result<Vec<TurnChange>, String> {
        let flip = |p: [f64; 2]| match side {";

/// Each change of a file: what stood there, exactly once, and what stands there now.
const STOCK: [(&str, &str); 3] = [
    (
        "let l = d[0].hypot(d[1]);",
        "let below = |x: f64| x.abs() < f64::from_bits(0x26F0_0000_0000_0000);
    let l = if below(d[0]) && below(d[1]) {
        let u = d.map(|x| x * f64::from_bits(0x6570_0000_0000_0000));
        (u[0] * u[0] + u[1] * u[1]).sqrt() * f64::from_bits(0x1A70_0000_0000_0000)
    } else {
        (d[0] * d[0] + d[1] * d[1]).sqrt()
    };",
    ),
    (SPLIT, SPLIT_HERE),
    ("in &segments {", "in segments {"),
];
const PROFILE: [(&str, &str); 3] = [
    ("    order: i8,", "    pub order: i8,"),
    (
        "    fn within(&self, lo: f64, hi: f64)",
        "    pub fn within(&self, lo: f64, hi: f64)",
    ),
    (
        "    fn eroded(&self, u: f64, tol: f64)",
        "    pub fn eroded(&self, u: f64, tol: f64)",
    ),
];

fn camlib() -> PathBuf {
    let here = PathBuf::from(env::var_os("CARGO_MANIFEST_DIR").unwrap());
    let root = here.ancestors().nth(3).unwrap();
    root.join(env::var_os("CAMLIB").unwrap_or("../shared/docs/src".into()))
}

fn read(path: &Path) -> String {
    fs::read_to_string(path).unwrap_or_else(|e| {
        panic!(
            "{}: {e}; CAMLIB is to name a camlib checkout",
            path.display()
        )
    })
}

fn changed(path: &Path, changes: &[(&str, &str)]) -> String {
    let mut text = read(path);
    for (old, new) in changes {
        let times = text.matches(old).count();
        assert!(times == 1, "{}: {times} times: {old}", path.display());
        text = text.replacen(old, new, 1);
    }
    text
}

fn main() {
    println!("cargo::rerun-if-env-changed=CAMLIB");
    let camlib = camlib();
    let out = PathBuf::from(env::var_os("OUT_DIR").unwrap());
    let file = |name: &str| camlib.join("src").join(name);
    let (mut stock, mut profile) = (file("turning/stock.rs"), file("turning/profile.rs"));
    for path in [&stock, &profile, &file("motion.rs"), &file("tool.rs")] {
        read(path);
        println!("cargo::rerun-if-changed={}", path.display());
    }
    if env::var("CARGO_PKG_NAME").unwrap() == "length" {
        let made = [
            (&mut stock, "stock.rs", &STOCK[..]),
            (&mut profile, "profile.rs", &PROFILE[..]),
        ];
        for (path, name, changes) in made {
            let text = changed(path, changes);
            *path = out.join(name);
            fs::write(path, text).unwrap();
        }
    }
    let module = |name: &str, path: &Path| format!("#[path = {path:?}]\npub mod {name};\n");
    let root = module("motion", &file("motion.rs"))
        + &module("tool", &file("tool.rs"))
        + "pub mod turning {\n"
        + &module("profile", &profile)
        + &module("stock", &stock)
        + "}\n";
    fs::write(out.join("camlib.rs"), root).unwrap();
}
