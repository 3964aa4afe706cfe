//! Lays out, in the build directory, a tree of links: each published file under the path that its
//! repository gives it, and beside them the stand-ins for modules that aren't published. The compiler
//! reads the published text where it stands; nothing is copied.

use std::path::{Path, PathBuf};
use std::{env, fs};

/// The published files that the harness compiles, unchanged.
const PUBLISHED: &[&str] = &[
    "components/car_call.rs",
    "components/elevator.rs",
    "components/hall_call.rs",
    "components/line.rs",
    "components/position.rs",
    "components/rider.rs",
    "components/route.rs",
    "components/stop.rs",
    "components/units.rs",
    "dispatch/assignment.rs",
    "dispatch/etd.rs",
    "dispatch/manifest.rs",
    "dispatch/mod.rs",
    "dispatch/rsr.rs",
    "dispatch/scan.rs",
    "dispatch/sweep.rs",
    "door.rs",
    "eta.rs",
    "fp.rs",
    "ids.rs",
    "time.rs",
    "traffic_detector.rs",
    "world.rs",
];

/// What isn't published, in tools/oracle/standins.
const STANDINS: &[&str] = &[
    "arrival_log.rs",
    "components/mod.rs",
    "dispatch/destination.rs",
    "dispatch/look.rs",
    "dispatch/nearest_car.rs",
    "dispatch/reposition.rs",
    "dispatch/scratch.rs",
    "entity.rs",
    "query.rs",
];

/// Modules of the crate's root.
const ROOT: &[&str] = &[
    "arrival_log",
    "components",
    "dispatch",
    "door",
    "entity",
    "eta",
    "fp",
    "ids",
    "query",
    "time",
    "traffic_detector",
    "world",
];

fn link(from: &Path, to: &Path) {
    fs::create_dir_all(to.parent().unwrap()).unwrap();
    let _ = fs::remove_file(to);
    std::os::unix::fs::symlink(from, to).unwrap();
}

fn main() {
    let here = PathBuf::from(env::var("CARGO_MANIFEST_DIR").unwrap());
    let out = PathBuf::from(env::var("OUT_DIR").unwrap());
    println!("cargo:rerun-if-env-changed=ELEVATOR_CORE_SRC");
    let Some(place) = env::var_os("ELEVATOR_CORE_SRC").map(PathBuf::from) else {
        eprintln!(
            "The published files of elevator-core are not named: set ELEVATOR_CORE_SRC to the folder that \
             holds crates/elevator-core/src."
        );
        std::process::exit(1);
    };
    let source = place.join("crates/elevator-core/src");
    let missing: Vec<_> = PUBLISHED
        .iter()
        .filter(|f| !source.join(f).is_file())
        .collect();
    if !missing.is_empty() {
        eprintln!(
            "The published files of elevator-core are not at {}:\n  missing: {}\n\
             Set ELEVATOR_CORE_SRC to the folder that holds crates/elevator-core/src.",
            place.display(),
            missing
                .iter()
                .map(|f| f.to_string())
                .collect::<Vec<_>>()
                .join(", ")
        );
        std::process::exit(1);
    }
    let source = source.canonicalize().unwrap();
    let tree = out.join("elevator_core");
    for f in PUBLISHED {
        println!("cargo:rerun-if-changed={}", source.join(f).display());
        link(&source.join(f), &tree.join(f));
    }
    for f in STANDINS {
        let from = here.join("standins").join(f);
        println!("cargo:rerun-if-changed={}", from.display());
        link(&from, &tree.join(f));
    }
    let mut root = String::new();
    for m in ROOT {
        let single = tree.join(format!("{m}.rs"));
        let file = if single.exists() {
            single
        } else {
            tree.join(m).join("mod.rs")
        };
        root += &format!("#[allow(dead_code, unused_imports)]\n#[path = {file:?}]\npub mod {m};\n");
    }
    fs::write(out.join("published.rs"), root).unwrap();
    println!("cargo:rustc-env=PUBLISHED_SOURCE={}", source.display());
}
