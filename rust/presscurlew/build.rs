//! Links the proved archives for the target: libpresscurlew.a of a release, or the four that it is made of, as `make lib`
//! has them in the repository. The environment's PRESSCURLEW_LIB_DIR names the folder, if it is another one.

use std::env;
use std::path::{Path, PathBuf};
use std::process::exit;

/// What libpresscurlew.a gathers.
const PARTS: [&str; 4] = ["cstack", "host", "calllog", "floats"];

/// How Rust's name of a target begins, and its folder below lib of a release and below target of the repository.
const TARGETS: [(&str, &str, &str); 8] = [
    ("x86_64-unknown-linux-", "x86_64-linux-gnu", "staticlib"),
    (
        "aarch64-unknown-linux-",
        "aarch64-linux-gnu",
        "boards/aarch64",
    ),
    (
        "armv7-unknown-linux-gnueabihf",
        "arm-linux-gnueabihf",
        "boards/armv7hf",
    ),
    (
        "riscv64gc-unknown-linux-",
        "riscv64-linux-gnu",
        "boards/riscv64",
    ),
    ("thumbv7em-none-eabihf", "cortex-m4f", "boards/cortex-m4f"),
    ("thumbv7em-none-eabi", "cortex-m4", "boards/cortex-m4"),
    ("thumbv7m-none-eabi", "cortex-m3", "boards/cortex-m3"),
    ("thumbv6m-none-eabi", "cortex-m0", "boards/cortex-m0"),
];

/// The folder that the environment names, or else that of the release or the repository which this package stands in.
fn folder() -> PathBuf {
    println!("cargo::rerun-if-env-changed=PRESSCURLEW_LIB_DIR");
    let named = env::var_os("PRESSCURLEW_LIB_DIR").filter(|folder| !folder.is_empty());
    if let Some(named) = named {
        return named.into();
    }
    let package = env::var_os("CARGO_MANIFEST_DIR").expect("cargo names the package's folder");
    let target = env::var("TARGET").expect("cargo names the target");
    let Some((_, release, repository)) = TARGETS.iter().find(|(name, ..)| target.starts_with(name))
    else {
        eprintln!("presscurlew: there are no archives for {target}");
        eprintln!("  if you have some: set PRESSCURLEW_LIB_DIR to their folder");
        exit(1);
    };
    let release = Path::new(&package).join("../../lib").join(release);
    if has(&release, "presscurlew") {
        return release;
    }
    Path::new(&package).join("../../target").join(repository)
}

fn has(folder: &Path, name: &str) -> bool {
    folder.join(format!("lib{name}.a")).exists()
}

fn main() {
    let folder = folder();
    let whole = has(&folder, "presscurlew");
    let names: &[&str] = if whole { &["presscurlew"] } else { &PARTS };
    if let Some(missing) = names.iter().find(|name| !has(&folder, name)) {
        eprintln!(
            "presscurlew: there is no libpresscurlew.a in {}, and no lib{missing}.a",
            folder.display()
        );
        eprintln!(
            "  of a release: set PRESSCURLEW_LIB_DIR to the folder of your target, below its lib"
        );
        eprintln!("  in the repository: run `make lib`, for another target `make boards`; they need the Rattle kit");
        exit(1);
    }
    println!("cargo::rustc-link-search=native={}", folder.display());
    for name in names {
        println!(
            "cargo::rerun-if-changed={}",
            folder.join(format!("lib{name}.a")).display()
        );
        println!("cargo::rustc-link-lib=static={name}");
    }
    // For packages that link archives of the same folder: DEP_PRESSCURLEW_LIB_DIR.
    println!("cargo::metadata=lib_dir={}", folder.display());
}
