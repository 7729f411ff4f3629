//! Links the plain engine's proved archive, which stands in the folder of the gate's.

use std::env;
use std::path::PathBuf;
use std::process::exit;

fn main() {
    let folder = env::var_os("DEP_PRESSCURLEW_LIB_DIR").expect("the package presscurlew names it");
    let folder = PathBuf::from(folder);
    // In a release it has the name of what it is, in the repository that of its crate.
    let names = ["presscurlew_plain", "plainhost"];
    let archive = |name: &&&str| folder.join(format!("lib{name}.a")).exists();
    let Some(name) = names.iter().find(archive) else {
        eprintln!(
            "plainhost: there is no libplainhost.a in {}",
            folder.display()
        );
        eprintln!("  run `make target/staticlib/libplainhost.a`, which needs the Rattle kit");
        exit(1);
    };
    println!("cargo::rustc-link-search=native={}", folder.display());
    println!(
        "cargo::rerun-if-changed={}",
        folder.join(format!("lib{name}.a")).display()
    );
    println!("cargo::rustc-link-lib=static={name}");
}
