//! Finds the original Rust and hands its place to the compiler.
use std::env;
use std::path::PathBuf;

fn main() {
    println!("cargo:rerun-if-env-changed=MARWOOD_SRC");
    println!("cargo:rerun-if-changed=build.rs");
    let here = PathBuf::from(env::var("CARGO_MANIFEST_DIR").unwrap());
    let given = here.join(env::var("MARWOOD_SRC").expect("set MARWOOD_SRC to the original's folder"));
    // Either the folder that holds `marwood/src`, or that folder itself.
    let place = [given.join("marwood/src"), given.clone()]
        .into_iter()
        .find(|it| it.join("vm/heap.rs").is_file())
        .unwrap_or_else(|| {
            panic!(
                "no marwood/src/vm/heap.rs under {}; set MARWOOD_SRC",
                given.display()
            )
        });
    let place = place.canonicalize().unwrap();
    let files = [
        "cell.rs",
        "vm/compare.rs",
        "vm/continuation.rs",
        "vm/environment.rs",
        "vm/gc.rs",
        "vm/heap.rs",
        "vm/lambda.rs",
        "vm/stack.rs",
        "vm/vcell.rs",
        "vm/vector.rs",
    ];
    for file in files {
        println!("cargo:rerun-if-changed={}", place.join(file).display());
    }
    println!("cargo:rustc-env=MARWOOD={}", place.display());
    if env::var("CARGO_FEATURE_PORT").is_ok() {
        let library = here.join("../target/staticlib/libc_doors.a");
        println!("cargo:rerun-if-changed={}", library.display());
        println!("cargo:rustc-link-arg-bin=beside={}", library.display());
    }
}
