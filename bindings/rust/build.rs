// Links libsns_c.a, which `make staticlib` writes to crates/sns_c/out of the repository, or where LC3_SNS_LIB says.
use std::{env, path::PathBuf};

fn main() {
    let folder = env::var("LC3_SNS_LIB").map(PathBuf::from).unwrap_or_else(|_| {
        PathBuf::from(env::var("CARGO_MANIFEST_DIR").unwrap()).join("../../crates/sns_c/out")
    });
    println!("cargo:rerun-if-env-changed=LC3_SNS_LIB");
    println!("cargo:rustc-link-search=native={}", folder.display());
    println!("cargo:rustc-link-lib=static=sns_c");
}
