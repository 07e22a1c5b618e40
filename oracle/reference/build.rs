// Where the Rust stands, and as files the oracle in force (changes.rs), the Rust with request P1 alone, and as it was before request P9.
include!("changes.rs");

fn main() {
    println!("cargo:rerun-if-changed=changes.rs");
    println!("cargo:rustc-env=RUST_SRC={}", sources().display());
    let out = PathBuf::from(std::env::var_os("OUT_DIR").unwrap());
    std::fs::write(out.join("in_force.rs"), in_force()).unwrap();
    std::fs::write(out.join("p1_alone.rs"), with(&["P1"])).unwrap();
    std::fs::write(out.join("before_p9.rs"), with(&["P4", "P1"])).unwrap();
}
