// A copy of the oracle in force (reference/changes.rs) for each slip, with the slip's replacements made, as modules of one file; each replacement must
// match once.
include!("../reference/changes.rs");
include!("slips.rs");

fn main() {
    for file in ["slips.rs", "../reference/changes.rs", "../reference/src/options.rs", "../reference/src/asked.rs"] {
        println!("cargo:rerun-if-changed={file}");
    }
    let asked = concat!(include_str!("../reference/src/options.rs"), include_str!("../reference/src/asked.rs"));
    let mut modules = String::new();
    let mut table = String::from("pub const SLIPS: &[Slip] = &[\n");
    for (slips, weighed) in [(SLIPS, false), (WORKLOAD_SLIPS, true)] {
        for (name, what, replacements) in slips {
            let copy = replaced(in_force(), name, replacements);
            modules += &format!("#[allow(dead_code, unused)]\npub mod {name} {{\n{copy}\n{asked}}}\n");
            table +=
                &format!("    Slip {{ name: {name:?}, what: {what:?}, weighed: {weighed}, asked: {name}::asked }},\n");
        }
    }
    let out = PathBuf::from(std::env::var_os("OUT_DIR").unwrap()).join("copies.rs");
    std::fs::write(out, modules + &table + "];\n").unwrap();
}
