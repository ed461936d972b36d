//! Passes on what the crate `mishantral` found: the proved library, and in it the reader of OPL/XML.

fn main() {
    println!("cargo:rerun-if-changed=build.rs");
    for part in ["engine", "opl"] {
        println!("cargo:rustc-check-cfg=cfg(mishantral_{part})");
        let told = format!("DEP_MISHANTRAL_{}", part.to_uppercase());
        if std::env::var_os(told).is_some() {
            println!("cargo:rustc-cfg=mishantral_{part}");
        }
    }
}
