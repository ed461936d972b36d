//! Passes on what the crate `mishantral` found: the proved engine, the reader of OPL/XML, and the call that writes a policy out.

fn main() {
    println!("cargo:rerun-if-changed=build.rs");
    for (told, cfg) in [
        ("DEP_MISHANTRAL_ENGINE", "mishantral_engine"),
        ("DEP_MISHANTRAL_OPL", "mishantral_opl"),
        ("DEP_MISHANTRAL_OPL_ALL", "mishantral_opl_all"),
        ("DEP_MISHANTRAL_WRITE", "mishantral_write"),
    ] {
        println!("cargo:rustc-check-cfg=cfg({cfg})");
        if std::env::var_os(told).is_some() {
            println!("cargo:rustc-cfg={cfg}");
        }
    }
}
