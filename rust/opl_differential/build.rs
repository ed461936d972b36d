//! Passes on what the crate `mishantral` found: the proved reader of OPL/XML, and that of all sections.

fn main() {
    println!("cargo:rerun-if-changed=build.rs");
    for (told, cfg) in [
        ("DEP_MISHANTRAL_OPL", "mishantral_opl"),
        ("DEP_MISHANTRAL_OPL_ALL", "mishantral_opl_all"),
    ] {
        println!("cargo:rustc-check-cfg=cfg({cfg})");
        if std::env::var_os(told).is_some() {
            println!("cargo:rustc-cfg={cfg}");
        }
    }
}
