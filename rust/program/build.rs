//! The program is nothing without the proved library: where its archive is missing, the build ends with how to make it.
//! Whether that archive has the calls that write a policy out and mend a file, the crate `mishantral` says.

fn main() {
    println!("cargo:rerun-if-changed=build.rs");
    if std::env::var_os("DEP_MISHANTRAL_ENGINE").is_none() {
        eprintln!(
            "the proved library is not there: run tools/archive, or tools/program, which does all"
        );
        std::process::exit(1);
    }
    for (told, cfg) in [
        ("DEP_MISHANTRAL_WRITE", "mishantral_write"),
        ("DEP_MISHANTRAL_MEND", "mishantral_mend"),
    ] {
        println!("cargo:rustc-check-cfg=cfg({cfg})");
        if std::env::var_os(told).is_some() {
            println!("cargo:rustc-cfg={cfg}");
        }
    }
}
