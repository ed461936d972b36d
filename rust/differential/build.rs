//! Passes on what the crate `mishantral` found: the proved library, and that of the lower part.

fn main() {
    println!("cargo:rerun-if-changed=build.rs");
    for (told, cfg) in [
        ("DEP_MISHANTRAL_ENGINE", "mishantral_engine"),
        ("DEP_MISHANTRAL_LOWER", "mishantral_lower"),
        ("DEP_MISHANTRAL_PILE", "mishantral_pile"),
        ("DEP_MISHANTRAL_WRITE", "mishantral_write"),
        ("DEP_MISHANTRAL_LOWER_WRITE", "mishantral_lower_write"),
        ("DEP_MISHANTRAL_MEND", "mishantral_mend"),
        (
            "DEP_MISHANTRAL_SETTLED_REQUEST",
            "mishantral_settled_request",
        ),
    ] {
        println!("cargo:rustc-check-cfg=cfg({cfg})");
        if std::env::var_os(told).is_some() {
            println!("cargo:rustc-cfg={cfg}");
        }
    }
}
