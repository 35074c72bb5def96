//! Passes on whether the original's text was found when its package was built.

fn main() {
    println!("cargo::rustc-check-cfg=cfg(have_original)");
    println!("cargo::rerun-if-changed=build.rs");
    println!("cargo::rerun-if-env-changed=DEP_VSSS_RS_TEXT_PRESENT");
    if std::env::var_os("DEP_VSSS_RS_TEXT_PRESENT").is_some() {
        println!("cargo::rustc-cfg=have_original");
    }
}
