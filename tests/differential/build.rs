fn main() {
    println!("cargo::rustc-check-cfg=cfg(oracle)");
    println!("cargo::rerun-if-changed=build.rs");
    if std::env::var_os("DEP_ORACLE_PRESENT").is_some() {
        println!("cargo::rustc-cfg=oracle");
    }
}
