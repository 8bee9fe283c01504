//! Links libhekaton.a from the folder that HEKATON_LIB names, else from where the linker looks.
fn main() {
    println!("cargo:rerun-if-env-changed=HEKATON_LIB");
    if let Ok(folder) = std::env::var("HEKATON_LIB") {
        println!("cargo:rustc-link-search=native={folder}");
    }
    println!("cargo:rustc-link-lib=static=hekaton");
}
