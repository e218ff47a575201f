//! Links libmode_s.a from the folder that MODE_S_LIB names.

fn main() {
    println!("cargo:rerun-if-env-changed=MODE_S_LIB");
    let folder = std::env::var("MODE_S_LIB").expect("MODE_S_LIB names the folder of libmode_s.a");
    println!("cargo:rerun-if-changed={folder}/libmode_s.a");
    println!("cargo:rustc-link-search=native={folder}");
    println!("cargo:rustc-link-lib=static=mode_s");
}
