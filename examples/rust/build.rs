//! Links libvoskligan.a, from the folder that VOSKLIGAN_LIB names.
fn main() {
    let folder = std::env::var("VOSKLIGAN_LIB").expect("VOSKLIGAN_LIB names the folder of libvoskligan.a");
    println!("cargo:rerun-if-env-changed=VOSKLIGAN_LIB");
    println!("cargo:rerun-if-changed={folder}/libvoskligan.a");
    println!("cargo:rustc-link-search=native={folder}");
    println!("cargo:rustc-link-lib=static=voskligan");
}
