//! Links libfanughespu.a from the folder that FANUGHESPU_LIB names.
fn main() {
    println!("cargo:rerun-if-env-changed=FANUGHESPU_LIB");
    let folder = std::env::var("FANUGHESPU_LIB").expect("FANUGHESPU_LIB: the folder of libfanughespu.a");
    println!("cargo:rerun-if-changed={folder}/libfanughespu.a");
    println!("cargo:rustc-link-search=native={folder}");
    println!("cargo:rustc-link-lib=static=fanughespu");
}
