fn main() {
    let here = std::env::var("CARGO_MANIFEST_DIR").unwrap();
    println!("cargo:rustc-link-search=native={here}/../../crates/hatchraisin/out");
    println!("cargo:rustc-link-lib=static=hatchraisin");
    println!("cargo:rerun-if-changed={here}/../../crates/hatchraisin/out/libhatchraisin.a");
}
