fn main() {
    let here = std::env::var("CARGO_MANIFEST_DIR").unwrap();
    println!("cargo:rustc-link-search=native={here}/target");
    for name in ["first", "second"] {
        println!("cargo:rustc-link-lib=static={name}");
        println!("cargo:rerun-if-changed={here}/target/lib{name}.a");
    }
}
