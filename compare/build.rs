// Links the archives that tools/staticlib wrote for this machine: no name that one defines for others is defined by the other.
fn main() {
    let native = format!("{}/../target/native", std::env::var("CARGO_MANIFEST_DIR").unwrap());
    println!("cargo:rustc-link-search=native={native}");
    for name in ["exports", "climboat"] {
        println!("cargo:rustc-link-lib=static={name}");
        println!("cargo:rerun-if-changed={native}/lib{name}.a");
    }
}
