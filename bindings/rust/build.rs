//! Where libexports.a is: the folder in WENTUHORO_LIBRARY, or the one that `bindings/library` writes to.
fn main() {
    let built_here = concat!(env!("CARGO_MANIFEST_DIR"), "/../../target/staticlib");
    let library = std::env::var("WENTUHORO_LIBRARY").unwrap_or_else(|_| built_here.into());
    println!("cargo:rustc-link-search=native={library}");
    println!("cargo:rustc-link-lib=static=exports");
    println!("cargo:rerun-if-changed={library}/libexports.a");
    println!("cargo:rerun-if-env-changed=WENTUHORO_LIBRARY");
}
