fn main() {
    let library = std::env::var("PAGE_CHECK_LIBRARY").expect("PAGE_CHECK_LIBRARY names the folder of the static library");
    println!("cargo:rustc-link-search=native={library}");
    println!("cargo:rustc-link-lib=static=exports");
    println!("cargo:rerun-if-changed={library}/libexports.a");
    println!("cargo:rerun-if-env-changed=PAGE_CHECK_LIBRARY");
}
