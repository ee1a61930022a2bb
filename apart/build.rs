// `compare` and `runner` call the proved library, so only they are linked with it, and only `compare` with the function for comparing lookups.
fn main() {
    let here = std::env::var("CARGO_MANIFEST_DIR").unwrap();
    let folder = format!("{here}/../target/staticlib");
    // The folder, since a file that is not there would build everything anew each time.
    println!("cargo:rerun-if-changed={folder}");
    println!("cargo:rustc-link-arg-bin=compare={folder}/libbenchmark.a");
    println!("cargo:rustc-link-arg-bin=compare={folder}/libsofaduck.a");
    println!("cargo:rustc-link-arg-bin=runner={folder}/libsofaduck.a");
}
