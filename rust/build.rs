//! Links libfluviquen.a from the folder that FLUVIQUEN_LIB names, or from ../target/staticlib.

fn main() {
    println!("cargo::rerun-if-env-changed=FLUVIQUEN_LIB");
    let folder = std::env::var("FLUVIQUEN_LIB")
        .unwrap_or_else(|_| concat!(env!("CARGO_MANIFEST_DIR"), "/../target/staticlib").into());
    let library = format!("{folder}/libfluviquen.a");
    println!("cargo::rerun-if-changed={library}");
    if !std::path::Path::new(&library).is_file() {
        println!(
            "cargo::error=libfluviquen.a is not in {folder}: \
             run tools/build, or set FLUVIQUEN_LIB to its folder"
        );
        return;
    }
    println!("cargo::rustc-link-search=native={folder}");
    println!("cargo::rustc-link-lib=static=fluviquen");
}
