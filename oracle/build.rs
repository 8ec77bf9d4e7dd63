// Names the given Rust files by their place, so that they are built unchanged and never copied.
use std::path::{Path, PathBuf};
use std::{env, fs};

// The folder given by LTPF_SOURCE, by default shared/docs/src beside the project.
fn source_folder() -> PathBuf {
    let here = env::var("CARGO_MANIFEST_DIR").expect("cargo sets the folder of the package");
    match env::var("LTPF_SOURCE") {
        Ok(folder) => PathBuf::from(folder),
        Err(_) => Path::new(&here).join("../../shared/docs/src"),
    }
}

fn main() {
    println!("cargo:rerun-if-env-changed=LTPF_SOURCE");
    let folder = source_folder();
    let folder = fs::canonicalize(&folder).unwrap_or_else(|_| {
        eprintln!(
            "no folder {}: LTPF_SOURCE must name the one that holds the given src/",
            folder.display()
        );
        std::process::exit(1)
    });
    let module = |file: &str, name: &str| {
        let path = folder.join("src").join(file);
        println!("cargo:rerun-if-changed={}", path.display());
        format!("    #[path = {:?}]\n    pub mod {};\n", path, name)
    };
    let text = format!(
        "pub mod encoder {{\n{}}}\npub mod decoder {{\n{}{}}}\npub const SOURCE: &str = {:?};\n",
        module("encoder/long_term_post_filter.rs", "long_term_post_filter"),
        module("decoder/long_term_post_filter.rs", "long_term_post_filter"),
        module("decoder/side_info.rs", "side_info"),
        folder,
    );
    let out = env::var("OUT_DIR").expect("cargo sets the folder for generated files");
    fs::write(Path::new(&out).join("given.rs"), text).expect("the generated file can be written");
}
