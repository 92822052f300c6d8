//! Links the proved store.
//!
//! - `ONION_LIBRARY_FOLDER` is the folder that holds it, from the root or from the package's folder; unless set it is
//!   the repository's `target/lib`, where `make lib` puts it.
//! - `ONION_LINK` is `static` (libonion.a, unless set) or `dylib` (libonion.so, which must then be found when the
//!   program runs, for example by `LD_LIBRARY_PATH`).

use std::env;
use std::path::PathBuf;
use std::process::exit;

fn main() {
    println!("cargo:rerun-if-env-changed=ONION_LIBRARY_FOLDER");
    println!("cargo:rerun-if-env-changed=ONION_LINK");

    let folder = match env::var_os("ONION_LIBRARY_FOLDER") {
        Some(folder) => PathBuf::from(folder),
        None => PathBuf::from(env!("CARGO_MANIFEST_DIR")).join("../../target/lib"),
    };
    let link = env::var("ONION_LINK").unwrap_or_else(|_| "static".to_string());
    let name = match link.as_str() {
        "static" => "libonion.a",
        "dylib" => "libonion.so",
        _ => stop(&format!(
            "ONION_LINK is '{link}'; it must be 'static' or 'dylib'"
        )),
    };

    let library = folder.join(name);
    println!("cargo:rerun-if-changed={}", library.display());
    let folder = match folder.canonicalize() {
        Ok(folder) if library.is_file() => folder,
        _ => stop(&format!(
            "there is no {}: run make lib first",
            library.display()
        )),
    };
    println!("cargo:rustc-link-search=native={}", folder.display());
    println!("cargo:rustc-link-lib={link}=onion");
}

fn stop(sentence: &str) -> ! {
    eprintln!("{sentence}");
    exit(1)
}
