// Tells the linker where libsakonite.a is, for the programs that call it.

use std::env;
use std::path::Path;

fn main() {
    println!("cargo::rerun-if-env-changed=SAKONITE_LIBRARY");
    if env::var_os("CARGO_FEATURE_LIBRARY").is_some() {
        let library = env::var("SAKONITE_LIBRARY").expect("SAKONITE_LIBRARY is the path of libsakonite.a");
        let folder = Path::new(&library).parent().expect("a path with a folder");
        println!("cargo::rerun-if-changed={library}");
        println!("cargo::rustc-link-search=native={}", folder.display());
    }
}
