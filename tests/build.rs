//! Links the archive that `make lib` writes or, with SPG_FORM=c, the one that `make lib-c` makes of
//! portable/spargolutta.c: one suite, two libraries.

use std::env;

fn main() {
    let form = env::var("SPG_FORM").unwrap_or_default();
    let folder = match form.as_str() {
        "" => "staticlib",
        "c" => "portable",
        other => panic!("SPG_FORM is {other}: it can be c, or nothing for the archive"),
    };
    let folder = format!("{}/../target/{folder}", env!("CARGO_MANIFEST_DIR"));
    println!("cargo:rustc-link-search=native={folder}");
    println!("cargo:rustc-link-lib=static=spargolutta");
    println!("cargo:rustc-env=SPG_FOLDER={folder}");
    println!("cargo:rerun-if-changed={folder}/libspargolutta.a");
    println!("cargo:rerun-if-env-changed=SPG_FORM");
}
