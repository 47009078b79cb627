//! Links `libtongsthyme.a`, which is in the folder of the environment variable `TONGSTHYME_LIBRARY`, or where the linker looks for
//! libraries.

fn main() {
    println!("cargo:rerun-if-env-changed=TONGSTHYME_LIBRARY");
    match std::env::var("TONGSTHYME_LIBRARY") {
        Ok(folder) => {
            println!("cargo:rerun-if-changed={folder}/libtongsthyme.a");
            println!("cargo:rustc-link-search=native={folder}");
        }
        Err(_) => println!("cargo:warning=TONGSTHYME_LIBRARY names no folder: `tongsthyme library DIR` makes one with libtongsthyme.a"),
    }
    println!("cargo:rustc-link-lib=static=tongsthyme");
}
