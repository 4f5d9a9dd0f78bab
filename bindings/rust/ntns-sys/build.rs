//! Links libntns: the archive in the folder that NTNS_LIB_DIR names, as `make lib` leaves one in out/, else the library that the linker finds.

fn main() {
    println!("cargo:rerun-if-env-changed=NTNS_LIB_DIR");
    match std::env::var("NTNS_LIB_DIR") {
        Ok(folder) => {
            println!("cargo:rustc-link-search=native={folder}");
            println!("cargo:rustc-link-lib=static=ntns");
        }
        Err(_) => println!("cargo:rustc-link-lib=ntns"),
    }
}
