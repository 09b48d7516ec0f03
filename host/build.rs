//! Links the proved library where the environment names the folder it lies in:
//! `HOST_LIB=folder` with `libboundary.a` inside, taken from the crate's folder
//! if it is not absolute.

fn main() {
    println!("cargo:rerun-if-env-changed=HOST_LIB");
    println!("cargo:rustc-check-cfg=cfg(library_linked)");
    let Some(folder) = std::env::var_os("HOST_LIB").filter(|folder| !folder.is_empty()) else {
        return;
    };
    let here = std::env::var_os("CARGO_MANIFEST_DIR").expect("cargo names the crate's folder");
    let folder = std::path::Path::new(&here).join(folder);
    println!("cargo:rustc-link-search=native={}", folder.display());
    println!("cargo:rustc-link-lib=static=boundary");
    println!("cargo:rerun-if-changed={}", folder.join("libboundary.a").display());
    println!("cargo:rustc-cfg=library_linked");
}
