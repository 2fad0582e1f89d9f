//! Links the C libraries barrier_c and recording_c; OCB_LIBRARY is their folder.
fn main() {
    println!("cargo:rerun-if-env-changed=OCB_LIBRARY");
    let folder = std::env::var("OCB_LIBRARY").expect("OCB_LIBRARY: the folder of libbarrier_c.a and librecording_c.a");
    println!("cargo:rustc-link-search=native={folder}");
    for library in ["recording_c", "barrier_c"] {
        println!("cargo:rerun-if-changed={folder}/lib{library}.a");
        println!("cargo:rustc-link-lib=static={library}");
    }
}
