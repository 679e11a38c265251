//! Links the archive of `rd_c` and the C part of the kit's heap, from the folders that RD_ARCHIVES names, with `:` between them.
fn main() {
    println!("cargo:rerun-if-env-changed=RD_ARCHIVES");
    let folders = std::env::var("RD_ARCHIVES").expect("RD_ARCHIVES names the folders of librd_c.a and liblibc_c.a");
    for folder in folders.split(':') {
        println!("cargo:rustc-link-search=native={folder}");
    }
    println!("cargo:rustc-link-lib=static=rd_c");
    println!("cargo:rustc-link-lib=static=libc_c");
}
