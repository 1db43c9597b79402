//! Links the proved archive (MILUNOVESK_ARCHIVE, a path of libmilunovesk_c.a) and the kit's bridge to the C library's heap (MILUNOVESK_HEAP, a
//! path of liblibc_c.a).
use std::env;
use std::path::Path;

fn main() {
    for name in ["MILUNOVESK_ARCHIVE", "MILUNOVESK_HEAP"] {
        println!("cargo:rerun-if-env-changed={name}");
        let path = env::var(name).unwrap_or_else(|_| panic!("{name} names no archive"));
        println!("cargo:rerun-if-changed={path}");
        let path = Path::new(&path);
        let folder = path.parent().expect("a folder").display();
        let file = path
            .file_stem()
            .and_then(|name| name.to_str())
            .expect("a name");
        let library = file
            .strip_prefix("lib")
            .expect("a name that begins with lib");
        println!("cargo:rustc-link-search=native={folder}");
        println!("cargo:rustc-link-lib=static={library}");
    }
}
