//! Says where the two C libraries are: in the folder that `NEEDLEOAT_LIBRARIES` names.

use std::path::Path;
use std::process::exit;

const FOLDER: &str = "NEEDLEOAT_LIBRARIES";
const LIBRARIES: [&str; 2] = ["needleoat_c", "needleoat_wire_c"];

fn main() {
    println!("cargo:rerun-if-env-changed={FOLDER}");
    let Ok(folder) = std::env::var(FOLDER) else {
        eprintln!("{FOLDER} has to name the folder with libneedleoat_c.a and libneedleoat_wire_c.a of the target");
        exit(1);
    };
    println!("cargo:rustc-link-search=native={folder}");
    for library in LIBRARIES {
        let file = Path::new(&folder).join(format!("lib{library}.a"));
        if !file.is_file() {
            eprintln!("{FOLDER} names a folder without {}", file.display());
            exit(1);
        }
        println!("cargo:rerun-if-changed={}", file.display());
        println!("cargo:rustc-link-lib=static={library}");
    }
}
