// Links the archive that `rt lib --cpu x86-64` writes in crates/firmware. PULFREDAN_LIB names the folder that holds it, best one of its
// own; a relative name counts from this package's folder, where cargo runs this program. Cargo goes by dates: an archive newer than the
// last build is linked anew, and so is an older one that is moved or unpacked into the folder, since that dates the folder. An older one
// that is copied over the archive and keeps its date goes unnoticed: `touch` it.
use std::{env, path};

fn main() {
    let named = env::var_os("PULFREDAN_LIB").unwrap_or_else(|| "../../crates/firmware/out".into());
    let folder = path::absolute(named).expect("PULFREDAN_LIB names a folder");
    let archive = folder.join("libfirmware.a");
    assert!(
        archive.exists(),
        "there is no {}: `rt lib --cpu x86-64` in crates/firmware writes it; a relative PULFREDAN_LIB counts from {}",
        archive.display(),
        env!("CARGO_MANIFEST_DIR")
    );
    println!("cargo:rerun-if-env-changed=PULFREDAN_LIB");
    println!("cargo:rerun-if-changed={}", folder.display());
    println!("cargo:rustc-link-search=native={}", folder.display());
    println!("cargo:rustc-link-lib=static=firmware");
}
