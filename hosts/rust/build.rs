//! Tells cargo where libdesk.a is: in the folder that DESK_LIB_DIR names; else where this crate lies in the repository or in
//! an installed release, beside it.

use std::path::{Path, PathBuf};
use std::{env, process};

/// From this crate's folder: in the repository, and in a release, where the crate is in share/kaaravizhe/rust.
const PLACES: [&str; 2] = ["../../target/library", "../../../lib"];

const LIBRARY: &str = "libdesk.a";

fn main() {
    println!("cargo:rerun-if-env-changed=DESK_LIB_DIR");
    match found() {
        Ok(folder) => {
            println!("cargo:rerun-if-changed={}", folder.join(LIBRARY).display());
            println!("cargo:rustc-link-search=native={}", folder.display());
        }
        Err(why) => {
            eprintln!("{why}");
            process::exit(1);
        }
    }
}

/// The folder with the library, or what has to be done so that there is one.
fn found() -> Result<PathBuf, String> {
    let [system, machine] = ["OS", "ARCH"].map(|what| env::var(format!("CARGO_CFG_TARGET_{what}")).unwrap_or_default());
    if (&system[..], &machine[..]) != ("linux", "x86_64") {
        return Err(format!("the desk's library is for Linux on x86-64, and not for {system} on {machine}: build with --target x86_64-unknown-linux-gnu"));
    }
    if let Some(folder) = env::var_os("DESK_LIB_DIR") {
        let folder = PathBuf::from(folder);
        return match folder.join(LIBRARY).is_file() {
            true => Ok(folder),
            false => Err(format!("there is no {LIBRARY} in {}, which DESK_LIB_DIR names", folder.display())),
        };
    }
    let crate_folder = env::var_os("CARGO_MANIFEST_DIR").unwrap_or_default();
    let places = PLACES.iter().map(|place| Path::new(&crate_folder).join(place));
    let mut places = places.filter(|place| place.join(LIBRARY).is_file());
    places.next().ok_or_else(|| {
        format!("there is no {LIBRARY}: run 'bash hosts/library' in the repository, or set DESK_LIB_DIR to the folder that has it")
    })
}
