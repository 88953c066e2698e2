//! Links an archive of the C boundary. `EVTCHN_FIFO_ARCHIVE` names it; without it, it is the one
//! that `make lib` leaves in the repository's target folder.

use std::env;
use std::path::{Path, PathBuf};

const VARIABLE: &str = "EVTCHN_FIFO_ARCHIVE";
const DEFAULT: &str = "../../target/lib/libevtchn_fifo.a";

fn main() {
    println!("cargo:rerun-if-env-changed={VARIABLE}");
    println!("cargo:rerun-if-changed=build.rs");
    let archive = PathBuf::from(env::var_os(VARIABLE).unwrap_or_else(|| DEFAULT.into()));
    println!("cargo:rerun-if-changed={}", archive.display());
    let Ok(found) = archive.canonicalize() else {
        fail(&format!(
            "there is no archive at {}: run `make lib`, or name it in {VARIABLE}",
            archive.display()
        ));
    };
    let (Some(folder), Some(name)) = (found.parent(), library_name(&found)) else {
        fail(&format!("{VARIABLE} must name a file lib….a"));
    };
    println!("cargo:rustc-link-search=native={}", folder.display());
    println!("cargo:rustc-link-lib=static={name}");
}

/// The linker's name of an archive: its file's name without `lib` and `.a`.
fn library_name(archive: &Path) -> Option<&str> {
    let file = archive.file_name()?.to_str()?;
    file.strip_prefix("lib")?.strip_suffix(".a")
}

fn fail(text: &str) -> ! {
    eprintln!("evtchn-fifo-host: {text}");
    std::process::exit(1);
}
