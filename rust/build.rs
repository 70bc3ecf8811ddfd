//! Tells the linker where the proved library's archive is, and stops where there is none or where it cannot be linked.

use std::env;
use std::path::{Path, PathBuf};
use std::process::exit;

fn main() {
    println!("cargo:rerun-if-changed=build.rs");
    println!("cargo:rerun-if-env-changed=OYSTERKNOLL_LIB_DIR");
    let folder = archive_folder();
    let archive = folder.join("liboysterknoll.a");
    println!("cargo:rerun-if-changed={}", archive.display());
    if !archive.is_file() {
        stop(&format!(
            "there is no {}. Make it at the root of the repository with `scripts/archive`, or name its folder in \
             OYSTERKNOLL_LIB_DIR",
            archive.display()
        ));
    }
    println!("cargo:rustc-link-search=native={}", folder.display());
    println!("cargo:rustc-link-lib=static=oysterknoll");
}

/// The folder named in OYSTERKNOLL_LIB_DIR, else the one that the archive for the target is made in, beside the crate.
fn archive_folder() -> PathBuf {
    let made_in = Path::new(env!("CARGO_MANIFEST_DIR")).join("../target/staticlib");
    let for_target = match target_processor().as_str() {
        "x86_64" => made_in,
        other => made_in.join(other),
    };
    env::var_os("OYSTERKNOLL_LIB_DIR").map_or(for_target, PathBuf::from)
}

/// The proved code is compiled for 64-bit Linux on x86-64 and on Arm, so there is no archive for another target.
fn target_processor() -> String {
    let of_target = |name: &str| env::var(format!("CARGO_CFG_TARGET_{name}")).unwrap_or_default();
    let processor = of_target("ARCH");
    let is_one = matches!(processor.as_str(), "x86_64" | "aarch64")
        && of_target("POINTER_WIDTH") == "64"
        && of_target("ENDIAN") == "little"
        && of_target("OS") == "linux";
    if !is_one {
        stop(&format!(
            "the proved library is code for 64-bit Linux on x86-64 or Arm, and this target is {}. Build with \
             --target x86_64-unknown-linux-gnu or --target aarch64-unknown-linux-gnu",
            env::var("TARGET").unwrap_or_default()
        ));
    }
    processor
}

fn stop(why: &str) -> ! {
    eprintln!("oysterknoll: {why}.");
    exit(1)
}
