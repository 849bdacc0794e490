//! Links the static library. `STM_LIB_DIR` names a folder of `libstm.a` (as `./stm --library` builds it, or a package has
//! it), or else of `libstm_c.a` (as `rt lib` builds it) and of `libstm_heap.a` (made of `heap.c` and `service.c` in
//! `bindings/c`). Where it is not set, `pkg-config` is asked where the library lies.
use std::path::Path;
use std::process::Command;

/// Where `pkg-config` says that the library lies.
fn asked() -> Option<String> {
    let told = Command::new("pkg-config").args(["--variable=libdir", "stm"]).output().ok()?;
    let dir = String::from_utf8(told.stdout).ok()?.trim().replace("\\ ", " ");
    (told.status.success() && !dir.is_empty()).then_some(dir)
}

fn main() {
    let Some(dir) = std::env::var("STM_LIB_DIR").ok().or_else(asked) else {
        panic!("set STM_LIB_DIR to the folder of libstm.a, or PKG_CONFIG_PATH to that of stm.pc");
    };
    let whole = Path::new(&dir).join("libstm.a").exists();
    let libraries: &[&str] = if whole { &["stm"] } else { &["stm_c", "stm_heap"] };
    println!("cargo:rustc-link-search=native={dir}");
    for name in libraries {
        println!("cargo:rustc-link-lib=static={name}");
        println!("cargo:rerun-if-changed={dir}/lib{name}.a");
    }
    println!("cargo:rerun-if-env-changed=STM_LIB_DIR");
    println!("cargo:rerun-if-env-changed=PKG_CONFIG_PATH");
}
