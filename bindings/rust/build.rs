//! Finds the library: in BAGUNJOKI_PREFIX, where `tools/bindings --prefix` has put it, or else by pkg-config. The shared library is taken, or
//! with BAGUNJOKI_STATIC the other one.
use std::env;
use std::process::{Command, exit};

fn main() {
    println!("cargo::rerun-if-env-changed=BAGUNJOKI_PREFIX");
    println!("cargo::rerun-if-env-changed=BAGUNJOKI_STATIC");
    let folder = match env::var("BAGUNJOKI_PREFIX") {
        Ok(prefix) => format!("{prefix}/lib"),
        Err(_) => by_pkg_config(),
    };
    let kind = if env::var_os("BAGUNJOKI_STATIC").is_some() { "static" } else { "dylib" };
    println!("cargo::rustc-link-search=native={folder}");
    println!("cargo::rustc-link-lib={kind}=bagunjoki");
    if env::var_os("CARGO_FEATURE_PLAN").is_some() {
        println!("cargo::rustc-link-lib={kind}=bagunjoki_plan");
    }
}

fn by_pkg_config() -> String {
    let program = env::var("PKG_CONFIG").unwrap_or("pkg-config".into());
    match Command::new(program).args(["--variable=libdir", "bagunjoki"]).output() {
        Ok(said) if said.status.success() => String::from_utf8_lossy(&said.stdout).trim().to_owned(),
        _ => {
            eprintln!("there is no library bagunjoki: run `tools/bindings --prefix DIR`, and set BAGUNJOKI_PREFIX to DIR");
            exit(1)
        }
    }
}
