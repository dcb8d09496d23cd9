//! Links the proved player, and the C functions that it stands on. `bench/run` names both libraries.

use std::env;

fn main() {
    for name in ["PLAYER_LIB", "KIT_LIB"] {
        println!("cargo:rerun-if-env-changed={name}");
        let path = env::var(name).unwrap_or_else(|_| panic!("{name} is not set: start the benchmark by bench/run"));
        println!("cargo:rerun-if-changed={path}");
        println!("cargo:rustc-link-arg={path}");
    }
}
