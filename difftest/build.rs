//! Compiles the plain C of the benchmark with -O2; `CC` names the compiler, `SCION_PROTO_INCLUDE` the folder of `scion_proto.h`.

use std::env;
use std::process::Command;

fn main() {
    let include = env::var("SCION_PROTO_INCLUDE").expect("SCION_PROTO_INCLUDE names the folder of scion_proto.h");
    let compiler = env::var("CC").expect("CC names the C compiler");
    let object = format!("{}/plain.o", env::var("OUT_DIR").expect("a folder"));
    let status = Command::new(&compiler)
        .args(["-std=c11", "-O2", "-Wall", "-Wextra", "-Werror", "-I", &include, "-c", "src/plain.c", "-o", &object])
        .status();
    assert!(status.is_ok_and(|status| status.success()), "{compiler} did not compile src/plain.c");
    println!("cargo:rerun-if-env-changed=CC");
    println!("cargo:rerun-if-env-changed=SCION_PROTO_INCLUDE");
    println!("cargo:rerun-if-changed={include}/scion_proto.h");
    println!("cargo:rerun-if-changed=src/plain.c");
    println!("cargo:rustc-link-arg-bins={object}");
}
