//! Links the static library; `SCION_PROTO_LIB` names its folder.

use std::env;

fn main() {
    let folder = env::var("SCION_PROTO_LIB").expect("SCION_PROTO_LIB names the folder of libscion_proto.a");
    println!("cargo:rerun-if-env-changed=SCION_PROTO_LIB");
    println!("cargo:rerun-if-changed={folder}/libscion_proto.a");
    println!("cargo:rustc-link-search=native={folder}");
    println!("cargo:rustc-link-lib=static=scion_proto");
}
