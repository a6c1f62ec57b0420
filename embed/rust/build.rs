//! Links the proved library: the one in the folder that REGISTER_LIB_DIR names, or
//! else the one that `rt lib` builds in this repository's crate `register_c`.

use library::Library;

fn main() {
    Library { package: "register", name: "register_c", variable: "REGISTER_LIB_DIR" }.link();
}
