//! Links the proved library: the one in the folder that PRINTING_LIB_DIR names, or
//! else the one that `rt lib` builds in this repository's crate `printing_c`.

use library::Library;

fn main() {
    Library { package: "printing", name: "printing_c", variable: "PRINTING_LIB_DIR" }.link();
}
