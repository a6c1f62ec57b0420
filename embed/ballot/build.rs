//! Links the proved library: the one in the folder that BALLOT_LIB_DIR names, or
//! else the one that `rt lib` builds in this repository's crate `ballot_c`.

use library::Library;

fn main() {
    Library { package: "ballot", name: "ballot_c", variable: "BALLOT_LIB_DIR" }.link();
}
