//! Links `libload.a`.

include!("../link.rs");

fn main() {
    link("load");
}
