//! Links `libchecker.a`.

include!("../link.rs");

fn main() {
    link("checker");
}
