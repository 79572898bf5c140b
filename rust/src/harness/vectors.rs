//! The vectors that stand beside the product's crates.

use std::fs;
use std::io;
use std::path::Path;

/// A sheet, or a run of stitch lengths, with what the program must print for it.
pub struct Vector {
    pub name: String,
    pub text: Vec<u8>,
    pub printed: Vec<u8>,
}

/// The sheets among the vectors, with their reports.
pub fn vectors() -> io::Result<Vec<Vector>> {
    vectors_of("sheet_vectors", "sheet")
}

/// Those with the rows that their rules see.
pub fn row_vectors() -> io::Result<Vec<Vector>> {
    vectors_of("row_vectors", "sheet")
}

/// Those that are held to the profile.
pub fn profile_vectors() -> io::Result<Vec<Vector>> {
    vectors_of("profile_vectors", "sheet")
}

/// Those with where their undefined verdicts came from.
pub fn origin_vectors() -> io::Result<Vec<Vector>> {
    vectors_of("origin_vectors", "sheet")
}

/// All sheets among the vectors.
pub fn all_vectors() -> io::Result<Vec<Vector>> {
    let mut all = vectors()?;
    all.extend(row_vectors()?);
    all.extend(profile_vectors()?);
    all.extend(origin_vectors()?);
    Ok(all)
}

/// Lists of edits with what they are answered, and the verdicts after each.
pub fn board_vectors() -> io::Result<Vec<Vector>> {
    vectors_of("board_vectors", "board")
}

/// The vectors of a crate in the order of their names.
pub fn vectors_of(crate_name: &str, ending: &str) -> io::Result<Vec<Vector>> {
    let crates = Path::new(env!("CARGO_MANIFEST_DIR")).join("../crates");
    let mut vectors = Vec::new();
    for entry in fs::read_dir(crates.join(crate_name).join("data"))? {
        let path = entry?.path();
        if path
            .extension()
            .is_some_and(|extension| extension == ending)
        {
            let name = path.file_stem().unwrap_or_default().to_string_lossy();
            vectors.push(Vector {
                name: name.into_owned(),
                text: fs::read(&path)?,
                printed: fs::read(path.with_extension("out"))?,
            });
        }
    }
    vectors.sort_by(|left, right| left.name.cmp(&right.name));
    Ok(vectors)
}
