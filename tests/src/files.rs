//! The matrix files.

use std::path::{Path, PathBuf};

use crate::oracle::matrix::Matrix;
use crate::oracle::text;

/// The folder of matrix files: MATRICES, else the repository's.
pub fn folder() -> PathBuf {
    let ours = concat!(env!("CARGO_MANIFEST_DIR"), "/../data");
    std::env::var_os("MATRICES").map_or(ours.into(), PathBuf::from)
}

/// The paths of all matrix files, by name.
pub fn matrix_files() -> Vec<PathBuf> {
    let folder = folder();
    let listing = std::fs::read_dir(&folder)
        .unwrap_or_else(|error| panic!("folder of matrices {folder:?}: {error}"));
    let mut files: Vec<PathBuf> = listing
        .map(|file| file.expect("a file of the folder").path())
        .filter(|path| path.extension().is_some_and(|end| end == "mtx"))
        .collect();
    files.sort();
    assert!(
        files.len() >= 20,
        "{} .mtx files in {folder:?}",
        files.len()
    );
    files
}

/// A matrix file's text and the matrix that it stands for.
pub fn read(path: &Path) -> (Vec<u8>, Matrix) {
    let text = std::fs::read(path).unwrap_or_else(|error| panic!("{path:?}: {error}"));
    let matrix = text::read(&text).unwrap_or_else(|refusal| panic!("{path:?}: {refusal:?}"));
    (text, matrix)
}
