//! Stands for `src/dms/font/tfon.rs` of the repository (fonts in files). The
//! carried files only declare it, so it is empty.
