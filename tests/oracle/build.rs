//! Copies the carried files, and the stand-ins for missing modules, to one tree
//! in OUT_DIR. The copies of `multi.rs` and `render.rs` get one more line that
//! opens a child module, so that their private items can be reached; nothing
//! else of the files changes.

use std::path::{Path, PathBuf};
use std::{env, fs};

fn main() {
    let home = PathBuf::from(env::var("CARGO_MANIFEST_DIR").unwrap());
    let out = PathBuf::from(env::var("OUT_DIR").unwrap()).join("dms");
    for tree in ["src-carried/dms", "stand-ins/dms"] {
        println!("cargo::rerun-if-changed={tree}");
        copy(&home.join(tree), &out);
    }
    for name in ["multi.rs", "render.rs"] {
        open(&out.join(name), &home.join("src/inside").join(name));
    }
    let root = format!("#[path = {:?}]\nmod dms;\n", out.join("mod.rs"));
    fs::write(out.with_file_name("carried.rs"), root).unwrap();
}

/// Copy a directory's files, and those of the directories in it
fn copy(from: &Path, to: &Path) {
    fs::create_dir_all(to).unwrap();
    for entry in fs::read_dir(from).unwrap() {
        let path = entry.unwrap().path();
        let target = to.join(path.file_name().unwrap());
        if path.is_dir() {
            copy(&path, &target);
        } else {
            fs::write(&target, fs::read(&path).unwrap()).unwrap();
        }
    }
}

/// Append a child module to a copied file
fn open(file: &Path, child: &Path) {
    let mut text = fs::read_to_string(file).unwrap();
    text += &format!("#[path = {child:?}] pub(crate) mod oracle;\n");
    fs::write(file, text).unwrap();
}
