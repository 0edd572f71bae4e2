//! Writes the wrong variants of the reference: copies of src/reference.rs with one place changed each, as
//! wrong.rs lists them.

use std::{env, fs, path::Path};

mod wrong;

fn main() {
    for file in ["src/reference.rs", "build.rs", "wrong.rs"] {
        println!("cargo::rerun-if-changed={file}");
    }
    let reference = fs::read_to_string("src/reference.rs").expect("the reference can be read");
    let (mut modules, mut list) = (String::new(), String::new());
    for (name, right, wrong) in wrong::WRONG {
        let places = reference.matches(right).count();
        assert_eq!(places, 1, "{name}: the place to change must stand once");
        let variant = reference.replace(right, wrong);
        let module = name.replace('-', "_");
        modules += &format!("#[allow(unused, clippy::all)]\nmod {module} {{\n{variant}}}\n");
        list += &format!("    (\"{name}\", &{module}::CALLS),\n");
    }
    let list = format!("pub const WRONG: &[crate::comparison::Variant] = &[\n{list}];\n");
    let folder = env::var("OUT_DIR").expect("cargo names a folder");
    let file = Path::new(&folder).join("wrong.rs");
    fs::write(file, modules + &list).expect("the variants can be written");
}
