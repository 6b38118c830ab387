//! The published JSON test files, if a folder of them is named in `MIROKDEUL_JSON_SUITE`.
//!
//! Their names say whether a reader must take them (`y_`), must not (`n_`), or may choose (`i_`).

use mirokdeul_plain::json::{Fault, Tree};

#[test]
fn published_json_files_are_judged_as_their_names_say() {
    let Some(folder) = std::env::var_os("MIROKDEUL_JSON_SUITE") else {
        return;
    };
    let mut judged = 0;
    for file in std::fs::read_dir(folder).unwrap() {
        let path = file.unwrap().path();
        let name = path.file_name().unwrap().to_str().unwrap().to_owned();
        if !name.ends_with(".json") {
            continue;
        }
        let fault = Tree::parse(&std::fs::read(&path).unwrap()).err();
        match &name[..2] {
            // Repeated names are JSON; that they are refused is a rule of its own.
            "y_" => assert_ne!(fault, Some(Fault::NotJson), "{name}"),
            "n_" => assert_eq!(fault, Some(Fault::NotJson), "{name}"),
            _ => {}
        }
        judged += 1;
    }
    assert!(judged > 0);
}
