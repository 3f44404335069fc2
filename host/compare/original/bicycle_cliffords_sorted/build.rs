//! Makes the sorted copy of decomposition.rs: the original's text, with its map walks put in order
//! and each discovery noted. A text to be replaced that is not there exactly once stops the build.

use std::path::Path;

const REPLACED: [(&str, &str); 6] = [
    // `new` starts the table in the order in which the natives' strings first appear
    (
        "native_lookup.keys()",
        "crate::order::by_first_appearance(&native_lookup, &code)",
    ),
    // the other walks go by kept native number
    (
        "self.native_measurements\n            .keys()",
        "crate::order::by_kept_number(self.native_measurements.keys(), &self.native_measurements)\
         .into_iter()",
    ),
    (
        "let mut cur = 1;",
        "let base_rots = crate::order::by_kept_number(base_rots, &self.native_measurements);\
         let mut cur = 1;",
    ),
    // each string is noted when it is discovered
    (
        "    code: CodeMeasurement,",
        "    code: CodeMeasurement,\n    discovered: Vec<u32>,",
    ),
    (
        "            len,\n            code,",
        "            len,\n            code,\n            discovered: vec![],",
    ),
    (
        "self.len += 1;",
        "self.len += 1;\n            self.discovered.push(i as u32);",
    ),
];

fn main() {
    let mut text = source::read("bicycle_cliffords", "decomposition.rs");
    for (old, new) in REPLACED {
        let found = text.matches(old).count();
        if found != 1 {
            source::fail(&format!(
                "no sorted copy can be made: decomposition.rs has {old:?} {found} times, not once"
            ));
        }
        text = text.replace(old, new);
    }
    let out = std::env::var("OUT_DIR").expect("cargo names the folder");
    std::fs::write(Path::new(&out).join("decomposition.rs"), text).expect("the copy is written");
}
