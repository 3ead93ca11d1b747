//! The simulator prints the sheet beside each sample table.

use std::fs;
use std::path::Path;

use simulator::portsheet;

#[test]
fn every_sample_table_has_its_sheet() {
    let folder = Path::new(env!("CARGO_MANIFEST_DIR")).join("../../tables");
    let mut tables = 0;
    for entry in fs::read_dir(folder).unwrap() {
        let table = entry.unwrap().path();
        if table.extension().is_some_and(|end| end == "avb") {
            let sheet = fs::read_to_string(table.with_extension("sheet")).unwrap();
            assert_eq!(portsheet(&fs::read(&table).unwrap()), sheet, "{table:?}");
            tables += 1;
        }
    }
    assert!(tables > 0);
}
