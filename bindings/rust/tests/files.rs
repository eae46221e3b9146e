//! Load files as types and back, over the files of examples/made, and over these with bytes changed.
use std::{fs, path::Path};
use waikurpeho::{calls, Refusal, Sheet};

fn examples() -> Vec<Vec<u8>> {
    let made = Path::new(env!("CARGO_MANIFEST_DIR")).join("../../examples/made");
    let names = fs::read_dir(made).unwrap().map(|entry| entry.unwrap().path());
    names.filter(|name| name.extension().is_some_and(|end| end == "sheet")).map(|name| fs::read(name).unwrap()).collect()
}

/// What is read writes the same bytes; what the library refuses by its shape is not read, and what it takes is.
fn is_read_as_the_library_does(bytes: &[u8]) {
    let (sheet, refused) = (Sheet::from_bytes(bytes), calls::check_into(bytes, &mut []).err());
    match &sheet {
        Some(sheet) => assert_eq!(sheet.to_bytes(), bytes),
        None => assert!(matches!(refused, Some(Refusal::Shape | Refusal::Count | Refusal::Range | Refusal::Record))),
    }
    assert!(refused != Some(Refusal::Shape) || sheet.is_none());
}

#[test]
fn files_to_types_and_back() {
    let files = examples();
    assert!(files.len() >= 10);
    for mut bytes in files {
        assert!(Sheet::from_bytes(&bytes).is_some());
        let ends = [0, 40, 48, 52, 80, 88, 89, 90, 91].into_iter().filter(|at| *at < bytes.len() - 20).collect::<Vec<_>>();
        for at in ends.into_iter().chain(bytes.len() - 20..bytes.len()) {
            for step in [1, 4, 40, 44, 128, 255] {
                let was = bytes[at];
                bytes[at] = was.wrapping_add(step);
                is_read_as_the_library_does(&bytes);
                bytes[at] = was;
            }
        }
        for less in 0..bytes.len().min(100) {
            is_read_as_the_library_does(&bytes[less..]);
            is_read_as_the_library_does(&bytes[..bytes.len() - less]);
        }
    }
}

#[test]
fn findings_to_words_and_back() {
    let mut seen = [false; 12];
    for bytes in examples() {
        for finding in calls::check(&bytes).unwrap() {
            seen[finding.words()[0] as usize] = true;
            assert_eq!(waikurpeho::Finding::from_words(finding.words()), Some(finding));
        }
    }
    assert_eq!(seen, [false, true, true, true, true, true, true, true, true, true, true, true]);
    assert_eq!(waikurpeho::Finding::from_words([12, 0, 0, 0, 0]), None);
}
