//! The replay of this crate against what document 01 prints and says, before it is used to judge the proved program.
use replay::{cases::cases, list, replay, DOCUMENT_LIST, DOCUMENT_OUTPUT};

fn text(bytes: &[u8]) -> String {
    String::from_utf8_lossy(bytes).into_owned()
}

#[test]
fn the_documents_run() {
    assert_eq!(text(&replay(&list(&DOCUMENT_LIST))), DOCUMENT_OUTPUT);
    println!("the document's run: {} lines", DOCUMENT_LIST.len());
}

#[test]
fn cases_by_hand() {
    let cases = cases();
    for (input, output) in &cases {
        assert_eq!(text(&replay(input)), *output, "input {:?}", text(input));
    }
    println!("{} inputs with outputs written by hand", cases.len());
}
