//! `tools/in-words`, by the crate's table of refusals.

use plancheck::Reason;
use std::process::Command;

/// What the script says of a refusal, at line 1 and item 1 where it names them.
fn in_words(reason: Reason) -> String {
    let named = |is_named: bool| if is_named { "1" } else { "0" };
    let run = Command::new(format!("{}/../tools/in-words", env!("CARGO_MANIFEST_DIR")))
        .args(["R", &reason.number().to_string()])
        .args([named(reason.text().is_some()), named(reason.item_kind().is_some())])
        .output()
        .unwrap();
    assert!(run.status.success(), "{reason:?}");
    String::from_utf8(run.stdout).unwrap()
}

#[test]
fn each_refusal_is_said_of_its_text_and_item() {
    for &reason in Reason::ALL {
        let mut place = Vec::new();
        place.extend(reason.text().map(|text| format!("line 1 of the {text} text")));
        place.extend(reason.item_kind().map(|kind| format!("{kind} 1")));
        let parted = if place.is_empty() { "" } else { " in " };
        let start = format!("refused with {}{parted}{}: ", reason.number(), place.join(", "));
        let said = in_words(reason);
        assert!(said.starts_with(&start), "{said}");
        assert!(said.contains("; keep the running plan, and tell "), "{said}");
        assert!(!said.contains('`') && !said.contains("below)"), "{said}");
    }
}
