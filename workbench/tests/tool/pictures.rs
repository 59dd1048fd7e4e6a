//! Pages of two plans, of cells and of vehicles along a street.

use super::reports::is_whole;
use super::{example, scratch, workbench};
use std::fs;

/// What a command says and the page that it writes.
fn with_page(test: &str, arguments: &[&str]) -> (String, String) {
    let file = scratch(test).join("page.html").display().to_string();
    let said = workbench(&[arguments, &["-o", &file]].concat());
    assert_eq!(said.status, 0, "{}", said.err);
    assert_eq!(said.out, workbench(arguments).out);
    let page = fs::read_to_string(file).unwrap();
    is_whole(&page);
    (said.out, page)
}

/// The corridor's plan with other volumes let out in its last two steps.
fn plan(test: &str, third: u32, fourth: u32) -> String {
    let whole = fs::read_to_string(example("corridor/plan.tsv")).unwrap();
    let changed = whole
        .replace("P\t1\t0\t0\t0\t3000\t2000", &format!("P\t1\t0\t0\t0\t{third}\t2000"))
        .replace("P\t2\t0\t0\t0\t2000\t0", &format!("P\t2\t0\t0\t0\t{fourth}\t0"));
    let path = scratch(test).join("plan.tsv");
    fs::write(&path, changed).unwrap();
    path.display().to_string()
}

#[test]
fn two_plans_that_cross() {
    // Three let out by second 30 and no more, against one by then and five by second 40: equal in second 35.
    let (early, late) = (plan("compare_early", 3000, 0), plan("compare_late", 1000, 4000));
    let network = example("corridor/network.tsv");
    let (said, page) = with_page("compare_page", &["compare", &network, &early, &late]);
    assert!(said.contains("\ntheir curves cross at second 35\n"), "{said}");
    assert!(page.contains("<p>Their curves cross at second 35.</p>"));
    assert_eq!(page.matches("<line class=\"crossing\"").count(), 2);
    assert!(page.contains(">35 s</text>"));
    assert!(page.contains("<polyline class=\"first\"") && page.contains("<polyline class=\"second-plan\""));
    assert!(page.contains("<title>second 30: 3 let out by the first plan, 1 by the second</title>"));
}

#[test]
fn two_plans_that_do_not_cross() {
    let network = example("corridor/network.tsv");
    let slow = plan("compare_slow", 1000, 2000);
    let (said, page) = with_page(
        "compare_ahead",
        &["compare", &network, &example("corridor/plan.tsv"), &slow],
    );
    assert!(said.starts_with("ahead: ") && !said.contains("cross"));
    assert_eq!(page.matches("<line class=\"crossing\"").count(), 1, "its key");
}

#[test]
fn cells_over_time() {
    let (said, page) = with_page("cells_page", &["cells", &example("cells/corridor.tsv")]);
    assert!(said.starts_with("flow in   17 vehicles\n"));
    // In step 1 five flow into cell 1 and five on into cell 2, three into cell 3 (its flow limit), five into cell 4, two out.
    for words in [
        "cell 1 at the start: 6 of 30 vehicles",
        "cell 1 after step 1: 6 of 30 vehicles",
        "cell 2 after step 1: 6 of 30 vehicles",
        "cell 3 after step 1: 6 of 20 vehicles",
        "cell 4 after step 1: 5 of 30 vehicles",
        "cell 2 after step 6: 9 of 30 vehicles",
    ] {
        assert!(page.contains(&format!("<title>{words}</title>")), "{words}");
    }
    assert_eq!(page.matches("<g><title>cell ").count(), 4 * 7);
}

#[test]
fn vehicles_along_a_street() {
    let (said, page) = with_page("traces_page", &["traces", &example("traces/street.tsv")]);
    // The table of the C example, which writes one decimal.
    let expected = fs::read_to_string(example("c/traces.expected")).unwrap();
    assert_eq!(said, expected.replace(".0\t", "\t").replace(".0\n", "\n"));
    assert_eq!(page.matches("<polyline class=\"vehicle\"").count(), 3);
    assert_eq!(page.matches("<rect class=\"shut\"").count(), 5);
}

#[test]
fn streets_that_are_not_run() {
    let path = scratch("traces_wrong").join("street.tsv");
    let name = path.display().to_string();
    fs::write(&path, "V\t1\nA\t1\t1\n").unwrap();
    let said = workbench(&["traces", &name]);
    assert_eq!((said.status, said.out.as_str()), (2, ""));
    assert!(said
        .err
        .ends_with("street.tsv, line 2: a D line with the distance to keep is due before it\n"));
    fs::write(&path, "V\t1\nD\t1\nA\t1\t-1\n").unwrap();
    let said = workbench(&["traces", &name]);
    assert_eq!(said.status, 1);
    assert!(said.out.contains("street.tsv, line 3: refusal 38"), "{}", said.out);
}
