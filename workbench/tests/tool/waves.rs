//! The time-distance diagram: which path it takes, its widest band, its vehicles.

use super::reports::is_whole;
use super::{corridor_with, example, scratch, workbench};

/// The page of the command, and what it says of each path.
fn wave(arguments: &[&str]) -> (String, Vec<String>) {
    let said = workbench(&[&["wave"], arguments].concat());
    assert_eq!(said.status, 0, "{}", said.err);
    let told = said
        .out
        .lines()
        .filter_map(|line| line.strip_prefix("<p>Links ")?.strip_suffix(".</p>"));
    let told = told.map(str::to_string).collect();
    (said.out, told)
}

#[test]
fn the_corridor() {
    let (page, told) = wave(&[&example("corridor")]);
    is_whole(&page);
    assert_eq!(
        told,
        ["1, 2, 20 s of travel: the widest through band is 30 s, from second 0 to second 30 at the stop line of link 1; 1 band in all"]
    );
    // each of the five, from link 1 to link 2
    assert_eq!(page.matches("<polyline class=\"vehicle\"").count(), 5);
    assert_eq!(page.matches(" on link 1 to second ").count(), 5);
    // the third enters in second 5, arrives in second 15 and leaves in 18.3, when 2.5 have; it leaves link 2 in second 28.3
    assert!(page.contains("<title>from second 5 on link 1 to second 28 on link 2, 3 s in queues</title>"));
}

#[test]
fn the_path_with_the_most_signals() {
    let (_, told) = wave(&[&example("avenue")]);
    assert_eq!(
        told,
        ["1, 3, 5, 7, 90 s of travel: the widest through band is 35 s, from second 45 to second 80 at the stop line of link 1; 3 bands in all"]
    );
}

#[test]
fn a_past_goes_on() {
    let (page, told) = wave(&[&example("carry")]);
    assert_eq!(
        told,
        ["1, 3, 5, 7, 90 s of travel: the widest through band is 30 s, from second 10 to second 40 at the stop line of link 1; 2 bands in all"]
    );
    // some are under way at second 0, on each link
    for link in [1, 3, 5, 7] {
        assert!(
            page.contains(&format!("<title>from second 0 on link {link} to second ")),
            "{link}"
        );
    }
}

#[test]
fn both_directions_of_a_road() {
    let (page, told) = wave(&[&example("wave")]);
    assert_eq!(
        told,
        [
            "1, 2, 3, 4, 100 s of travel: the widest through band is 30 s, from second 5 to second 35 at the stop line of link 1, \
             Harbour Road east; 4 bands in all",
            "5, 6, 7, 8, 110 s of travel: the widest through band is 25 s, from second 5 to second 30 at the stop line of link 5, \
             Harbour Road west; 4 bands in all"
        ]
    );
    // one tram a signal, in both directions
    assert_eq!(page.matches("<rect class=\"tram\"").count(), 6);
    assert_eq!(page.matches(">Station Street</text>").count(), 2);
}

#[test]
fn paths_that_are_asked_for() {
    let (_, told) = wave(&[&example("avenue"), "--links", "2,3,9", "--links", "7"]);
    assert_eq!(told.len(), 2);
    assert!(told[0].starts_with("2, 3, 9, 40 s of travel: "));
    assert_eq!(told[1], "7, 20 s of travel: no signal stands on the way");
    for (list, words) in [
        ("1,5", "no movement leads from link 1 to link 5"),
        ("1,11", "the network has no link 11"),
        ("", "the network has no link "),
        ("3,x", "the network has no link x"),
    ] {
        let said = workbench(&["wave", &example("avenue"), "--links", list]);
        assert_eq!((said.status, said.out.as_str()), (2, ""), "{list}");
        assert!(said.err.contains(words), "{list}: {}", said.err);
    }
}

#[test]
fn signals_that_are_never_open_together() {
    // Link 1 opens in phase 1, which shows from second 0 to 30, its successor in phase 2, from second 30 on.
    let folder = corridor_with("wave_none", "network.tsv", 4, "Q\t60000\t40\t500\t1\t2\t0\t0");
    let (_, told) = wave(&[&folder]);
    assert_eq!(
        told,
        ["1, 2, 50 s of travel: there is no through band, each vehicle has to stop"]
    );
}

#[test]
fn a_refused_plan_is_drawn_as_far_as_it_passes() {
    let folder = corridor_with("wave_refused", "plan.tsv", 3, "P\t1\t0\t0\t0\t3001\t2000");
    let (page, told) = wave(&[&folder]);
    assert!(page.contains("refused: R 17 3 2") && page.contains("class=\"refused-span\""));
    assert!(told[0].contains("the widest through band is 20 s"), "{told:?}");
    let network = corridor_with("wave_network", "network.tsv", 4, "Q\tx");
    assert_eq!(workbench(&["wave", &network]).status, 1);
}

#[test]
fn the_page_goes_to_a_file() {
    let file = scratch("wave_file").join("page.html").display().to_string();
    let said = workbench(&["wave", &example("corridor"), "-o", &file]);
    assert_eq!((said.status, said.out.as_str()), (0, ""));
    assert_eq!(std::fs::read_to_string(&file).unwrap(), wave(&[&example("corridor")]).0);
}
