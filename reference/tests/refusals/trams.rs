//! Tram lines: refusals 28 and 29, and what stands still in a tram's steps.

use crate::fixture::*;

/// The junction with these tram lines.
fn with_trams(lines: &[&str]) -> Sheet {
    let mut sheet = network().set(1, 6, lines.len());
    for (index, line) in lines.iter().enumerate() {
        sheet = sheet.insert_line(2 + index, line);
    }
    sheet
}

#[test]
fn r2_count() {
    for count in [17u64, 4_294_967_295] {
        assert_network_refused(&network().set(1, 6, count).text(), 2, 1, 0);
    }
    // The line that should be a tram's.
    for count in [1, 16] {
        assert_network_refused(&network().set(1, 6, count).text(), 1, 2, 0);
    }
    assert_network_refused(&network().remove_field(1, 6).text(), 1, 1, 0);
    // Each light in each step.
    let trams: Vec<String> = (0..8)
        .map(|index| format!("T {} 1 {} {}", index / 4 + 1, index % 4 + 1, index % 4 + 1))
        .collect();
    let lines: Vec<&str> = trams.iter().map(String::as_str).collect();
    assert_network_accepted(&with_trams(&lines).text());
}

#[test]
fn r28_light_and_steps() {
    for line in ["T 1 1 1 1", "T 2 3 1 4", "T 2 1 4 4", "T 1 2 2 3"] {
        assert_network_accepted(&with_trams(&[line]).text());
    }
    for line in [
        "T 0 1 1 1",
        "T 3 1 1 1",
        "T 4294967295 1 1 1",
        "T 1 1 0 1",
        "T 1 1 1 0",
        "T 1 1 5 5",
        "T 1 1 4 5",
        "T 1 1 3 2",
        "T 1 1 1 4294967295",
    ] {
        assert_network_refused(&with_trams(&[line]).text(), 28, 2, 0);
        assert_network_refused(&with_trams(&["T 2 2 1 1", line]).text(), 28, 3, 0);
    }
    // Form comes first, and a light's values later.
    assert_network_refused(&with_trams(&["T 9 1 1"]).text(), 1, 2, 0);
    let text = with_trams(&["T 9 1 1 1"]).set(3, 5, 0).text();
    assert_network_refused(&text, 28, 2, 0);
}

#[test]
fn r28_overlap() {
    for lines in [["T 1 1 1 2", "T 1 2 3 4"], ["T 1 1 1 2", "T 2 1 1 2"]] {
        assert_network_accepted(&with_trams(&lines).text());
    }
    for second in [
        "T 1 1 2 2",
        "T 1 2 1 4",
        "T 1 9 3 4",
        "T 1 1 2 3",
        "T 1 1 3 3",
    ] {
        assert_network_refused(&with_trams(&["T 1 1 2 3", second]).text(), 28, 3, 0);
        let lines = ["T 1 1 2 3", "T 2 1 2 3", second];
        assert_network_refused(&with_trams(&lines).text(), 28, 4, 0);
    }
}

#[test]
fn r28_phase_after_the_last_light() {
    for line in ["T 1 0 1 1", "T 1 3 1 1", "T 2 4 1 1", "T 2 4294967295 1 1"] {
        let sheet = with_trams(&[line]);
        assert_network_refused(&sheet.text(), 28, 2, 0);
        // After the last `G` line, before the first `Q` line.
        assert_network_refused(&sheet.clone().set(4, 5, 0).text(), 3, 4, 2);
        assert_network_refused(&sheet.clone().set(4, 6, "x").text(), 1, 4, 0);
        assert_network_refused(&sheet.clone().set(5, 3, 0).text(), 28, 2, 0);
        assert_network_refused(&sheet.set(5, 3, "x").text(), 28, 2, 0);
    }
    // The first of several lines is reported.
    let text = with_trams(&["T 2 3 1 1", "T 2 4 2 2", "T 1 3 1 1"]).text();
    assert_network_refused(&text, 28, 3, 0);
}

#[test]
fn r29_the_trams_phase() {
    // The plan shows phases 1, 1, 2, 2 and 1, 2, 3, 1.
    assert_plan_accepted(&with_trams(&["T 1 2 3 4"]).text(), &plan().text());
    assert_plan_refused(&with_trams(&["T 1 2 1 1"]).text(), &plan().text(), 29, 1, 1);
    assert_plan_refused(&with_trams(&["T 2 2 1 2"]).text(), &plan().text(), 29, 1, 2);
    // After 10 of all lights and before 11 of any.
    let other = with_trams(&["T 1 2 1 2"]).text();
    assert_plan_refused(&other, &plan().set(1, 3, 3).text(), 10, 1, 2);
    // Light 1 leaves phase 1 too early in step 2; light 2's tram comes first.
    let text = plan().set(2, 2, 2).text();
    let short = network().set(2, 8, 11).text();
    assert_plan_refused(&short, &text, 12, 2, 1);
    let short = with_trams(&["T 2 1 2 2"]).set(3, 8, 11).text();
    assert_plan_refused(&short, &text, 29, 2, 2);
}

#[test]
fn clocks_stand_still() {
    // Light 1 shows phase 1 in steps 1 and 2, the second for a tram.
    let tram = || with_trams(&["T 1 1 2 2"]);
    let plan = plan().text();
    assert_plan_accepted(&network().set(2, 8, 20).text(), &plan);
    assert_plan_accepted(&tram().set(3, 8, 10).text(), &plan);
    assert_plan_refused(&tram().set(3, 8, 11).text(), &plan, 12, 3, 1);
    assert_plan_refused(&network().set(2, 9, 19).text(), &plan, 13, 2, 1);
    assert_plan_accepted(&tram().set(3, 9, 10).text(), &plan);
    // Its clock is at 10 after step 1, 40 after step 4, and 30 with the tram.
    assert_plan_refused(&network().set(2, 3, 39).text(), &plan, 14, 4, 1);
    assert_plan_accepted(&tram().set(3, 3, 30).text(), &plan);
    assert_plan_refused(&tram().set(3, 3, 29).text(), &plan, 14, 4, 1);
}

#[test]
fn the_next_ordinary_step_goes_by_the_last_ordinary_one() {
    // Light 2 shows phase 1, then 3 for a tram in step 2, then 1 or 2.
    let network = with_trams(&["T 2 3 2 2"]).text();
    let quiet = |third: u64| {
        let lines = [1, 4, third, third].map(|mask| format!("P 1 {mask} 0 0 0 0 0 0 0 0 0"));
        Sheet::new(&lines.join("\n")).set(3, 2, 2).set(4, 2, 2)
    };
    assert_plan_accepted(&network, &quiet(2).text());
    assert_plan_refused(&network, &quiet(4).text(), 11, 3, 2);
    // Phase 1 goes on: 5, 15, 25 and then 35 seconds, which are too many.
    assert_plan_refused(&network, &quiet(1).text(), 13, 4, 2);
}

#[test]
fn a_link_is_shut_by_the_phase_that_is_shown() {
    // Phase 2 of light 2 shuts link 2, in an ordinary step or a tram's.
    let network = with_trams(&["T 2 2 3 3"]).text();
    let text = plan().set(3, 3, 2);
    assert_plan_refused(&network, &text.clone().text(), 27, 3, 3);
    // With nothing moved in it and after it the rest passes.
    let text = text.set(3, 12, 0).set(4, 12, 0).set(4, 3, 4);
    assert_plan_accepted(&network, &text.text());
}

#[test]
fn an_empty_plan_shows_no_trams() {
    let wide = with_trams(&["T 1 1 2 2"]).set(3, 11, 50).set(4, 9, 45);
    assert_plan_refused(&wide.text(), b"", 29, 2, 1);
    let same = with_trams(&["T 1 2 2 2"]).set(3, 11, 40).set(4, 9, 45);
    assert_plan_accepted(&same.clone().text(), b"");
    assert_plan_refused(&same.set(3, 11, 39).text(), b"", 13, 4, 1);
}
