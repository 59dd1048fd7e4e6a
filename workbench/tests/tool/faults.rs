//! Why a text is refused for its values: each limit broken once, with the field that is marked and the numbers that are printed.

use super::{corridor_with, example, scratch, workbench};
use std::fs;

/// The corridor with a line of its network replaced is refused with a number, shows the line so, and says why.
fn explains(name: &str, line: usize, text: &str, number: u32, shown: &str, why: &str) {
    let folder = corridor_with(&format!("faults_{name}"), "network.tsv", line, text);
    let said = workbench(&["explain", &folder]);
    assert_eq!(said.status, 1, "{name}");
    assert!(
        said.out.starts_with(&format!("refused with {number} "))
            || said.out.starts_with(&format!("refused with {number}:")),
        "{name}: {}",
        said.out
    );
    assert!(
        said.out.contains(&format!("\n  network line {line}: {shown}\n")),
        "{name}: {}",
        said.out
    );
    let whys: Vec<&str> = said.out.lines().filter_map(|line| line.strip_prefix("why: ")).collect();
    assert_eq!(whys, [why], "{name}");
    // The report has the same.
    let page = workbench(&["report", &folder]).out;
    let marked = shown.replace('[', "<mark>").replace(']', "</mark>");
    assert!(page.contains(&marked), "{name}: {marked}");
}

#[test]
fn forms_and_counts() {
    let fields = "it has 5 fields, and 7 are due: N, links, signals, movements, steps, tram lines, past steps";
    explains("old", 1, "N\t2\t1\t1\t4", 1, "N 2 1 1 4", fields);
    explains(
        "number",
        4,
        "Q\t60000\t10\t5OO\t0\t0\t0\t0",
        1,
        "Q 60000 10 [5OO] 0 0 0 0",
        "field 4 is '5OO', which is no number",
    );
    explains(
        "return",
        4,
        "Q\t60000\t10\t500\t0\t0\t0\t0\r",
        1,
        "Q 60000 10 500 0 0 0 0\\r",
        "a carriage return stands in it",
    );
    explains(
        "links",
        1,
        "N\t25\t1\t1\t4\t0\t0",
        2,
        "N [25] 1 1 4 0 0",
        "the number of links is 25, and 1 to 24 is due",
    );
    explains(
        "steps",
        1,
        "N\t2\t1\t1\t0\t0\t0",
        2,
        "N 2 1 1 [0] 0 0",
        "the number of steps is 0, and 1 to 120 is due",
    );
    explains(
        "past",
        1,
        "N\t2\t1\t1\t4\t0\t121",
        2,
        "N 2 1 1 4 0 [121]",
        "the number of past steps is 121, and 0 to 120 is due",
    );
}

#[test]
fn texts_that_are_swapped() {
    let said = workbench(&[
        "explain",
        &example("corridor/plan.tsv"),
        &example("corridor/network.tsv"),
    ]);
    assert_eq!(said.status, 1);
    assert!(
        said.out
            .contains("\nwhy: this is a plan: are network and plan swapped?\n"),
        "{}",
        said.out
    );
    let said = workbench(&[
        "explain",
        &example("corridor/network.tsv"),
        &example("corridor/network.tsv"),
    ]);
    assert!(
        said.out
            .contains("\nwhy: this is a network: are network and plan swapped?\n"),
        "{}",
        said.out
    );
}

#[test]
fn signals() {
    for (name, text, shown, why) in [
        (
            "phases",
            "G\t20\t60\t1\t1\t10\t10\t10\t30",
            "G 20 60 [1] 1 10 10 10 30",
            "the number of phases is 1, and 2 to 8 is due",
        ),
        (
            "shown",
            "G\t20\t60\t2\t3\t10\t20\t10\t30\t10\t30",
            "G 20 60 2 [3] 10 20 10 30 10 30",
            "the phase that is shown is 3, and 1 to 2 is due",
        ),
        (
            "cycle",
            "G\t70\t60\t2\t2\t10\t20\t10\t30\t10\t30",
            "G [70] [60] 2 2 10 20 10 30 10 30",
            "the least time of the cycle is 70 s, and its greatest is 60 s",
        ),
        (
            "least",
            "G\t20\t60\t2\t2\t10\t20\t0\t30\t10\t30",
            "G 20 60 2 2 10 20 [0] 30 10 30",
            "the least time of phase 1 is 0, and 1 to 3600 is due",
        ),
        (
            "seconds",
            "G\t20\t60\t2\t2\t31\t40\t10\t30\t10\t30",
            "G 20 60 2 2 [31] 40 10 30 10 [30]",
            "phase 2 has shown for 31 s, and its greatest time is 30 s",
        ),
        (
            "clock",
            "G\t20\t60\t2\t2\t10\t61\t10\t30\t10\t30",
            "G 20 [60] 2 2 10 [61] 10 30 10 30",
            "phase 1 began 61 s ago, and the greatest cycle is 60 s",
        ),
        (
            "early",
            "G\t20\t60\t2\t2\t10\t9\t10\t30\t10\t30",
            "G 20 60 2 2 [10] [9] 10 30 10 30",
            "phase 1 began 9 s ago, and the phase that is shown has shown for longer, 10 s",
        ),
        (
            "first",
            "G\t20\t60\t2\t1\t10\t20\t10\t30\t10\t30",
            "G 20 60 2 1 [10] [20] 10 30 10 30",
            "phase 1 is shown and began 20 s ago, and has shown for 10 s",
        ),
    ] {
        explains(name, 2, text, 3, shown, why);
    }
}

#[test]
fn links() {
    for (name, text, shown, why) in [
        (
            "capacity",
            "Q\t2000000001\t10\t0\t1\t1\t0\t0",
            "Q [2000000001] 10 0 1 1 0 0",
            "the capacity is 2000000001, and 0 to 2000000000 is due",
        ),
        (
            "travel",
            "Q\t60000\t0\t0\t1\t1\t0\t0",
            "Q 60000 [0] 0 1 1 0 0",
            "the travel time is 0, and 1 to 3600 is due",
        ),
        (
            "rate",
            "Q\t60000\t10\t10001\t1\t1\t0\t0",
            "Q 60000 10 [10001] 1 1 0 0",
            "the exit rate is 10001, and 0 to 10000 is due",
        ),
        (
            "signal",
            "Q\t60000\t10\t0\t2\t1\t0\t0",
            "Q 60000 10 0 [2] 1 0 0",
            "the signal is 2, and 0 to 1 is due",
        ),
        (
            "unsignalled",
            "Q\t60000\t10\t0\t0\t1\t0\t0",
            "Q 60000 10 0 [0] [1] 0 0",
            "the mask is 1, and without a signal 0 is due",
        ),
        (
            "shut",
            "Q\t60000\t10\t0\t1\t0\t0\t0",
            "Q 60000 10 0 1 [0] 0 0",
            "the mask is 0, and signal 1 must open the link in one of its phases",
        ),
        (
            "mask",
            "Q\t60000\t10\t0\t1\t5\t0\t0",
            "Q 60000 10 0 1 [5] 0 0",
            "the mask 5 is phase 1 and 3, and signal 1 has 2",
        ),
        (
            "standing",
            "Q\t60000\t10\t0\t1\t1\t60001\t0",
            "Q [60000] 10 0 1 1 [60001] 0",
            "60.001 vehicles stand on it at the start, and its capacity is 60",
        ),
    ] {
        explains(name, 3, text, 4, shown, why);
    }
}

#[test]
fn movements_and_steps() {
    for (name, text, shown, why) in [
        (
            "from",
            "M\t3\t2\t500\t1000",
            "M [3] 2 500 1000",
            "the link that it leaves is 3, and 1 to 2 is due",
        ),
        (
            "same",
            "M\t2\t2\t500\t1000",
            "M [2] [2] 500 1000",
            "it leaves and enters the same link, 2",
        ),
        (
            "moving",
            "M\t1\t2\t0\t1000",
            "M 1 2 [0] 1000",
            "the rate is 0, and 1 to 10000 is due",
        ),
        (
            "share",
            "M\t1\t2\t500\t1001",
            "M 1 2 500 [1001]",
            "the share is 1001, and 1 to 1000 is due",
        ),
        (
            "shares",
            "M\t1\t2\t500\t999",
            "M 1 2 500 [999]",
            "the shares of the movements from link 1 are 999, 999 in all, and 1000 is due",
        ),
    ] {
        explains(name, 5, text, 5, shown, why);
    }
    explains(
        "length",
        6,
        "S\t0\t5000\t0",
        6,
        "S [0] 5000 0",
        "the length is 0, and 1 to 60 is due",
    );
    explains(
        "demand",
        6,
        "S\t10\t600001\t0",
        6,
        "S 10 [600001] 0",
        "the demand of link 1 is 600001, and 0 to 600000 is due",
    );
}

/// A folder of this network and an empty plan.
fn folder_of(name: &str, network: &str) -> String {
    let folder = scratch(name);
    fs::write(folder.join("network.tsv"), network).unwrap();
    fs::write(folder.join("plan.tsv"), "").unwrap();
    folder.display().to_string()
}

/// What `explain` says from its second line on, without what to do.
fn told(name: &str, network: &str) -> String {
    let said = workbench(&["explain", &folder_of(name, network)]);
    assert_eq!(said.status, 1, "{name}");
    let lines = said
        .out
        .lines()
        .skip(1)
        .filter(|line| !line.starts_with("what to do: "));
    lines.collect::<Vec<_>>().join("\n")
}

const TWO_MOVEMENTS: &str =
    "N\t3\t1\t2\t1\t0\t0\nG\t20\t60\t2\t1\t10\t10\t10\t60\t10\t20\nQ\t9\t10\t0\t0\t0\t0\t0\nQ\t9\t10\t0\t0\t0\t0\t0\n\
    Q\t9\t10\t0\t0\t0\t0\t0\nM\t1\t2\t500\t700\nM\t1\t3\t500\t300\nS\t10\t0\t0\t0\n";

#[test]
fn other_lines_that_have_a_part_are_shown_too() {
    assert_eq!(
        told("faults_two_shares", &TWO_MOVEMENTS.replace("500\t300", "500\t301")),
        "  network line 7: M 1 3 500 [301]\n  network line 6: M 1 2 500 [700]\n\
         why: the shares of the movements from link 1 are 700 and 301, 1001 in all, and 1000 is due"
    );
    assert_eq!(
        told("faults_pairs", &TWO_MOVEMENTS.replace("M\t1\t3", "M\t1\t2")),
        "  network line 7: M [1] [2] 500 300\n  network line 6: M [1] [2] 500 700\n\
         why: it goes from link 1 to link 2, behind the movement from link 1 to link 2: the pairs must rise"
    );
    assert_eq!(
        told("faults_two_lengths", &TWO_MOVEMENTS.replace("S\t10", "S\t21")),
        "  network line 8: S [21] 0 0 0\n  network line 2: G 20 60 2 1 10 10 10 60 10 [20]\n\
         why: the step lasts 21 s, and the greatest time of phase 2 of signal 1 is 20 s"
    );
}

#[test]
fn trams() {
    let network = |trams: &str, count: u32| {
        format!(
            "N\t1\t1\t0\t4\t{count}\t0\n{trams}G\t20\t60\t2\t1\t10\t10\t10\t60\t10\t60\nQ\t9\t10\t0\t0\t0\t0\t0\n{}",
            "S\t10\t0\n".repeat(4)
        )
    };
    for (name, trams, count, words) in [
        ("tram_signal", "T\t2\t1\t1\t1\n", 1, "  network line 2: T [2] 1 1 1\nwhy: its signal is 2, and 1 to 1 is due"),
        ("tram_step", "T\t1\t1\t1\t5\n", 1, "  network line 2: T 1 1 1 [5]\nwhy: its last step is 5, and 1 to 4 is due"),
        ("tram_back", "T\t1\t1\t3\t2\n", 1, "  network line 2: T 1 1 [3] [2]\nwhy: its first step 3 is above its last, 2"),
        ("tram_phase", "T\t1\t3\t1\t1\n", 1, "  network line 2: T 1 [3] 1 1\n  network line 3: G 20 60 [2] 1 10 10 10 60 10 60\nwhy: its phase is 3, and signal 1 has 2"),
        ("tram_twice", "T\t1\t1\t1\t2\nT\t1\t2\t2\t3\n", 2, "  network line 3: T [1] 2 [2] [3]\n  network line 2: T [1] 1 [1] [2]\nwhy: signal 1 is claimed from step 1 to step 2 by line 2 already"),
    ] {
        assert_eq!(told(&format!("faults_{name}"), &network(trams, count)), words, "{name}");
    }
}

#[test]
fn pasts() {
    let network = |link: &str, past: &str, count: u32, steps: usize| {
        format!(
            "N\t1\t0\t0\t{steps}\t0\t{count}\n{link}\n{past}{}",
            "S\t10\t0\n".repeat(steps)
        )
    };
    let link = "Q\t60000\t15\t500\t0\t0\t1000\t0";
    let past = "H\t10\t5000\t0\nH\t10\t0\t3501\n";
    for (name, text, words) in [
        ("past_left", network(link, past, 2, 1), "  network line 2: Q 60000 [15] 500 0 0 [1000] 0\nwhy: link 1: 3.501 vehicles have left by the past's end, and 3.5 have arrived, 1 that stood there among them"),
        ("past_held", network("Q\t5999\t15\t500\t0\t0\t1000\t0", "H\t10\t5000\t0\n", 1, 1), "  network line 2: Q [5999] 15 500 0 0 [1000] 0\nwhy: link 1: 1 vehicles stood on it, 5 entered and 0 left in the past: it holds 6, and its capacity is 5.999"),
        ("past_length", network(link, "H\t61\t0\t0\n", 1, 1), "  network line 3: H [61] 0 0\nwhy: the length is 61, and 1 to 60 is due"),
        ("past_steps", network(link, &"H\t1\t0\t0\n".repeat(61), 61, 60), "  network line 1: N 1 0 0 [60] 0 [61]\nwhy: 61 past steps and 60 steps are 121, and at most 120 are due"),
        ("past_coming", network("Q\t60000\t15\t500\t0\t0\t0\t72000001", "", 0, 1), "  network line 2: Q 60000 15 500 0 0 0 [72000001]\nwhy: link 1: 0 vehicles entered in the past, 72000.001 wait outside and 0 are its demand: 72000.001 in all, and at most 72000 are due"),
    ] {
        assert_eq!(told(&format!("faults_{name}"), &text), words, "{name}");
    }
    // What the library takes is just below.
    for text in [
        network(link, &past.replace("3501", "3500"), 2, 1),
        network("Q\t60000\t15\t500\t0\t0\t0\t72000000", "", 0, 1),
    ] {
        assert_eq!(
            workbench(&["check", &folder_of("faults_past_fits", &text)]).status,
            0,
            "{text}"
        );
    }
}

#[test]
fn listings() {
    let network = example("listing/network.tsv");
    let file = scratch("faults_listing").join("listing.txt");
    for (text, number, shown, why) in [
        ("i_1_1\t0.5\n", 22, "listing line 1: [i_1_1\\t0.5]", "a space is due between the variable and its value"),
        ("x_1_1 0.5\n", 22, "listing line 1: [x_1_1] 0.5", "'x_1_1' is no variable: p_l_k_n, i_i_n, o_i_n and m_j_n are, their indices without leading zeros"),
        ("i_01_1 0.5\n", 22, "listing line 1: [i_01_1] 0.5", "'i_01_1' is no variable: p_l_k_n, i_i_n, o_i_n and m_j_n are, their indices without leading zeros"),
        ("i_3_1 0.5\n", 22, "listing line 1: [i_3_1] 0.5", "there is no link 3: the network has 2"),
        ("m_1_5 0.5\n", 22, "listing line 1: [m_1_5] 0.5", "there is no step 5: the network has 4"),
        ("p_1_3_1 1\n", 22, "listing line 1: [p_1_3_1] 1", "there is no phase 3: signal 1 has 2"),
        ("p_1_1_1 0.5\n", 22, "listing line 1: p_1_1_1 [0.5]", "its value is 0.5, and a phase has 0 or 1"),
        ("i_1_1 5e-1\n", 22, "listing line 1: i_1_1 [5e-1]", "its value is '5e-1', and 1 to 10 digits are due, then perhaps a point and 1 to 6 more: neither sign nor exponent"),
        ("i_1_1 0.5\ni_1_1 0.5\n", 22, "listing line 2: [i_1_1] 0.5\n  listing line 1: [i_1_1] 0.5", "line 1 has set i_1_1 before"),
        ("i_1_1 0.5", 22, "listing line 1: i_1_1 0.5", "no line feed ends it"),
        ("i_1_1 0.00005\n", 23, "listing line 1: i_1_1 [0.00005]", "0.00005 vehicles a second for the 10 s of step 1 are 0.0005, which is no whole number of thousandths"),
        ("i_1_1 429496.7296\n", 23, "listing line 1: i_1_1 [429496.7296]", "429496.7296 vehicles a second for the 10 s of step 1 are 4294967.296, and at most 4294967.295 are due"),
    ] {
        fs::write(&file, text).unwrap();
        let said = workbench(&["listing", &network, &file.display().to_string()]);
        assert_eq!((said.status, said.out.as_str()), (1, ""), "{text}");
        assert!(said.err.starts_with(&format!("workbench: refused with {number} ")), "{text}: {}", said.err);
        assert!(said.err.contains(&format!("\n  {shown}\nwhy: {why}\nwhat to do: ")), "{text}: {}", said.err);
    }
    fs::write(&file, "p_1_1_1 1.000000\np_1_2_1 00\n").unwrap();
    assert_eq!(workbench(&["listing", &network, &file.display().to_string()]).status, 0);
}

#[test]
fn sheets() {
    let folder = scratch("faults_sheet");
    let network = folder.join("network.tsv");
    let steps = "S\t10\t0\n".repeat(6);
    let signal = "G\t20\t20\t2\t2\t10\t20\t10\t30\t10\t30\nQ\t60000\t10\t500\t0\t0\t0\t0\n";
    fs::write(&network, format!("N\t1\t1\t0\t6\t0\t0\n{signal}{steps}")).unwrap();
    let sheet = folder.join("sheet.tsv");
    let [network, sheet] = [network, sheet].map(|path| path.display().to_string());
    for (text, number, shown, why) in [
        ("F\t9\t10\t0\n", 33, "sheet line 1: F [9] 10 0", "the duration of phase 1 is 9, and 10 to 30 is due"),
        ("F\t10\t10\t20\n", 33, "sheet line 1: F 10 10 [20]", "the offset is 20, and below 20 is due, the sum of the durations"),
        ("F\t10\t10\n", 33, "sheet line 1: F 10 10", "it has 3 fields, and 4 are due: F, the duration of each phase, and the offset where a plan is to be written"),
        ("", 33, "sheet line 1: (there is none)", "the text has 0 lines, and 1 are due"),
        ("F\t15\t10\t0\n", 35, "sheet line 1: F [15] 10 [0]", "phase 1 ends at second 15, inside step 2 (seconds 10 to 20)"),
        ("F\t10\t10\t5\n", 35, "sheet line 1: F [10] 10 [5]", "phase 1 ends at second 5, inside step 1 (seconds 0 to 10)"),
    ] {
        fs::write(&sheet, text).unwrap();
        let said = workbench(&["sheet", &network, &sheet]);
        assert_eq!((said.status, said.out.as_str()), (1, ""), "{text}");
        assert!(said.err.starts_with(&format!("workbench: refused with {number} ")), "{text}: {}", said.err);
        assert!(said.err.contains(&format!("\n  {shown}\nwhy: {why}\nwhat to do: ")), "{text}: {}", said.err);
    }
    fs::write(&network, format!("N\t1\t1\t0\t6\t1\t0\nT\t1\t2\t2\t3\n{signal}{steps}")).unwrap();
    fs::write(&sheet, "F\t10\t10\t0\n").unwrap();
    let said = workbench(&["sheet", &network, &sheet]);
    let words = "\n  network line 2: T [1] 2 2 3\nwhy: a tram claims signal 1 from step 2 to step 3\n";
    assert!(
        said.err.contains("refused with 35 ") && said.err.contains(words),
        "{}",
        said.err
    );
}

#[test]
fn corridors_in_cells() {
    let file = scratch("faults_cells").join("corridor.tsv");
    let many = "C\t1\t1\t1\t0\n".repeat(65);
    for (text, number, shown, why) in [
        (
            "C\t2000000001\t9\t1\t0\n",
            36,
            "corridor line 1: C [2000000001] 9 1 0",
            "the flow limit is 2000000001, and 0 to 2000000000 is due",
        ),
        (
            "C\t1\t9\t0\t0\n",
            36,
            "corridor line 1: C 1 9 [0] 0",
            "the wave ratio is 0, and 1 to 1000 is due",
        ),
        (
            &many,
            36,
            "corridor line 65: [C] 1 1 1 0",
            "64 cells are before it, and there may be no more",
        ),
        (
            "C\t1\t9\t1\t0\nX\t1\t1\n",
            36,
            "corridor line 2: X 1 1",
            "it has 3 fields, and 2 are due: X, exit limit",
        ),
        (
            "C\t1\t9\t1\t0\nX\t1\n",
            36,
            "corridor line 3: (there is none)",
            "the text ends, and a line of letter D is due",
        ),
        (
            "C\t1\t9\t1\t9001\n",
            37,
            "corridor line 1: C 1 [9] 1 [9001]",
            "it starts with 9.001 vehicles, and its holding limit is 0.009",
        ),
    ] {
        fs::write(&file, text).unwrap();
        let said = workbench(&["cells", &file.display().to_string()]);
        assert_eq!(said.status, 1, "{text}");
        assert!(
            said.out.starts_with(&format!("refused with {number} ")),
            "{text}: {}",
            said.out
        );
        assert!(
            said.out.contains(&format!("\n  {shown}\nwhy: {why}\nwhat to do: ")),
            "{text}: {}",
            said.out
        );
    }
}

#[test]
fn halves() {
    let said = workbench(&["split", &example("split"), "1-2", "-o", "nowhere"]);
    assert_eq!(said.status, 1);
    let words = "why: from link 1 to link 3 a movement crosses, and link 1 has signal 1\n";
    assert!(said.err.contains(words), "{}", said.err);
    let lines: Vec<&str> = said
        .err
        .lines()
        .filter(|line| line.starts_with("  network line "))
        .collect();
    assert!(lines.iter().any(|line| line.contains(": M [1] [3] ")), "{lines:?}");
    assert!(
        lines.iter().any(|line| line.contains(": Q ") && line.contains("[1]")),
        "{lines:?}"
    );
}
