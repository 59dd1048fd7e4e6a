//! Plans held to fixed-time sheets, plans written for them, and what is declined.

use plancheck::{
    check_plan, check_sheet, plan_from_sheet, required_ledger_len, Refusal, MAX_LEDGER_LEN, MAX_WRITTEN_PLAN_LEN,
};

/// One link and a signal of two phases, whose cycle is twenty seconds; so many tram lines, and six steps of ten seconds.
fn network(trams: &str) -> String {
    let count = trams.lines().count();
    let steps = "S\t10\t0\n".repeat(6);
    format!("N\t1\t1\t0\t6\t{count}\t0\n{trams}G\t20\t20\t2\t2\t10\t20\t10\t30\t10\t30\nQ\t60000\t10\t500\t0\t0\t0\t0\n{steps}")
}

fn plan(masks: &[u32]) -> String {
    masks.iter().map(|mask| format!("P\t{mask}\t0\t0\n")).collect()
}

fn refusal(number: u32, line: u32, item: u32) -> Refusal {
    Refusal { number, line, item }
}

fn kept(trams: &str, masks: &[u32], sheet: &str) -> Result<u64, Refusal> {
    let mut ledger = [7; required_ledger_len(1, 6)];
    let answer = check_sheet(
        network(trams).as_bytes(),
        plan(masks).as_bytes(),
        sheet.as_bytes(),
        &mut ledger,
    );
    let untouched = matches!(
        answer,
        Err(Refusal {
            number: 1..=6 | 8 | 28 | 30 | 33,
            ..
        })
    );
    assert_eq!(ledger == [7; required_ledger_len(1, 6)], untouched);
    answer.map(|totals| totals.doubled_time)
}

fn written(trams: &str, sheet: &str) -> Result<String, Refusal> {
    let mut buffer = [0; 256];
    let length = plan_from_sheet(network(trams).as_bytes(), sheet.as_bytes(), &mut buffer)?;
    assert!(buffer[length..].iter().all(|byte| *byte == 0));
    Ok(String::from_utf8(buffer[..length].to_vec()).unwrap())
}

const AVENUE: &str = include_str!("../../../examples/avenue/network.tsv");
const AVENUE_PLAN: &str = include_str!("../../../examples/avenue/plan.tsv");
const SHEET: &str = include_str!("../../../examples/sheet/sheet.tsv");
const OFFSETS: &str = include_str!("../../../examples/sheet/offsets.tsv");

/// The numbers of each line of a letter.
fn records(text: &str, letter: &str) -> Vec<Vec<u32>> {
    let of_letter = text.lines().filter(|line| line.starts_with(letter));
    of_letter
        .map(|line| line.split('\t').skip(1).map(|field| field.parse().unwrap()).collect())
        .collect()
}

/// The mask of the phase that a line of a sheet with offsets shows at a second, found by going through the cycle.
fn mask_at(line: &[u32], second: u32) -> u32 {
    let (&offset, durations) = line.split_last().unwrap();
    let phases = (0..durations.len()).cycle();
    let mut left = offset + second;
    for phase in phases {
        if left < durations[phase] {
            return 1 << phase;
        }
        left -= durations[phase];
    }
    unreachable!()
}

#[test]
fn the_avenue_by_a_sheet() {
    let mut buffer = vec![0; MAX_WRITTEN_PLAN_LEN];
    let length = plan_from_sheet(AVENUE.as_bytes(), OFFSETS.as_bytes(), &mut buffer).unwrap();
    let plan = std::str::from_utf8(&buffer[..length]).unwrap();
    let sheet = records(OFFSETS, "F");
    let mut second = 0;
    for (line, step) in records(plan, "P").iter().zip(records(AVENUE, "S")) {
        let masks: Vec<u32> = sheet.iter().map(|cycle| mask_at(cycle, second)).collect();
        assert_eq!(line[..3], masks, "second {second}");
        assert!(line[3..].iter().all(|&volume| volume == 0));
        second += step[0];
    }
    let mut ledger = vec![0; MAX_LEDGER_LEN];
    assert!(check_sheet(AVENUE.as_bytes(), plan.as_bytes(), SHEET.as_bytes(), &mut ledger).is_ok());
    let answer = check_sheet(AVENUE.as_bytes(), AVENUE_PLAN.as_bytes(), SHEET.as_bytes(), &mut ledger);
    assert_eq!(answer.unwrap_err(), refusal(34, 20, 1));
}

const TURNS: [u32; 6] = [1, 2, 1, 2, 1, 2];

#[test]
fn a_plan_keeps_its_sheet() {
    assert_eq!(kept("", &TURNS, "F\t10\t10\n"), Ok(0));
    assert_eq!(kept("", &TURNS, "F\t0000000010\t10\n"), Ok(0));
}

#[test]
fn the_first_broken_run_is_told_and_the_first_cycle_is_exempt() {
    assert_eq!(kept("", &TURNS, "F\t10\t20\n"), Err(refusal(34, 4, 1)));
    assert_eq!(kept("", &TURNS, "F\t20\t20\n"), Err(refusal(34, 3, 1)));
}

#[test]
fn a_tram_neither_ends_nor_lengthens_a_run() {
    // the run of step 3 is left in step 5
    assert_eq!(kept("T\t1\t2\t4\t4\n", &[1, 2, 1, 2, 2, 1], "F\t10\t10\n"), Ok(0));
    assert_eq!(
        kept("T\t1\t2\t4\t4\n", &[1, 2, 1, 2, 2, 1], "F\t20\t10\n"),
        Err(refusal(34, 3, 1))
    );
}

#[test]
fn a_sheet_is_refused_before_the_ledger_and_the_plan() {
    for sheet in [
        "",
        "F\t10\n",
        "F\t10\t10",
        "F\t10\t10\t0\n",
        "F\t9\t10\n",
        "F\t10\t31\n",
        "F\t10\t4294967295\n",
        "G\t10\t10\n",
    ] {
        assert_eq!(kept("", &[3], sheet), Err(refusal(33, 1, 0)), "{sheet:?}");
    }
    assert_eq!(kept("", &[3], "F\t10\t10\nF\t10\t10\n"), Err(refusal(33, 2, 0)));
    let answer = check_sheet(network("").as_bytes(), b"", b"F\t10\t10\n", &mut [0; 13]);
    assert_eq!(answer.unwrap_err(), refusal(8, 0, 0));
}

#[test]
fn the_plan_is_judged_before_its_runs() {
    assert_eq!(kept("", &[1, 2, 1, 2, 1, 3], "F\t10\t20\n"), Err(refusal(10, 6, 1)));
    assert_eq!(kept("", &TURNS[..5], "F\t10\t20\n"), Err(refusal(9, 6, 0)));
}

#[test]
fn a_plan_is_written_for_a_sheet() {
    let text = written("", "F\t10\t10\t0\n").unwrap();
    assert_eq!(text, plan(&TURNS));
    let mut ledger = [0; required_ledger_len(1, 6)];
    assert!(check_plan(network("").as_bytes(), text.as_bytes(), &mut ledger).is_ok());
    assert_eq!(written("", "F\t10\t10\t10\n").unwrap(), plan(&[2, 1, 2, 1, 2, 1]));
    assert_eq!(written("", "F\t20\t10\t10\n").unwrap(), plan(&[1, 2, 1, 1, 2, 1]));
}

#[test]
fn no_plan_is_written_off_the_boundaries_under_trams_or_into_too_little_room() {
    assert_eq!(written("", "F\t15\t10\t0\n"), Err(refusal(35, 0, 1)));
    assert_eq!(written("", "F\t10\t10\t5\n"), Err(refusal(35, 0, 1)));
    assert_eq!(written("T\t1\t1\t6\t6\n", "F\t10\t10\t0\n"), Err(refusal(35, 0, 1)));
    for sheet in ["F\t10\t10\n", "F\t10\t10\t20\n", "F\t9\t10\t0\n"] {
        assert_eq!(written("", sheet), Err(refusal(33, 1, 0)), "{sheet:?}");
    }
    let mut short = [7; 47];
    let answer = plan_from_sheet(network("").as_bytes(), b"F\t10\t10\t0\n", &mut short);
    assert_eq!((answer, short), (Err(refusal(24, 0, 0)), [7; 47]));
    let mut just = [7; 48];
    assert_eq!(
        plan_from_sheet(network("").as_bytes(), b"F\t10\t10\t0\n", &mut just),
        Ok(48)
    );
}

#[test]
fn refusals_are_told_in_words() {
    assert_eq!(
        refusal(33, 2, 0).to_string().split(':').next(),
        Some("refusal 33, sheet line 2")
    );
    assert_eq!(
        refusal(34, 4, 1).to_string(),
        "refusal 34, plan line 4, signal 1: a run does not last its duration"
    );
    assert_eq!(
        refusal(35, 0, 1).to_string(),
        "refusal 35, signal 1: a run ends on no boundary, or a tram claims the signal"
    );
}
