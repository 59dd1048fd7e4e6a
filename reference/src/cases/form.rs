//! Refusals 1 and 9: the form of every kind of line.

use super::{refused, Answer, Maker, Random, Scenario, Sheet, Texts};
use crate::Refusal;

const BAD_NUMBERS: [&[u8]; 18] = [
    b"",
    b"00000000000",
    b"00000000001",
    b"04294967295",
    b"4294967296",
    b"9999999999",
    b"10000000000",
    b"00000000000000000001",
    b"-1",
    b"+1",
    b" 1",
    b"1 ",
    b"1\r",
    b"1.0",
    b"1/",
    b"1:",
    b"\0",
    b"\xff",
];

const BAD_LETTERS: [&[u8]; 6] = [b"", b"X", b"NN", b"0", b"\0", b" "];

/// Changes of one line's form, each refused at that line. Lines are indexed
/// from 0.
pub fn broken_forms(
    random: &mut Random,
    sheet: &Sheet,
    line: usize,
) -> Vec<(&'static str, Vec<u8>)> {
    let fields = sheet.lines[line].len();
    let mut texts = Vec::new();

    // An empty plan lacks nothing.
    if line > 0 || sheet.lines[0][0] != b"P" {
        let mut cut = sheet.clone();
        cut.lines.truncate(line);
        texts.push(("line is missing", cut.text()));
    }
    let mut cut = sheet.clone();
    cut.lines.truncate(line + 1);
    texts.push(("line is unfinished", cut.unfinished_text()));
    let mut empty = sheet.clone();
    empty.lines.insert(line, vec![Vec::new()]);
    texts.push(("empty line before it", empty.text()));

    let mut with_letter = |letter: &[u8]| {
        let mut changed = sheet.clone();
        changed.set(line, 0, letter);
        texts.push(("wrong letter", changed.text()));
    };
    let own_letter = &sheet.lines[line][0];
    let bad_letters: Vec<&[u8]> = BAD_LETTERS
        .iter()
        .copied()
        .filter(|&letter| own_letter != letter)
        .collect();
    with_letter(random.pick(&bad_letters));
    with_letter(&own_letter.to_ascii_lowercase());
    let other_letters: Vec<u8> = b"NTGQMHSPF"
        .iter()
        .copied()
        .filter(|&letter| *own_letter != [letter])
        .collect();
    with_letter(&[random.pick(&other_letters)]);

    if fields > 1 {
        for _ in 0..4 {
            let field = 1 + random.index(fields - 1);
            let mut changed = sheet.clone();
            changed.set(line, field, random.pick(&BAD_NUMBERS));
            texts.push(("bad number", changed.text()));
        }
        let mut changed = sheet.clone();
        changed.set(line, fields - 1, random.pick(&BAD_NUMBERS));
        texts.push(("bad last number", changed.text()));
        // Leading zeros before a number as it stands, to one digit too many.
        let field = 1 + random.index(fields - 1);
        let mut changed = sheet.clone();
        let digits = changed.lines[line][field].len();
        changed.lines[line][field].splice(..0, vec![b'0'; 11 - digits]);
        texts.push(("eleven digits", changed.text()));
        let mut changed = sheet.clone();
        changed.lines[line].pop();
        texts.push(("field too few", changed.text()));
        let mut changed = sheet.clone();
        changed.lines[line].truncate(1);
        texts.push(("letter alone", changed.text()));
    }
    for extra in [&b"0"[..], b"", b"x"] {
        let mut changed = sheet.clone();
        changed.lines[line].push(extra.to_vec());
        texts.push(("field too many", changed.text()));
    }
    texts
}

const SURPLUS: [&[u8]; 7] = [b"\n", b"\n\n", b"\t", b"\0", b"S", b"P\t1\n", b" "];

/// Refusal 1 for a line of each kind.
pub fn network_form(maker: &mut Maker, scenario: &Scenario) {
    let network = &scenario.network;
    let sheet = Sheet::of_network(network);
    let texts = Texts::of(scenario);
    let need = scenario.ledger_need();
    let mut first_line = 0;
    for count in [
        1,
        network.trams.len(),
        network.signals.len(),
        network.links.len(),
        network.movements.len(),
        network.past.len(),
        network.steps.len(),
    ] {
        if count > 0 {
            let line = first_line + maker.random.index(count);
            for (name, text) in broken_forms(&mut maker.random, &sheet, line) {
                maker.ask_refused_network(
                    &format!("1: {name}"),
                    texts.with_network(text),
                    need,
                    refused(1, line + 1, 0),
                );
            }
        }
        first_line += count;
    }
    for _ in 0..3 {
        let mut text = texts.network.clone();
        text.extend(maker.random.pick(&SURPLUS));
        let refusal = refused(1, sheet.lines.len() + 1, 0);
        maker.ask_refused_network("1: surplus", texts.with_network(text), need, refusal);
    }
    let mut text = texts.network.clone();
    text.extend(&texts.network);
    let refusal = refused(1, sheet.lines.len() + 1, 0);
    maker.ask_refused_network("1: text twice", texts.with_network(text), need, refusal);
}

/// The order of 1 and 3 in a `G` line.
pub fn phase_count_form(maker: &mut Maker, scenario: &Scenario) {
    let signal_count = scenario.network.signals.len();
    if signal_count == 0 {
        return;
    }
    let texts = Texts::of(scenario);
    let need = scenario.ledger_need();
    let signal = maker.random.index(signal_count);
    let line = 1 + scenario.network.trams.len() + signal;
    let values = refused(3, line + 1, signal + 1);
    let form = refused(1, line + 1, 0);
    let sheet = Sheet::of_network(&scenario.network);
    let phase_count = scenario.network.signals[signal].phases.len();
    let ask = |maker: &mut Maker, name: &str, text: Vec<u8>, refusal: Refusal| {
        maker.ask_refused_network(name, texts.with_network(text), need, refusal);
    };

    // A number of phases that does not fit the number of fields.
    let other = 2 + (phase_count - 2 + 1 + maker.random.index(6)) % 7;
    let mut changed = sheet.clone();
    changed.set(line, 3, other.to_string().as_bytes());
    ask(
        maker,
        "1: field count is not that of P",
        changed.text(),
        form,
    );

    let bad_counts: [&[u8]; 7] = [b"0", b"1", b"9", b"10", b"4294967295", b"0000000009", b"00"];
    for bad in bad_counts {
        let mut changed = sheet.clone();
        changed.set(line, 3, bad);
        ask(maker, "3: number of phases", changed.text(), values);
    }
    for _ in 0..2 {
        let mut bad = sheet.clone();
        bad.set(line, 3, maker.random.pick(&bad_counts));

        // Anything after seven good fields.
        let mut seven = bad.clone();
        seven.lines[line].truncate(7);
        let name = "3: bad P, seven fields";
        ask(maker, name, seven.text(), values);
        seven.lines.truncate(line + 1);
        let name = "3: bad P, seven fields and no line feed";
        ask(maker, name, seven.unfinished_text(), values);
        let mut changed = bad.clone();
        let field = 7 + maker.random.index(changed.lines[line].len() - 7);
        changed.set(line, field, maker.random.pick(&BAD_NUMBERS));
        let name = "3: bad P, bad number after seven fields";
        ask(maker, name, changed.text(), values);
        let mut changed = bad.clone();
        changed.lines[line].push(b"1".to_vec());
        ask(maker, "3: bad P, field too many", changed.text(), values);
        let mut changed = bad.clone();
        changed.lines[line].truncate(7);
        changed.lines[line].push(Vec::new());
        changed.lines.truncate(line + 1);
        let name = "3: bad P, cut after the tab of the seventh field";
        ask(maker, name, changed.unfinished_text(), values);

        // Fewer than seven good fields.
        let mut changed = bad.clone();
        changed.lines[line].truncate(4 + maker.random.index(3));
        ask(
            maker,
            "1: bad P, fewer than seven fields",
            changed.text(),
            form,
        );
        changed.lines.truncate(line + 1);
        let name = "1: bad P, cut within the first seven fields";
        ask(maker, name, changed.unfinished_text(), form);
        let mut changed = bad.clone();
        let field = maker.random.pick(&[1, 2, 4, 5, 6]);
        changed.set(line, field, maker.random.pick(&BAD_NUMBERS));
        let name = "1: bad P, bad number in the first seven fields";
        ask(maker, name, changed.text(), form);
        let mut changed = bad.clone();
        changed.set(line, 0, maker.random.pick(&BAD_LETTERS));
        ask(maker, "1: bad P, wrong letter", changed.text(), form);
        let mut changed = bad.clone();
        changed.lines[line].truncate(6);
        changed.lines[line].push(Vec::new());
        changed.lines.truncate(line + 1);
        let name = "1: bad P, cut after the tab of the sixth field";
        ask(maker, name, changed.unfinished_text(), form);
    }

    // A good number of phases: the form of the rest, then the other values.
    let mut bad_value = sheet.clone();
    bad_value.set(line, 1, b"0");
    let mut changed = bad_value.clone();
    changed.lines[line].truncate(7);
    ask(maker, "1: bad cycle, seven fields", changed.text(), form);
    let mut changed = bad_value.clone();
    let last = changed.lines[line].len() - 1;
    changed.set(line, last, b"x");
    ask(maker, "1: bad cycle, bad last number", changed.text(), form);
    let mut changed = bad_value.clone();
    changed.lines.truncate(line + 1);
    ask(
        maker,
        "1: bad cycle, no line feed",
        changed.unfinished_text(),
        form,
    );
    ask(maker, "3: bad cycle alone", bad_value.text(), values);
}

/// Refusal 9 in the first, the last and some other line.
pub fn plan_form(maker: &mut Maker, scenario: &Scenario) {
    let sheet = Sheet::of_plan(&scenario.plan);
    let texts = Texts::of(scenario);
    let need = scenario.ledger_need();
    let steps = sheet.lines.len();
    let mut lines = vec![0, steps - 1, maker.random.index(steps)];
    lines.sort();
    lines.dedup();
    for line in lines {
        for (name, text) in broken_forms(&mut maker.random, &sheet, line) {
            let intended = Some(Answer::Refused(refused(9, line + 1, 0)));
            let name = format!("9: {name}");
            maker.ask_plan(&name, texts.with_plan(text), need, intended);
        }
    }
    let intended = Some(Answer::Refused(refused(9, steps + 1, 0)));
    for _ in 0..2 {
        let mut text = texts.plan.clone();
        text.extend(maker.random.pick(&SURPLUS));
        maker.ask_plan("9: surplus", texts.with_plan(text), need, intended);
    }
    let mut text = texts.plan.clone();
    text.extend(Sheet::of_plan(&scenario.plan[steps - 1..]).text());
    maker.ask_plan("9: last step twice", texts.with_plan(text), need, intended);
    let intended = Some(Answer::Refused(refused(9, 1, 0)));
    let network_as_plan = texts.with_plan(texts.network.clone());
    maker.ask_plan(
        "9: network in place of the plan",
        network_as_plan,
        need,
        intended,
    );
}
