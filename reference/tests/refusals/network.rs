//! Refusals 1 to 6.

use crate::fixture::*;
use plancheck_reference::check_network;

#[test]
fn the_junction_passes() {
    assert_network_accepted(&network().text());
}

// Refusal 1.

#[test]
fn r1_missing_line() {
    for lines in 0..network().line_count() {
        let text = network().keep(lines).text();
        assert_network_refused(&text, 1, lines as u64 + 1, 0);
    }
}

#[test]
fn r1_unfinished_line() {
    for lines in 1..=network().line_count() {
        let text = network().keep(lines).unfinished();
        assert_network_refused(&text, 1, lines as u64, 0);
    }
}

#[test]
fn r1_every_cut_of_the_text() {
    let text = network().text();
    for length in 0..text.len() {
        let line_feeds = text[..length].iter().filter(|&&byte| byte == b'\n').count();
        assert_network_refused(&text[..length], 1, line_feeds as u64 + 1, 0);
    }
}

#[test]
fn r1_surplus() {
    for surplus in ["\n", "S\t10\t0\t0\t0\n", "S", "\t", "\0", " ", "\n\n"] {
        let mut text = network().text();
        text.extend_from_slice(surplus.as_bytes());
        assert_network_refused(&text, 1, 14, 0);
    }
}

#[test]
fn r1_line_too_many_among_the_others() {
    for line in 1..=network().line_count() {
        // An empty line, which the line it stands before is taken for.
        let text = network().insert_line(line, "").text();
        assert_network_refused(&text, 1, line as u64, 0);
    }
    // A whole line too many shifts the lines below it.
    assert_network_refused(
        &network().insert_line(5, "Q 60000 10 500 2 5 0 0").text(),
        1,
        7,
        0,
    );
    assert_network_refused(&network().insert_line(11, "S 10 0 0 0").text(), 1, 14, 0);
    // A line of another kind too few.
    assert_network_refused(&network().remove_line(6).text(), 1, 6, 0);
}

#[test]
fn r1_wrong_letter() {
    let letters = [
        "N", "G", "Q", "M", "S", "P", "", "n", "g", "NN", "0", " ", "\0",
    ];
    for line in 1..=network().line_count() {
        for letter in letters {
            let sheet = network();
            if sheet.field(line, 1) == letter {
                continue;
            }
            assert_network_refused(&sheet.set(line, 1, letter).text(), 1, line as u64, 0);
        }
    }
}

#[test]
fn r1_bad_number() {
    let bad = [
        "",
        "00000000000",
        "00000000001",
        "04294967295",
        "-1",
        "+1",
        " 1",
        "1 ",
        "1\r",
        "x",
        "1x",
        "1/",
        "1:",
        "\0",
        "0x1",
        "4294967296",
        "9999999999",
        "10000000000",
    ];
    for line in 1..=network().line_count() {
        for field in 2..=network().field_count(line) {
            for number in bad {
                let text = network().set(line, field, number).text();
                assert_network_refused(&text, 1, line as u64, 0);
            }
        }
    }
}

#[test]
fn padded_numbers() {
    assert_network_accepted(&network().pad().text());
    for line in 1..=network().line_count() {
        for field in 2..=network().field_count(line) {
            let number: u64 = network().field(line, field).parse().unwrap();
            for width in 1..=10 {
                let padded = network().set(line, field, format!("{number:0width$}"));
                assert_network_accepted(&padded.text());
            }
            let padded = network().pad().set(line, field, format!("{number:011}"));
            assert_network_refused(&padded.text(), 1, line as u64, 0);
        }
    }
    assert_network_refused(&network().set(2, 4, 9).pad().text(), 3, 2, 1);
    assert_network_refused(&network().set(4, 3, 0).pad().text(), 4, 4, 1);
}

#[test]
fn r1_wrong_field_count() {
    for line in 1..=network().line_count() {
        let last = network().field_count(line);
        for extra in ["0", "1", "", "x"] {
            let text = network().append_field(line, extra).text();
            assert_network_refused(&text, 1, line as u64, 0);
        }
        let text = network().remove_field(line, last).text();
        assert_network_refused(&text, 1, line as u64, 0);
        let text = network().set_line(line, network().field(line, 1)).text();
        assert_network_refused(&text, 1, line as u64, 0);
    }
}

#[test]
fn r1_form_comes_before_values_in_one_line() {
    // Counts.
    assert_network_refused(&network().set(1, 2, 25).set(1, 5, "x").text(), 1, 1, 0);
    assert_network_refused(
        &network().set(1, 2, 25).append_field(1, "0").text(),
        1,
        1,
        0,
    );
    assert_network_refused(b"N\t25\t2\t3\t4", 1, 1, 0);
    // Signal values other than the number of phases.
    assert_network_refused(&network().set(2, 2, 0).set(2, 11, "x").text(), 1, 2, 0);
    assert_network_refused(&network().set(2, 5, 0).append_field(2, "1").text(), 1, 2, 0);
    // Link, movement and step.
    assert_network_refused(
        &network().set(4, 2, 2_000_000_001u64).set(4, 7, "x").text(),
        1,
        4,
        0,
    );
    assert_network_refused(&network().set(7, 2, 0).set(7, 5, "x").text(), 1, 7, 0);
    assert_network_refused(&network().set(10, 2, 0).set(10, 5, "x").text(), 1, 10, 0);
    assert_network_refused(&network().set(13, 2, 0).unfinished(), 1, 13, 0);
}

#[test]
fn r1_values_of_a_line_come_before_the_form_of_the_next() {
    assert_network_refused(&network().set(1, 2, 25).set(2, 1, "X").text(), 2, 1, 0);
    assert_network_refused(&network().set(2, 2, 0).set(3, 1, "X").text(), 3, 2, 1);
    assert_network_refused(&network().set(4, 3, 0).set(5, 1, "X").text(), 4, 4, 1);
    assert_network_refused(&network().set(7, 4, 0).set(8, 1, "X").text(), 5, 7, 1);
    assert_network_refused(&network().set(10, 2, 0).set(11, 1, "X").text(), 6, 10, 1);
}

// Refusal 2.

#[test]
fn r2_counts_outside_their_limits() {
    for (field, count) in [
        (2, 0u64),
        (2, 25),
        (2, 4_294_967_295),
        (3, 9),
        (3, 4_294_967_295),
        (4, 65),
        (4, 4_294_967_295),
        (5, 0),
        (5, 121),
        (5, 4_294_967_295),
    ] {
        assert_network_refused(&network().set(1, field, count).text(), 2, 1, 0);
        // No later line is looked at.
        assert_network_refused(&network().set(1, field, count).keep(1).text(), 2, 1, 0);
    }
    assert_network_refused(
        b"N\t4294967295\t4294967295\t4294967295\t4294967295\t0\t0\n",
        2,
        1,
        0,
    );
}

#[test]
fn r2_near_misses() {
    // With the largest counts the first missing line is the second.
    assert_network_refused(b"N\t24\t8\t64\t120\t0\t0\n", 1, 2, 0);
    assert_network_refused(b"N\t1\t0\t0\t1\t0\t0\n", 1, 2, 0);
    // The smallest network.
    assert_network_accepted(b"N\t1\t0\t0\t1\t0\t0\nQ\t0\t1\t0\t0\t0\t0\t0\nS\t1\t0\n");
    // The counts of the largest one, every line as small as can be.
    let mut text = "N\t24\t8\t64\t120\t0\t0\n".to_string();
    text += &"G\t1\t1\t2\t1\t0\t0\t1\t1\t1\t1\n".repeat(8);
    text += &"Q\t0\t1\t0\t0\t0\t0\t0\n".repeat(24);
    for from in 1..=16 {
        for to in 17..=19 {
            text += &format!("M\t{from}\t{to}\t1\t{}\n", if to == 17 { 250 } else { 375 });
        }
    }
    for to in 1..=16 {
        let share = if to == 1 { 1000 - 15 * 60 } else { 60 };
        text += &format!("M\t20\t{to}\t1\t{share}\n");
    }
    text += &format!("S\t1{}\n", "\t0".repeat(24)).repeat(120);
    assert_network_accepted(text.as_bytes());
}

// Refusal 3.

#[test]
fn r3_number_of_phases() {
    for count in [0u64, 1, 9, 10, 4_294_967_295] {
        assert_network_refused(&network().set(2, 4, count).text(), 3, 2, 1);
        assert_network_refused(&network().set(3, 4, count).text(), 3, 3, 2);
    }
    // A good number of phases that the field count does not bear out.
    for count in [2, 4, 8] {
        assert_network_refused(&network().set(3, 4, count).text(), 1, 3, 0);
    }
    // Two and eight phases.
    assert_network_accepted(
        &network()
            .set_line(3, "G 15 90 8 1 5 5 1 30 1 30 1 30 1 30 1 30 1 30 1 30 1 30")
            .text(),
    );
    assert_network_accepted(
        &network()
            .set_line(3, "G 15 90 2 1 5 5 1 30 1 30")
            .set(5, 6, 3)
            .text(),
    );
}

#[test]
fn r3_bad_number_of_phases_comes_before_anything_later_in_the_line() {
    let start = "N\t1\t1\t0\t1\t0\t0\n";
    for count in ["0", "1", "9", "4294967295", "0000000009", "01"] {
        let head = format!("{start}G\t20\t60\t{count}\t2\t10\t20");
        for tail in [
            "",
            "\n",
            "\t",
            "\t\n",
            "\tx\n",
            "\t10\t30\t10\t30\n",
            "\t10",
        ] {
            assert_network_refused(format!("{head}{tail}").as_bytes(), 3, 2, 1);
        }
        // A seventh field that is cut short but good.
        assert_network_refused(&head.as_bytes()[..head.len() - 1], 3, 2, 1);
        // Fewer than seven fields, or a bad one among them.
        for line in [
            format!("G\t20\t60\t{count}\t2\t10\t"),
            format!("G\t20\t60\t{count}\t2\t10\t\n"),
            format!("G\t20\t60\t{count}\t2\t10"),
            format!("G\t20\t60\t{count}\t2\t10\n"),
            format!("G\t20\t60\t{count}\n"),
            format!("G\t20\t60\t{count}\t2\t10\t20x\t1\n"),
            format!("G\t20\t60\t{count}\t2\t10\t00000000020\t1\n"),
            format!("G\t20\t60\t{count}\t2\tx\t20\t1\n"),
            format!("G\tx\t60\t{count}\t2\t10\t20\t1\n"),
            format!("G\t20\t4294967296\t{count}\t2\t10\t20\t1\n"),
            format!("g\t20\t60\t{count}\t2\t10\t20\t1\n"),
            format!("\t20\t60\t{count}\t2\t10\t20\t1\n"),
            format!("GG\t20\t60\t{count}\t2\t10\t20\t1\n"),
        ] {
            assert_network_refused(format!("{start}{line}").as_bytes(), 1, 2, 0);
        }
    }
    // A good number of phases: the form of the rest, then the other values.
    for tail in [
        "",
        "\n",
        "\t10\t30\t10\n",
        "\t10\t30\t10\t30",
        "\t10\t30\t10\tx\n",
    ] {
        let text = format!("{start}G\t0\t60\t2\t2\t10\t20{tail}");
        assert_network_refused(text.as_bytes(), 1, 2, 0);
    }
    let text = format!("{start}G\t0\t60\t2\t2\t10\t20\t10\t30\t10\t30\n");
    assert_network_refused(text.as_bytes(), 3, 2, 1);
}

#[test]
fn r3_shown_phase() {
    for phase in [0u64, 3, 4_294_967_295] {
        assert_network_refused(&network().set(2, 5, phase).text(), 3, 2, 1);
    }
    for phase in [0u64, 4, 4_294_967_295] {
        assert_network_refused(&network().set(3, 5, phase).text(), 3, 3, 2);
    }
    // Phase 1 has shown since the clock began.
    assert_network_accepted(&network().set(2, 5, 1).set(2, 7, 10).text());
    for phase in 1..=3 {
        assert_network_accepted(&network().set(3, 5, phase).text());
    }
}

#[test]
fn r3_times_of_a_phase() {
    // Signal 2 shows phase 1; phase 2 is in fields 10 and 11.
    assert_network_refused(&network().set(3, 10, 0).text(), 3, 3, 2);
    assert_network_accepted(&network().set(3, 10, 1).text());
    assert_network_accepted(&network().set(3, 10, 20).text());
    assert_network_refused(&network().set(3, 10, 21).text(), 3, 3, 2);
    assert_network_accepted(&network().set(3, 11, 3600).text());
    assert_network_refused(&network().set(3, 11, 3601).text(), 3, 3, 2);
    assert_network_accepted(&network().set(3, 10, 3600).set(3, 11, 3600).text());
    assert_network_refused(&network().set(3, 10, 3601).set(3, 11, 3601).text(), 3, 3, 2);
    assert_network_refused(&network().set(3, 11, 4_294_967_295u64).text(), 3, 3, 2);
    // The first and the last phase.
    assert_network_refused(&network().set(3, 8, 0).text(), 3, 3, 2);
    assert_network_refused(&network().set(3, 8, 31).text(), 3, 3, 2);
    assert_network_refused(&network().set(3, 9, 3601).text(), 3, 3, 2);
    assert_network_refused(&network().set(3, 12, 0).text(), 3, 3, 2);
    assert_network_refused(&network().set(3, 12, 41).text(), 3, 3, 2);
    assert_network_refused(&network().set(3, 13, 3601).text(), 3, 3, 2);
}

#[test]
fn r3_times_of_the_cycle() {
    assert_network_refused(&network().set(3, 2, 0).text(), 3, 3, 2);
    assert_network_accepted(&network().set(3, 2, 1).text());
    assert_network_accepted(&network().set(3, 2, 90).text());
    assert_network_refused(&network().set(3, 2, 91).text(), 3, 3, 2);
    assert_network_accepted(&network().set(3, 3, 3600).text());
    assert_network_refused(&network().set(3, 3, 3601).text(), 3, 3, 2);
    assert_network_accepted(&network().set(3, 2, 3600).set(3, 3, 3600).text());
    assert_network_refused(&network().set(3, 2, 3601).set(3, 3, 3601).text(), 3, 3, 2);
    // A cycle may be shorter than the phases together.
    assert_network_accepted(&network().set(3, 2, 5).set(3, 3, 5).text());
}

#[test]
fn r3_shown_seconds() {
    // Signal 1 shows phase 2 of at most 30 seconds, its clock stands at 20.
    assert_network_accepted(&network().set(2, 6, 30).set(2, 7, 30).text());
    assert_network_refused(&network().set(2, 6, 31).set(2, 7, 31).text(), 3, 2, 1);
    assert_network_accepted(&network().set(2, 6, 0).text());
    // The greatest time of the phase shown counts, not another's.
    assert_network_accepted(&network().set(2, 6, 31).set(2, 7, 31).set(2, 11, 31).text());
    assert_network_refused(
        &network().set(2, 6, 31).set(2, 7, 31).set(2, 9, 31).text(),
        3,
        2,
        1,
    );
    assert_network_refused(&network().set(2, 6, 4_294_967_295u64).text(), 3, 2, 1);
}

#[test]
fn r3_clock() {
    assert_network_accepted(&network().set(2, 7, 60).text());
    assert_network_refused(&network().set(2, 7, 61).text(), 3, 2, 1);
    assert_network_refused(&network().set(2, 7, 4_294_967_295u64).text(), 3, 2, 1);
    assert_network_accepted(&network().set(2, 7, 10).text());
    assert_network_refused(&network().set(2, 7, 9).text(), 3, 2, 1);
    // Signal 2 shows phase 1 for 5 seconds.
    assert_network_refused(&network().set(3, 7, 4).text(), 3, 3, 2);
    assert_network_refused(&network().set(3, 7, 6).text(), 3, 3, 2);
    assert_network_accepted(&network().set(3, 6, 6).set(3, 7, 6).text());
    assert_network_accepted(&network().set(3, 6, 0).set(3, 7, 0).text());
}

// Refusal 4.

#[test]
fn r4_capacity() {
    for link in 1..=3u64 {
        let line = 3 + link as usize;
        assert_network_accepted(&network().set(line, 2, 2_000_000_000u64).text());
        for capacity in [2_000_000_001u64, 4_294_967_295] {
            let text = network().set(line, 2, capacity).text();
            assert_network_refused(&text, 4, line as u64, link);
        }
    }
    assert_network_accepted(&network().set(5, 2, 0).text());
}

#[test]
fn r4_travel_time() {
    for link in 1..=3u64 {
        let line = 3 + link as usize;
        for time in [0u64, 3601, 4_294_967_295] {
            assert_network_refused(&network().set(line, 3, time).text(), 4, line as u64, link);
        }
        assert_network_accepted(&network().set(line, 3, 3600).text());
        assert_network_accepted(&network().set(line, 3, 1).text());
    }
}

#[test]
fn r4_exit_rate() {
    assert_network_accepted(&network().set(4, 4, 10_000).text());
    assert_network_refused(&network().set(4, 4, 10_001).text(), 4, 4, 1);
    assert_network_refused(&network().set(6, 4, 4_294_967_295u64).text(), 4, 6, 3);
    assert_network_accepted(&network().set(6, 4, 0).text());
}

#[test]
fn r4_signal() {
    assert_network_accepted(&network().set(4, 5, 2).text());
    assert_network_refused(&network().set(4, 5, 3).text(), 4, 4, 1);
    assert_network_refused(
        &network().set(6, 5, 4_294_967_295u64).set(6, 6, 1).text(),
        4,
        6,
        3,
    );
    // No signal at all.
    let text = b"N\t1\t0\t0\t1\t0\t0\nQ\t0\t1\t0\t1\t1\t0\t0\nS\t1\t0\n";
    assert_network_refused(text, 4, 2, 1);
}

#[test]
fn r4_phase_mask() {
    // Without a signal.
    for mask in [1u64, 2, 4_294_967_295] {
        assert_network_refused(&network().set(6, 6, mask).text(), 4, 6, 3);
    }
    // With a signal of two phases.
    for mask in [1, 2, 3] {
        assert_network_accepted(&network().set(4, 6, mask).text());
    }
    for mask in [0u64, 4, 5, 7, 8, 1 << 31, 4_294_967_295] {
        assert_network_refused(&network().set(4, 6, mask).text(), 4, 4, 1);
    }
    // With a signal of three phases.
    for mask in 1..=7 {
        assert_network_accepted(&network().set(5, 6, mask).text());
    }
    for mask in [0u64, 8, 9, 15, 1 << 31, 4_294_967_295] {
        assert_network_refused(&network().set(5, 6, mask).text(), 4, 5, 2);
    }
    // With a signal of eight phases.
    let eight = "G 15 90 8 1 5 5 1 30 1 30 1 30 1 30 1 30 1 30 1 30 1 30";
    for mask in [128, 255] {
        assert_network_accepted(&network().set_line(3, eight).set(5, 6, mask).text());
    }
    for mask in [256, 257] {
        let text = network().set_line(3, eight).set(5, 6, mask).text();
        assert_network_refused(&text, 4, 5, 2);
    }
}

#[test]
fn r4_standing_volume() {
    assert_network_accepted(&network().set(4, 7, 60_000).text());
    assert_network_refused(&network().set(4, 7, 60_001).text(), 4, 4, 1);
    assert_network_refused(&network().set(5, 2, 0).set(5, 7, 1).text(), 4, 5, 2);
    let full = 2_000_000_000u64;
    assert_network_accepted(&network().set(4, 2, full).set(4, 7, full).text());
    assert_network_refused(
        &network().set(4, 2, full).set(4, 7, full + 1).text(),
        4,
        4,
        1,
    );
}

// Refusal 5.

#[test]
fn r5_links_of_a_movement() {
    for (field, link) in [
        (2, 0u64),
        (2, 4),
        (3, 0),
        (3, 4),
        (2, 4_294_967_295),
        (3, 4_294_967_295),
    ] {
        for movement in 1..=3u64 {
            let line = 6 + movement as usize;
            let text = network().set(line, field, link).text();
            assert_network_refused(&text, 5, line as u64, movement);
        }
    }
    assert_network_refused(&network().set(7, 3, 1).text(), 5, 7, 1);
    assert_network_refused(&network().set(9, 3, 2).text(), 5, 9, 3);
    assert_network_accepted(&network().set_line(9, "M 3 1 300 1000").text());
}

#[test]
fn r5_rate_and_share() {
    assert_network_refused(&network().set(7, 4, 0).text(), 5, 7, 1);
    assert_network_accepted(&network().set(7, 4, 1).text());
    assert_network_accepted(&network().set(7, 4, 10_000).text());
    assert_network_refused(&network().set(7, 4, 10_001).text(), 5, 7, 1);
    // A share that is bad by itself is reported at its own line.
    assert_network_refused(&network().set(7, 5, 0).set(8, 5, 1000).text(), 5, 7, 1);
    assert_network_accepted(&network().set(7, 5, 1).set(8, 5, 999).text());
    assert_network_refused(&network().set(9, 5, 1001).text(), 5, 9, 3);
    assert_network_refused(&network().set(7, 5, 1001).text(), 5, 7, 1);
    assert_network_refused(&network().set(7, 5, 4_294_967_295u64).text(), 5, 7, 1);
}

#[test]
fn r5_order_of_pairs() {
    // The same pair twice.
    assert_network_refused(&network().set(8, 3, 2).text(), 5, 8, 2);
    // The same from link with a smaller to link.
    let text = network()
        .set_line(7, "M 1 3 500 250")
        .set_line(8, "M 1 2 500 750");
    assert_network_refused(&text.text(), 5, 8, 2);
    // A smaller from link with a larger to link.
    let text = network()
        .set_line(7, "M 2 1 500 1000")
        .set_line(8, "M 1 3 500 1000");
    assert_network_refused(&text.text(), 5, 8, 2);
    // A larger from link with a smaller to link.
    let text = network().set_line(9, "M 3 1 500 1000");
    assert_network_accepted(&text.text());
    // Only the line before counts for the first breach, not any earlier one.
    let text = network().set_line(9, "M 1 3 300 1000");
    assert_network_refused(&text.text(), 5, 9, 3);
}

#[test]
fn r5_share_sums() {
    // Told at the link's last movement, after all movement lines.
    for share in [249, 251, 1] {
        assert_network_refused(&network().set(7, 5, share).text(), 5, 8, 2);
    }
    for share in [749, 751] {
        assert_network_refused(&network().set(8, 5, share).text(), 5, 8, 2);
    }
    for share in [999, 1] {
        assert_network_refused(&network().set(9, 5, share).text(), 5, 9, 3);
    }
    // By rising link.
    assert_network_refused(&network().set(7, 5, 251).set(9, 5, 999).text(), 5, 8, 2);
    // A bad movement line comes first, a bad step line later.
    assert_network_refused(&network().set(7, 5, 251).set(9, 4, 0).text(), 5, 9, 3);
    assert_network_refused(&network().set(7, 5, 251).set(9, 1, "X").text(), 1, 9, 0);
    assert_network_refused(&network().set(7, 5, 251).set(10, 1, "X").text(), 5, 8, 2);
    assert_network_refused(&network().set(7, 5, 251).keep(9).text(), 5, 8, 2);
    assert_network_refused(&network().set(7, 5, 251).keep(9).unfinished(), 1, 9, 0);
}

// Refusal 6.

#[test]
fn r6_length() {
    for step in 1..=4u64 {
        let line = 9 + step as usize;
        for length in [0u64, 61, 4_294_967_295] {
            let text = network().set(line, 2, length).text();
            assert_network_refused(&text, 6, line as u64, step);
        }
    }
    // Up to 60 seconds where the phases allow it.
    let long = |length: u64| {
        format!("N\t1\t1\t0\t1\t0\t0\nG\t1\t100\t2\t1\t0\t0\t1\t61\t1\t61\nQ\t0\t3600\t0\t0\t0\t0\t0\nS\t{length}\t0\n")
    };
    assert_network_accepted(long(1).as_bytes());
    assert_network_accepted(long(60).as_bytes());
    assert_network_refused(long(61).as_bytes(), 6, 4, 1);
}

#[test]
fn r6_length_above_a_greatest_time() {
    // One phase of one signal is enough, be it the first or the last.
    for (line, field) in [(2, 9), (2, 11), (3, 9), (3, 11), (3, 13)] {
        let least = field - 1;
        let sheet = network().set(line, least, 1);
        // A shown phase must not have shown for longer than its greatest time.
        let sheet = sheet.set(2, 6, 9).set(2, 7, 20);
        assert_network_accepted(&sheet.clone().set(line, field, 10).text());
        assert_network_refused(&sheet.set(line, field, 9).text(), 6, 10, 1);
    }
    // The last step alone.
    let apart = network().set(4, 3, 3600).set(5, 3, 3600).set(6, 3, 3600);
    assert_network_accepted(&apart.clone().set(13, 2, 20).text());
    assert_network_refused(&apart.set(13, 2, 21).text(), 6, 13, 4);
}

#[test]
fn r6_demand() {
    for step in 1..=4u64 {
        let line = 9 + step as usize;
        for field in 3..=5 {
            assert_network_accepted(&network().set(line, field, 600_000).text());
            for demand in [600_001u64, 4_294_967_295] {
                let text = network().set(line, field, demand).text();
                assert_network_refused(&text, 6, line as u64, step);
            }
        }
    }
}

#[test]
fn every_travel_time_from_1_to_3600_passes() {
    // Boundaries at 10, 20, 30, 35.
    for time in 1..=3600 {
        assert_network_accepted(&network().set(5, 3, time).set(13, 2, 5).text());
    }
}

#[test]
fn two_breaches_in_different_lines() {
    // The earlier line is reported.
    let text = network().set(2, 5, 0).set(3, 5, 0).text();
    assert_network_refused(&text, 3, 2, 1);
    let text = network().set(5, 3, 0).set(4, 7, 60_001).text();
    assert_network_refused(&text, 4, 4, 1);
    let text = network().set(13, 2, 0).set(3, 5, 0).text();
    assert_network_refused(&text, 3, 3, 2);
}

#[test]
fn random_bytes_never_upset_it() {
    let mut seed = 1u64;
    for length in 0..300 {
        let bytes: Vec<u8> = (0..length)
            .map(|_| {
                seed = seed.wrapping_mul(6364136223846793005).wrapping_add(1);
                b"NGQMSP\t\t\t\n\n0123456789x\0\xff"[(seed >> 40) as usize % 24]
            })
            .collect();
        assert!(check_network(&bytes).is_err());
    }
}
