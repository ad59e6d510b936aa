//! The line language: odd and malformed lines.

use crate::answer_all;
use crate::tests_support::*;

fn all(input: &[u8]) -> String {
    let mut output = Vec::new();
    answer_all(input, &mut output).unwrap();
    String::from_utf8(output).unwrap()
}

#[test]
fn lines_and_their_ends() {
    assert_eq!(all(b""), "");
    assert_eq!(all(b"\n"), "?\n");
    assert_eq!(all(b"\n\n"), "?\n?\n");
    assert_eq!(all(b"check -"), "1 0 0 0\n");
    assert_eq!(all(b"check -\n"), "1 0 0 0\n");
    assert_eq!(all(b"check -\r\n"), "?\n");
    assert_eq!(all(b"check -\ncheck -"), "1 0 0 0\n1 0 0 0\n");
    assert_eq!(all(b"check -\n\ncheck -\n"), "1 0 0 0\n?\n1 0 0 0\n");
    assert_eq!(all(b"\x00\n\xff\xfe"), "?\n?\n");
}

#[test]
fn words_and_spaces() {
    for line in [
        "", " ", "  ", "check", "check ", " check -", "check  -", "check - ", "check - -",
        "check\t-", "Check -", "CHECK -", "checks -", "chec -", "-", "?", "check -\r", "check --",
        "check -- -", "layout -", "layout - - -", "matrix -", "matrix - - -",
        "seasoned", "seasoned - -", "seasoned - - 2024 3", "seasoned - - 2024 3 5 7",
        "seasoned - - 2024 3 5 7 30 0", "seasoned - - 2024 3 -5", "Seasoned - - 2024 3 5",
        "season - - 2024 3 5", "seasoned  - - 2024 3 5", "seasoned - - 2024 3 5 ",
        "weekday", "weekday ", "weekday 2024", "weekday 2024 3", "weekday 2024 3 ",
        "weekday 2024  5", "weekday  2024 3 5", "weekday 2024 3 5 ", "weekday 2024 3 5 0",
        " weekday 2024 3 5", "weekday - - 2024 3 5", "weekday 2024 3 -", "weekday 2024 -3 5",
        "weekday +2024 3 5", "weekday 0x7e8 3 5", "weekday 7e8 3 5", "weekday 2024 3 5.",
        "weekday 2024-3-5", "weekday 2024\t3 5", "weekday 2024 3 5\r", "Weekday 2024 3 5",
        "WEEKDAY 2024 3 5", "weekdays 2024 3 5", "weekda 2024 3 5", "weekday 2024 March 5",
    ] {
        holds(line, "?");
    }
}

#[test]
fn hex_words() {
    for word in ["1", "100", "1G", "1g", "0x10", "AB", "aB", "a ", "+1", "é", "--", "-1", "1-"] {
        holds(&format!("check {word}"), "?");
    }
    holds("check ab", "1 0 0 0");
    holds("check abcdef01", "2 0 0 0");
}

#[test]
fn number_words() {
    let ask_table = |mfr: &str, num: &str| ask(&format!("table {D} {FIRST} {mfr} {num}"));
    assert_eq!(ask_table("0", "5"), "0 0 0 0 2 6");
    assert_eq!(ask_table("00", "005"), "0 0 0 0 2 6");
    assert_eq!(ask_table("0", &format!("{}5", "0".repeat(1000))), "0 0 0 0 2 6");
    assert_eq!(ask_table("1", "5"), "10 0 0 0 0 0");
    assert_eq!(ask_table("0", "65535"), "10 0 0 0 0 0");
    for (mfr, num) in [
        ("2", "5"), ("0", "65536"), ("0", "-5"), ("0", "+5"), ("0", "5."), ("0", "0x5"), ("0", ""),
        ("", "5"), ("0", "5a"), ("0", "99999999999999999999999"), ("0", "-"), ("0", "٥"),
    ] {
        assert_eq!(ask_table(mfr, num), "?", "{mfr} {num}");
    }
}

#[test]
fn numbers_at_the_ends_of_their_types() {
    let most = "18446744073709551615";
    let over = "18446744073709551616";
    holds(&format!("where {D} {FIRST} {most} {most} {most} {most} {most} {most}"), "22 0 0 0 0 0");
    for place in 0..6 {
        let mut words = ["0"; 6];
        words[place] = over;
        holds(&format!("where {D} {FIRST} {}", words.join(" ")), "?");
        words[place] = "0018446744073709551615";
        holds(&format!("where {D} {FIRST} {}", words.join(" ")), "22 0 0 0 0 0");
    }
    holds(&format!("writenumber {D} {FIRST} 7 1 0 0 0 0 {over}"), "?");
    holds(&format!("writenumber {D} {FIRST} 7 1 0 0 0 0 {most}"), &format!("15 0 0 0 {FIRST}"));
    for place in 0..5 {
        let mut words = ["2024", "3", "5", "7", "30", "0"];
        words[place] = "4294967296";
        holds(&format!("tier {D} {FIRST} {}", words.join(" ")), "?");
        words[place] = "4294967295";
        holds(&format!("tier {D} {FIRST} {}", words.join(" ")), "10 0 0 0 0 0");
    }
    holds(&format!("tier {D} {FIRST} 2024 3 5 7 30 2"), "?");
    for place in 0..3 {
        let mut words = ["2024", "3", "5"];
        words[place] = "4294967296";
        holds(&format!("seasoned {D} {FIRST} {}", words.join(" ")), "?");
        words[place] = "4294967295";
        holds(&format!("seasoned {D} {FIRST} {}", words.join(" ")), "10 0 0 0 0");
        words[place] = "004294967295";
        holds(&format!("seasoned {D} {FIRST} {}", words.join(" ")), "10 0 0 0 0");
    }
    for place in 0..3u32 {
        let real = [2024, 3, 5][place as usize];
        let with = |word: String| -> String {
            let mut words = ["2024", "3", "5"].map(String::from);
            words[place as usize] = word;
            ask(&format!("weekday {}", words.join(" ")))
        };
        assert_eq!(with(format!("{}{real}", "0".repeat(40))), "0 2");
        assert_eq!(with(String::from("4294967295")), "16 0");
        assert_eq!(with(String::from("004294967295")), "16 0");
        assert_eq!(with(String::from("4294967296")), "?");
        // Numbers that end as the real one's in 32 and in 64 bits.
        assert_eq!(with(((1u64 << 32) + real).to_string()), "?");
        assert_eq!(with(((1u128 << 64) + u128::from(real)).to_string()), "?");
    }
}

#[test]
fn a_bad_later_word_is_seen_before_the_answer() {
    // The form of the line is settled first: a bad word is `?` though the
    // description would be refused.
    holds("layout - 0", "?");
    holds("tier - - 2024 3 5 7 30 2", "?");
    holds("writerange - - 0 0 0 0", "?");
    holds("tier - - 2024 3 5 7 30 1", "1 0 0 0 0 0");
    holds("seasoned - - 2024 3 x", "?");
    holds("seasoned - - 2024 3 5", "1 0 0 0 0");
}

#[test]
fn counts_of_words() {
    // One word less and one more than each question takes.
    let forms: [(&str, usize); 18] = [
        ("check", 1), ("layout", 2), ("table", 4), ("tablepart", 4), ("where", 8), ("octets", 8),
        ("number", 8), ("writerange", 6), ("writeoctets", 9), ("writenumber", 9), ("tier", 8),
        ("seasoned", 5), ("matrix", 2), ("serve", 4), ("readrequest", 1), ("readreply", 1),
        ("readrange", 6), ("weekday", 3),
    ];
    for (question, count) in forms {
        for words in 0..12 {
            // "00" is an octet and a number both.
            let line = format!("{question}{}", " 00".repeat(words));
            let reply = ask(&line);
            assert_eq!(reply == "?", words != count, "{line}: {reply}");
        }
    }
}

#[test]
fn long_lines() {
    // The longest that must be taken: 2,052, 65,540 and 65,540 octets.
    let d = "10".repeat(2052);
    let m = "00".repeat(65_540);
    holds(&format!("writerange {d} {m} 0 0 0 {m}"), &format!("1 0 0 0 {m}"));
    // 300,000 octets are read, 300,001 are not.
    let line = format!("check {}", "0".repeat(299_994));
    assert_eq!(line.len(), 300_000);
    holds(&line, "1 0 0 0");
    let line = format!("table 00 00 0 {}5", "0".repeat(299_986));
    assert_eq!(line.len(), 300_001);
    holds(&line, "?");
    holds(&line.replacen("00 0 0", "00 0 ", 1), "1 0 0 0 0 0");
    // The line after a long one is read as usual.
    let mut input = vec![b'0'; 1_000_000];
    input.extend_from_slice(b"\ncheck -\n");
    input.extend(vec![b'a'; 700_000]);
    assert_eq!(all(&input), "?\n1 0 0 0\n?\n");
}

#[test]
fn empty_images_in_replies() {
    holds(&format!("writerange {D} - 0 5 0 aa"), "9 1 0 0 -");
    holds("writeoctets - - 0 0 0 0 0 0 -", "1 0 0 0 -");
    holds("writenumber - - 0 0 0 0 0 0 0", "1 0 0 0 -");
    holds("tablepart - - 0 0", "-");
    holds("octets - - 0 0 0 0 0 0", "-");
    holds("matrix - -", &format!("1 0 0 0 {}", "0".repeat(660)));
}
