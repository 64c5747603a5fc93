//! Journals with their output, worked out by hand from the rules and the format.

use super::*;

fn played(journal: &str, csv: bool) -> (String, Result<(), Stop>) {
    let (printed, result) = play(journal.as_bytes(), Path::new("../data"), csv);
    (String::from_utf8(printed).unwrap(), result)
}

fn printed(journal: &str) -> String {
    let (printed, result) = played(journal, false);
    assert_eq!(result, Ok(()));
    printed
}

/// The line at which a journal is malformed, and what was printed before.
fn malformed(journal: &str) -> (usize, String) {
    match played(journal, false) {
        (printed, Err(Stop::Malformed { line, .. })) => (line, printed),
        other => panic!("not malformed: {other:?}"),
    }
}

const WORKED_DAY: &str = "\
# the worked day
ledger 3561
profile flat even 764445
trader north
trader
point 0 0 5 1000 99990 1000000
point 1 1 5 1000 0 500000

open 10.5 1
enter 0 300000
enter 1 80000
inflow 1000000 20000
share flat running
quantity 0
";

#[test]
fn the_worked_day() {
    let told = "\
2 ledger day 3561
3 profile flat segments 8
4 trader 0 north
5 trader 1 -
6 point 0
7 point 1
9 open opening 1 day 3561
10 enter trader 0 metered 300000
11 enter trader 1 metered 80000
12 inflow opening 1
13 share A 600000 S 114666 loss 20000
13 point 0 consumption 76444 share 400000
13 point 1 consumption 38222 share 200000
14 quantity trader 0 litres 400000
end loss 20000
end trader 0 north account 700000 open 400000
end trader 1 - account 280000 open 200000
end correction 0
end balance inflow 1000000 loss 20000 accounts 980000 correction 0 difference 0
";
    assert_eq!(printed(WORKED_DAY), told);
    assert_eq!(played(WORKED_DAY, true).0, told.replace(' ', ","));
}

#[test]
fn readings_and_what_is_still_open_at_the_end() {
    let journal = format!(
        "{WORKED_DAY}\
read 0 15
read 0 16
book 0
book 0
book 2
hand-over 1 2
hand-over 2 0
hand-over 1 0
read 1 9
hand-over 1 1
hand-over 1 0
withdraw 1
read 1 10
read 0 14
open -0.5 0
enter 1 7
"
    );
    // Point 0: 25 units of 1,000 litres less 400,000; point 1: 9,000 less 200,000.
    let told = "\
15 read point 0 slip 1
16 read refused 27: a slip of this point is open
17 book point 0 correction -375000
18 book refused 21: not its point's open slip, or as many bookings as readings already
19 book refused 4: no such point
20 hand-over refused 3: no such trader
21 hand-over refused 4: no such point
22 hand-over refused 21: not its point's open slip, or as many bookings as readings already
23 read point 1 slip 2
24 hand-over refused 29: the point is that trader's already
25 hand-over point 1 trader 0 correction -191000
26 withdraw refused 21: not its point's open slip, or as many bookings as readings already
27 read point 1 slip 3
28 read point 0 slip 4
29 open opening 2 day 3562
30 enter trader 1 metered 7
end withdraw point 0 slip 4
end withdraw point 1 slip 3
end abandon opening 2
end loss 20000
end trader 0 north account 325000 open 0
end trader 1 - account 89000 open 0
end correction 566000
end balance inflow 1000000 loss 20000 accounts 414000 correction 566000 difference 0
";
    let printed = printed(&journal);
    let (_, since) = printed.split_once("litres 400000\n").unwrap();
    assert_eq!(since, told);
}

#[test]
fn calls_for_which_there_is_no_day() {
    let journal = "\
ledger 36524
trader
profile none even 0
enter 1 1000000001
enter 0 1000000001
enter 0 0
inflow 1000000001 0
inflow 0 1000001
inflow 0 0
share none largest
abandon
open 0 0
share none largest
inflow 5 0
enter 1 0
enter 0 1000000001
enter 0 0
inflow 1000000001 0
inflow 5 0
share none largest
abandon
open 50.1 0
open 50 3
open 1 4
open 1 1
inflow 5 1000000
share none running
open 1 1
";
    let not_running = "not this ledger's running day in that phase";
    let litres = "more than 1000000000 litres, or a loss rate above 1000000 millionths";
    let weather = "the temperature is outside -400 to 500 tenths, or the season outside 0 to 3";
    let no_more = "no more days: 4000 shared out, 1000000 opened, or past 31 December 2099";
    let told = format!(
        "\
1 ledger day 36524
2 trader 0 -
3 profile none segments 8
4 enter refused 3: no such trader
5 enter refused 6: {litres}
6 enter refused 20: {not_running}
7 inflow refused 6: {litres}
8 inflow refused 6: {litres}
9 inflow refused 20: {not_running}
10 share refused 20: {not_running}
11 abandon refused 20: {not_running}
12 open opening 1 day 36524
13 share refused 20: {not_running}
14 inflow opening 1
15 enter refused 3: no such trader
16 enter refused 6: {litres}
17 enter refused 20: {not_running}
18 inflow refused 6: {litres}
19 inflow refused 20: {not_running}
20 share refused 32: litres to share, and no point with any profile consumption
21 abandon opening 1
22 open refused 5: {weather}
23 open opening 2 day 36524
24 open refused 5: {weather}
25 open refused 22: a day is running
26 inflow opening 2
27 share A 0 S 0 loss 5
28 open refused 23: {no_more}
end loss 5
end trader 0 - account 0 open 0
end correction 0
end balance inflow 5 loss 5 accounts 0 correction 0 difference 0
"
    );
    assert_eq!(printed(journal), told);
}

#[test]
fn a_sheet_that_is_too_long() {
    let journal = "\
ledger 0
sheet 4097
trader a
point 9 9 9 9 9 9
profile p even 1
share p running
withdraw 0
quantity 9
";
    let long = "the point sheet is shorter than the points admitted, or has more than 4096 places";
    let told = format!(
        "\
1 ledger day 0
2 sheet places 4097
3 trader 0 a
4 point refused 1: {long}
5 profile p segments 8
6 share refused 1: {long}
7 withdraw refused 1: {long}
8 quantity refused 1: {long}
end loss 0
end trader 0 a account 0 open refused 1: {long}
end correction 0
end balance inflow 0 loss 0 accounts 0 correction 0 difference 0
"
    );
    assert_eq!(printed(journal), told);
    let (csv, _) = played(journal, true);
    assert!(csv.contains(&format!("\n4,point,refused,1,\"{long}\"\n")));
    assert!(csv.contains(&format!("\nend,trader,0,a,account,0,open,refused,1,\"{long}\"\n")));
}

#[test]
fn a_small_sheet() {
    let journal = "\
ledger 0
sheet 1
trader
point 0 8 4 1 0 0
point 1 0 4 1 0 0
point 0 7 4 1 0 0
point 0 7 4 1 0 0
quantity 0
";
    let printed = printed(journal);
    for line in [
        "4 point refused 7: a point's particulars, a segment or a reading out of range",
        "5 point refused 3: no such trader",
        "6 point 0",
        "7 point refused 26: no place for another trader or point",
        "8 quantity trader 0 litres 0",
    ] {
        assert!(printed.lines().any(|printed| printed == line), "{line}");
    }
}

/// At 2.0 degrees, in transition in heating time, the published numbers are 0.2317642 x 0.9854770
/// (residential) and 0.1241119 x 0.9977594 (business); business at 10.0 degrees is 0.0764445.
#[test]
fn profiles_from_files() {
    let journal = "\
ledger 0
profile t table table.txt
profile a season 1 published/season-business.txt over t
profile b season 0 published/season-residential.txt over a
profile bad season 8 table.txt over a
profile bad season 7 table.txt over a
profile bad table published/season-business.txt
profile bad even 10000001
profile bad even 10000000
trader
point 0 1 4 1 0 1000000
point 0 0 4 1 0 1000000
open 10 0
inflow 1000 1000000
share t running
open 2.0 1
inflow 352231 0
share b largest
point 0 2 4 1 0 0
open 0 0
inflow 0 0
share b largest
";
    let printed = printed(journal);
    let starts = [
        "2 profile t segments 2",
        "3 profile a segments 2",
        "4 profile b segments 2",
        "5 profile refused 7: ",
        "6 profile refused 8: ",
        "7 profile refused 8: ",
        "8 profile refused 8: ",
        "9 profile bad segments 8",
        "15 point 0 consumption 76444 share 0",
        "18 share A 352231 S 352231 loss 0",
        "18 point 0 consumption 123833 share 123833",
        "18 point 1 consumption 228398 share 228398",
        "22 share refused 31: ",
    ];
    for start in starts {
        assert!(printed.lines().any(|line| line.starts_with(start)), "{start}");
    }
}

#[test]
fn malformed_lines_end_the_run() {
    let first = "1 ledger day 5\n";
    let cases = [
        "ledger 5",
        "sheet 65537",
        "profile p table no-such-file",
        "profile p table README.md",
        "profile p season 0 table.txt over q",
        "share p running",
        "nonsense",
        "enter 0",
    ];
    for line in cases {
        let journal = format!("ledger 5\n\n{line}\ntrader\n");
        assert_eq!(malformed(&journal), (3, first.to_string()), "{line}");
    }
    assert_eq!(malformed("# nothing\ntrader\n"), (2, String::new()));
    assert_eq!(malformed("ledger 0\nsheet 1\nsheet 1\n").0, 3);
    assert_eq!(malformed("ledger 0\npoint 0 0 4 1 0 0\nsheet 1\n").0, 3);
    assert_eq!(malformed("ledger 0\nprofile p even 1\nprofile p even 1\n").0, 3);
}

#[test]
fn a_third_layer_is_malformed() {
    let season = |name: &str, below: &str| {
        format!("profile {name} season 0 published/season-business.txt over {below}\n")
    };
    let two = ["ledger 0\nprofile e even 1\n".to_string(), season("a", "e"), season("b", "a")];
    assert_eq!(played(&two.concat(), false).1, Ok(()));
    let three = [two.concat(), season("c", "b")].concat();
    assert_eq!(malformed(&three).0, 5);
}

#[test]
fn a_journal_without_a_call_is_an_error() {
    for journal in ["", "\n\n# nothing\n"] {
        assert_eq!(played(journal, false), (String::new(), Err(Stop::NoCall)));
    }
}

#[test]
fn names_are_bytes() {
    let (printed, result) = play(b"ledger 0\ntrader \xff\xe9\n", Path::new(""), false);
    assert_eq!(result, Ok(()));
    assert!(printed.windows(14).any(|bytes| bytes == b"2 trader 0 \xff\xe9\n"));
}
