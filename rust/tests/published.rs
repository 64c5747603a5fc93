//! The published tables in `data/`: complete, in range, and as printed at places checked by eye.

use keldrava_second::profiles::{Profile, SeasonLayer, Table, COLUMNS, SEASON_SHEET, TABLE_SHEET};
use keldrava_second::{text, ONE};

fn sheet(file: &str) -> Vec<u64> {
    let path = format!("{}/../data/{file}", env!("CARGO_MANIFEST_DIR"));
    text::sheet(&std::fs::read(path).unwrap()).unwrap()
}

fn column(segment: &str, profile: u32, day: &str) -> Vec<u64> {
    sheet(&format!("published/{segment}-{profile}-{day}.txt"))
}

/// The place of a temperature in tenths.
fn at(temperature: i32) -> usize {
    (temperature + 80) as usize
}

#[test]
fn every_column_is_complete_and_level_at_its_warm_end() {
    for segment in ["residential", "business"] {
        for profile in 1..=3 {
            for day in ["workday", "restday"] {
                let column = column(segment, profile, day);
                assert_eq!(column.len(), COLUMNS);
                assert!(column.iter().all(|&factor| 0 < factor && factor <= ONE));
                assert!(column[at(285)..].iter().all(|&factor| factor == column[at(300)]));
            }
        }
    }
}

#[test]
fn factors_as_printed() {
    let printed = [
        ("residential", 1, "workday", -80, 3_348_314),
        ("residential", 1, "restday", -80, 3_679_574),
        ("residential", 1, "workday", 0, 2_407_455),
        ("residential", 1, "restday", 18, 2_288_487),
        ("residential", 2, "workday", -80, 3_600_491),
        ("residential", 3, "restday", 20, 2_317_642),
        ("residential", 3, "workday", 300, 464_845),
        ("business", 1, "workday", -34, 2_877_007),
        ("business", 2, "restday", -80, 3_877_194),
        ("business", 3, "workday", 100, 1_371_156),
        ("business", 3, "restday", 100, 764_445),
        ("business", 3, "restday", 110, 692_779),
        ("business", 3, "restday", 285, 962_833),
    ];
    for (segment, profile, day, temperature, factor) in printed {
        assert_eq!(column(segment, profile, day)[at(temperature)], factor);
    }
}

#[test]
fn season_numbers_as_printed() {
    let printed = [
        ("residential", 0, 289, 14_044_877),
        ("residential", 2, -80, 6_389_000),
        ("residential", 3, 300, 10_000_000),
        ("business", 0, 80, 10_566_794),
        ("business", 1, 20, 9_977_594),
        ("business", 2, 70, 7_593_823),
        ("business", 3, 50, 7_065_843),
    ];
    for (segment, season, temperature, number) in printed {
        let sheet = sheet(&format!("published/season-{segment}.txt"));
        assert_eq!(sheet.len(), SEASON_SHEET);
        assert_eq!(sheet[season * COLUMNS + at(temperature)], number);
    }
}

#[test]
fn the_table_sheet_is_two_published_columns() {
    let parts = [column("residential", 3, "restday"), column("business", 3, "restday")];
    assert_eq!(sheet("table.txt"), parts.concat());
    assert_eq!(sheet("table.txt").len(), TABLE_SHEET);
}

#[test]
fn the_sheets_fill_the_profiles() {
    let mut table = Table::new();
    table.fill(&sheet("table.txt")).unwrap();
    let mut layer = SeasonLayer::new(table, 1).unwrap();
    layer.fill(&sheet("published/season-business.txt")).unwrap();
    assert_eq!(layer.tell(1, -80, 3).day_factor, 1_871_762 * 7_065_843 / ONE);
    assert_eq!(layer.tell(0, -80, 3).day_factor, 2_361_377);
}
