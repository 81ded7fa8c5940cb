//! The page of the demo: a scrap dealer's ledger.

struct Entry {
    date: &'static str,
    seller: &'static str,
    item: &'static str,
    kilos: u32,
    /// Pence for a kilo.
    rate: u32,
}

const fn entry(date: &'static str, seller: &'static str, item: &'static str, kilos: u32, rate: u32) -> Entry {
    Entry { date, seller, item, kilos, rate }
}

const ENTRIES: [Entry; 20] = [
    entry("02 JUN", "HADLEY & SON", "COPPER WIRE, BRIGHT", 84, 96),
    entry("02 JUN", "MRS. OAKES", "LEAD FLASHING", 131, 27),
    entry("02 JUN", "CANAL YARD", "CAST IRON, BROKEN", 1_240, 4),
    entry("03 JUN", "J. PRYCE", "BRASS TAPS, MIXED", 37, 71),
    entry("03 JUN", "DEPOT NO. 4", "RAIL, CUT SHORT", 2_075, 5),
    entry("03 JUN", "HADLEY & SON", "RADIATORS, AUTO", 62, 54),
    entry("04 JUN", "T. WREN", "ALUMINIUM, SHEET", 118, 43),
    entry("04 JUN", "ST. ANNE'S", "BELL METAL (1 PIECE)", 206, 88),
    entry("05 JUN", "MRS. OAKES", "ZINC GUTTER", 49, 31),
    entry("05 JUN", "CANAL YARD", "CHAIN, WROUGHT", 388, 6),
    entry("05 JUN", "B. LOCKE", "BATTERIES, WHOLE", 154, 12),
    entry("06 JUN", "J. PRYCE", "COPPER TUBE", 71, 92),
    entry("06 JUN", "DEPOT NO. 4", "BUFFERS, PAIR", 640, 5),
    entry("06 JUN", "T. WREN", "GUNMETAL VALVES", 55, 83),
    entry("09 JUN", "HADLEY & SON", "CABLE, ARMOURED", 297, 38),
    entry("09 JUN", "B. LOCKE", "STAINLESS SINKS", 93, 33),
    entry("09 JUN", "CANAL YARD", "LOCK GATE IRONS", 815, 4),
    entry("10 JUN", "MRS. OAKES", "PEWTER, MIXED", 12, 240),
    entry("10 JUN", "T. WREN", "DYNAMOS, BURNT OUT", 176, 22),
    entry("10 JUN", "J. PRYCE", "PRINTER'S TYPE", 68, 45),
];

fn line(number: usize, entry: &Entry, sum: u32) -> String {
    let Entry { date, seller, item, kilos, rate } = entry;
    let paid = kilos * rate;
    format!(
        "  {number:>3}  {date}  {seller:<14}  {item:<20}{kilos:>7} KG  AT {rate:>3}P{:>9}{:>9}",
        pounds(paid),
        pounds(sum)
    )
}

fn pounds(pence: u32) -> String {
    format!("{}.{:02}", pence / 100, pence % 100)
}

/// The page's 32 rows as it stands before the last line is entered.
pub fn page() -> Vec<String> {
    let rule = format!("  {}", "-".repeat(86));
    let mut rows = vec![
        String::new(),
        format!("  {:<58}{:>28}", "SCRAP LEDGER", "FOLIO 117"),
        "  BOUGHT OVER THE WEIGHBRIDGE, JUNE".to_string(),
        rule.clone(),
        format!(
            "  {:>3}  {:<6}  {:<14}  {:<20}{:>7}{:>12}{:>9}{:>9}",
            "NO.", "DATE", "SELLER", "ITEM", "WEIGHT", "RATE", "PAID", "SUM"
        ),
        rule.clone(),
    ];
    let mut sum = 0;
    for (index, entry) in ENTRIES.iter().enumerate() {
        sum += entry.kilos * entry.rate;
        rows.push(line(index + 1, entry, sum));
    }
    rows.push(rule);
    rows.push(format!("  CARRIED FORWARD{:>71}", pounds(sum)));
    rows.resize(super::screen::ROWS, String::new());
    rows
}

/// The line the clerk enters, and the row it goes to.
pub fn entered() -> (usize, String) {
    let sum: u32 = ENTRIES.iter().map(|entry| entry.kilos * entry.rate).sum();
    let last = entry("11 JUN", "HADLEY & SON", "COPPER WIRE, BURNT", 140, 81);
    (29, line(ENTRIES.len() + 1, &last, sum + last.kilos * last.rate))
}

#[cfg(test)]
mod tests {
    use super::super::screen::{COLUMNS, COLUMN_ACROSS, ROWS, ROW_ACROSS};

    #[test]
    fn the_page_fits_the_screen() {
        let rows = super::page();
        assert_eq!(rows.len(), ROWS);
        assert!(rows.iter().chain([&super::entered().1]).all(|row| row.len() <= COLUMNS));
    }

    /// The demo looks at what this row has on the far side of a block's end.
    #[test]
    fn the_row_across_two_blocks_has_text_in_both() {
        let rows = super::page();
        let (before, past) = rows[ROW_ACROSS].split_at(COLUMN_ACROSS);
        assert!(!before.trim().is_empty() && !past.trim().is_empty());
    }
}
