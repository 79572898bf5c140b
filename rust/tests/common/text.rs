//! Sheets in short: a bar for each line feed, a space for each tab.

pub fn text(sheet: &str) -> Vec<u8> {
    let lines = sheet.split('|').map(|line| line.replace(' ', "\t") + "\n");
    lines.collect::<String>().into_bytes()
}
