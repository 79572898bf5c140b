//! Makes a sheet that shows a difference shorter.

/// The text with as many lines left out as still keep what `shows` looks for.
pub fn shrink(text: &[u8], mut shows: impl FnMut(&[u8]) -> bool) -> Vec<u8> {
    let mut lines: Vec<&[u8]> = text.split_inclusive(|byte| *byte == b'\n').collect();
    let mut run = lines.len().max(1);
    while run > 0 {
        let mut start = lines.len().saturating_sub(run);
        loop {
            let end = (start + run).min(lines.len());
            let fewer = [&lines[..start], &lines[end..]].concat();
            if start < end && shows(&fewer.concat()) {
                lines = fewer;
            }
            if start == 0 {
                break;
            }
            start = start.saturating_sub(run);
        }
        run /= 2;
    }
    lines.concat()
}
