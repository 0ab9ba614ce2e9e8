//! The texts of docs/REFUSALS.md, read from the page itself: each block marked `book`, and the line that it prints.

use super::samples::Sample;

/// Fails if there is no block, or a block has no line, or a line no block.
pub fn of_page(page: &str) -> Result<Vec<Sample>, String> {
    let mut samples = Vec::new();
    let mut block: Option<String> = None;
    let mut inside = false;
    for (number, line) in page.lines().enumerate() {
        let place = format!("REFUSALS.md, line {}", number + 1);
        if line == "```book" {
            if block.replace(String::new()).is_some() {
                return Err(format!("{place}: the block before says not what it prints"));
            }
            inside = true;
        } else if line == "```" {
            inside = false;
        } else if let (true, Some(text)) = (inside, block.as_mut()) {
            text.push_str(line);
            text.push('\n');
        } else if let Some(printed) = line.strip_prefix("prints `") {
            let text = block.take().ok_or(format!("{place}: no block before it"))?;
            let last = printed.strip_suffix('`').ok_or(format!("{place}: the line is not closed"))?;
            samples.push(Sample::last_line(&place, text, last));
        }
    }
    match block {
        Some(_) => Err("REFUSALS.md: the last block says not what it prints".into()),
        None if samples.is_empty() => Err("REFUSALS.md: no block".into()),
        None => Ok(samples),
    }
}
