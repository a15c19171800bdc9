//! Words and lists in lines of a width.

/// The most characters in a line of text.
pub const COLUMNS: usize = 100;
/// The characters that a row's name takes.
const NAME: usize = 11;
/// The most lines that a row takes in a text.
const MOST_LINES: usize = 2;

/// A row of what is told beside a drawing.
pub struct Row {
    /// What it is about; empty where the row before it is about the same.
    pub name: &'static str,
    /// What stands before the items; where they take more lines, those begin below the first item.
    pub head: String,
    /// The items, with their commas.
    pub items: Vec<String>,
}

impl Row {
    /// A row without a head.
    pub fn new(name: &'static str, items: Vec<String>) -> Row {
        Row { name, head: String::new(), items }
    }
}

/// Items with a comma after each but the last.
pub fn listed(items: impl IntoIterator<Item = impl ToString>) -> Vec<String> {
    let mut items: Vec<String> = items.into_iter().map(|item| item.to_string() + ",").collect();
    if let Some(last) = items.last_mut() {
        last.pop();
    }
    items
}

/// The words of a text. One that is longer than a line is broken, and characters that a terminal would obey or that XML
/// has not are blanks.
pub fn words(text: &str, width: usize) -> Vec<String> {
    let is_blank = |c: char| c.is_whitespace() || c.is_control() || ['\u{fffe}', '\u{ffff}'].contains(&c);
    let broken = |word: &str| {
        let letters: Vec<char> = word.chars().collect();
        letters.chunks(width).map(String::from_iter).collect::<Vec<String>>()
    };
    text.split(is_blank).flat_map(broken).collect()
}

/// The lines that items fill, and how many items at most so many lines take.
fn filled(items: &[String], width: usize, most: usize) -> (Vec<String>, usize) {
    let mut lines: Vec<String> = Vec::new();
    for (taken, item) in items.iter().enumerate() {
        let fits = |line: &String| line.chars().count() + 1 + item.chars().count() <= width;
        match lines.pop_if(|line| fits(line)) {
            Some(line) => lines.push(line + " " + item),
            None if lines.len() == most => return (lines, taken),
            None => lines.push(item.clone()),
        }
    }
    (lines, items.len())
}

/// Items in at most so many lines of a width; where some are left out, the end says how many.
pub fn wrapped(items: &[String], width: usize, most: usize) -> Vec<String> {
    let (lines, mut kept) = filled(items, width, most);
    if kept == items.len() {
        return lines;
    }
    loop {
        let cut = [&items[..kept], &[format!("and {} more", items.len() - kept)]].concat();
        let (lines, taken) = filled(&cut, width, most);
        if taken == cut.len() || kept == 0 {
            return lines;
        }
        kept -= 1;
    }
}

/// A sentence in lines of a width.
pub fn sentence(text: &str, width: usize) -> Vec<String> {
    wrapped(&words(text, width), width, usize::MAX)
}

/// Rows as lines of text.
pub fn row_lines(rows: &[Row]) -> Vec<String> {
    let lines_of = |row: &Row| {
        let before = format!("{:<NAME$}{}", row.name, row.head);
        let indent = before.chars().count();
        let lines = wrapped(&row.items, COLUMNS - indent, MOST_LINES).into_iter().enumerate();
        let told = lines.map(|(n, line)| if n == 0 { before.clone() + &line } else { " ".repeat(indent) + &line });
        told.collect::<Vec<String>>()
    };
    rows.iter().flat_map(lines_of).collect()
}

/// Lines as one text, without blanks at their ends.
pub fn joined(lines: &[String]) -> String {
    lines.iter().map(|line| format!("{}\n", line.trim_end())).collect()
}
