//! The tables and the fenced blocks of a page of Markdown, with the lines on which they stand.

/// A table or a block.
#[derive(Clone, PartialEq, Eq, Debug)]
pub enum Item {
    /// A table: the names of its columns, and its rows.
    Table(Vec<String>, Vec<Row>),
    /// A fenced block: the word after its first fence, the line of that fence, and its lines.
    Block(String, usize, Vec<String>),
}

/// A row of a table.
#[derive(Clone, PartialEq, Eq, Debug)]
pub struct Row {
    /// Its line, from 1.
    pub line: usize,
    /// Its cells, without the signs for code.
    pub cells: Vec<String>,
}

/// All tables and blocks, in the page's order.
pub fn items(page: &str) -> Result<Vec<Item>, String> {
    let mut items = Vec::new();
    let mut lines = page.lines().zip(1..).peekable();
    while let Some((text, line)) = lines.next() {
        if let Some(word) = text.strip_prefix("```") {
            let mut block = Vec::new();
            loop {
                match lines.next() {
                    Some((text, _)) if text.starts_with("```") => break,
                    Some((text, _)) => block.push(text.to_string()),
                    None => return Err(format!("{line}: the block doesn't end")),
                }
            }
            items.push(Item::Block(word.trim().to_string(), line, block));
        } else if text.starts_with('|') {
            let columns = cells(text);
            let mut rows = Vec::new();
            while let Some((text, line)) = lines.next_if(|(text, _)| text.starts_with('|')) {
                rows.push(Row {
                    line,
                    cells: cells(text),
                });
            }
            items.push(table(line, columns, rows)?);
        }
    }
    Ok(items)
}

/// A table whose second line is the rule below the head, and whose rows have as many cells as the head.
fn table(line: usize, columns: Vec<String>, mut rows: Vec<Row>) -> Result<Item, String> {
    let is_rule = |row: &Row| row.cells.iter().all(|cell| cell.contains('-'));
    if !rows.first().is_some_and(is_rule) {
        return Err(format!("{line}: the table has no rule below its head"));
    }
    rows.remove(0);
    match rows.iter().find(|row| row.cells.len() != columns.len()) {
        Some(row) => Err(format!(
            "{}: the row has {} cells under {} columns",
            row.line,
            row.cells.len(),
            columns.len()
        )),
        None => Ok(Item::Table(columns, rows)),
    }
}

/// The cells of a line, without the signs for code.
fn cells(text: &str) -> Vec<String> {
    let inside = text.trim().trim_start_matches('|').trim_end_matches('|');
    let plain = |cell: &str| cell.replace('`', "").trim().to_string();
    inside.split('|').map(plain).collect()
}
