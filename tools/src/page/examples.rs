//! The examples of a page. A table with a column `answer` holds one in each row; which operation it asks is told by
//! its other columns. A block that starts with "```sheet" holds one sheet, one that starts with "```hex" a printer's
//! input. A block that starts with "```text" holds a text, and tables below it ask about that by names. A table with
//! the columns `name` and `words` gives names to words. Every other table and block is only read by people.

use super::cells::{self, Names};
use super::markdown::{self, Item, Row};
use super::texts::Named;

/// What a row asks.
#[derive(Clone, Copy, PartialEq, Eq, Debug, Default)]
pub enum Operation {
    /// *Read a template*.
    Template,
    /// *Fit counts*.
    Fit,
    /// *Read a script*.
    Script,
    /// *Links of a card*.
    Links,
    /// *Largest*, into a grid of some bytes.
    Largest,
    /// *Smallest*, into a grid of some bytes.
    Smallest,
    /// *Both typings*, into two grids of some bytes.
    Both,
    /// *The sheet printer* on the three files.
    #[default]
    Sheet,
    /// *The sheet printer* on any bytes.
    Input,
    /// The grid after a round of the largest typing.
    Round,
    /// The closure of a desk's bookings.
    Closure,
    /// Whether a pair is met under a typing.
    Met,
    /// Whether a typing is sound.
    Sound,
    /// Whether a typing holds a desk's bookings.
    Holds,
    /// Whether a typing lies between two others.
    Between,
    /// *Judge a grid*.
    Judge,
    /// *Tidy bookings*, into a buffer of some words.
    Tidy,
    /// Whether a card has a shape in the largest typing.
    Has,
    /// Whether what a desk books is met.
    Booked,
}

/// The columns that ask, in the order of this list, and what they ask.
const ASKED: [(&str, Operation); 22] = [
    ("template", Operation::Template),
    ("template counts", Operation::Fit),
    ("template shape counts", Operation::Fit),
    ("template script", Operation::Script),
    ("template script card", Operation::Links),
    ("template script bytes", Operation::Largest),
    ("template script bookings bytes", Operation::Smallest),
    ("template script bookings desk bytes", Operation::Smallest),
    ("template script bookings desk smallest largest", Operation::Both),
    ("template script bookings", Operation::Sheet),
    ("input", Operation::Input),
    ("template script round", Operation::Round),
    ("template script closure", Operation::Closure),
    ("template script desk closure", Operation::Closure),
    ("template script shape card typing", Operation::Met),
    ("template script typing", Operation::Sound),
    ("template script bookings typing", Operation::Holds),
    ("template script bookings desk typing", Operation::Holds),
    ("template script typing lower upper", Operation::Between),
    ("template script bookings grid", Operation::Judge),
    ("template script bookings desk grid", Operation::Judge),
    ("template script bookings words", Operation::Tidy),
];

/// The columns that ask about the text above the table, in the order of the list below.
const ASKED_BY_NAMES: [(&str, Operation); 4] = [
    ("", Operation::Template),
    ("shape links", Operation::Fit),
    ("shape card", Operation::Has),
    ("desk", Operation::Booked),
];

/// The columns that ask, in the order in which `ASKED` names them.
const COLUMNS: [&str; 19] = [
    "input", "template", "script", "bookings", "desk", "shape", "counts", "links", "card", "bytes",
    "smallest", "largest", "round", "typing", "lower", "upper", "closure", "grid", "words",
];

/// The columns that only people read.
const PROSE: [&str; 6] = ["number", "fault", "place", "sample", "part", "why"];

/// One question; what its operation doesn't ask for is empty.
#[derive(Clone, PartialEq, Eq, Debug, Default)]
pub struct Question {
    /// What is asked.
    pub operation: Operation,
    /// The template's words.
    pub template: Vec<u16>,
    /// The script's words.
    pub script: Vec<u16>,
    /// The bookings' words.
    pub bookings: Vec<u16>,
    /// The desk that is asked for; 0 if there is no column for it.
    pub desk: u16,
    /// A count for each kind each way.
    pub counts: Vec<u16>,
    /// A shape.
    pub shape: u16,
    /// A card.
    pub card: u16,
    /// The bytes of the grid that is lent.
    pub bytes: usize,
    /// The bytes of the grids that are lent for both typings: the smallest's.
    pub smallest: usize,
    /// And the largest's.
    pub largest: usize,
    /// How many rounds.
    pub round: usize,
    /// A typing, and the two that it may lie between.
    pub typing: Vec<u8>,
    /// The lower of those two.
    pub lower: Vec<u8>,
    /// The upper of those two.
    pub upper: Vec<u8>,
    /// The bytes of a grid that is judged.
    pub grid: Vec<u8>,
    /// The words of the buffer that is lent.
    pub words: usize,
    /// The printer's input.
    pub input: Vec<u8>,
}

/// One example.
#[derive(Clone, PartialEq, Eq, Debug)]
pub struct Example {
    /// The line of the page on which it stands.
    pub line: usize,
    /// What it asks.
    pub question: Question,
    /// The answer that the page gives. Lines of a printed sheet have ` / ` between them.
    pub answer: String,
    /// The refusal that the row is about, if the table has a column for it.
    pub number: Option<String>,
    /// The label of a count sample, if the table has a column for it.
    pub sample: Option<String>,
}

/// The examples of a page. An error starts with a line and a colon.
pub fn read(page: &str) -> Result<Vec<Example>, String> {
    let mut reader = Reader::default();
    for item in markdown::items(page)? {
        match item {
            Item::Table(columns, rows) => {
                for row in rows {
                    let told = |error| format!("{}: {error}", row.line);
                    reader.row(&columns, &row).map_err(told)?;
                }
            }
            Item::Block(word, line, lines) => {
                let told = |error| format!("{line}: {error}");
                reader.block(&word, line, &lines).map_err(told)?;
            }
        }
    }
    reader.end_text()?;
    Ok(reader.examples)
}

/// What was read so far.
#[derive(Default)]
struct Reader {
    names: Names,
    text: Option<Named>,
    examples: Vec<Example>,
}

impl Reader {
    fn row(&mut self, columns: &[String], row: &Row) -> Result<(), String> {
        if has(columns, "answer") {
            let example = self.example(columns, row)?;
            self.examples.push(example);
        } else if has(columns, "name") && has(columns, "words") {
            let words = cells::words(&self.names, cell(columns, row, "words"))?;
            let name = cell(columns, row, "name").to_string();
            self.names.insert(name, words);
        }
        Ok(())
    }

    fn block(&mut self, word: &str, line: usize, lines: &[String]) -> Result<(), String> {
        match word {
            "sheet" => self.examples.push(sheet(&self.names, line, lines)?),
            "hex" => self.examples.push(hex(line, lines)?),
            "text" => {
                self.end_text()?;
                self.text = Some(Named::read(line, lines)?);
            }
            _ => {}
        }
        Ok(())
    }

    /// A text that nobody asks about would show nothing.
    fn end_text(&self) -> Result<(), String> {
        match &self.text {
            Some(text) if !text.is_asked => Err(format!("{}: nothing is asked about the text", text.line)),
            _ => Ok(()),
        }
    }

    /// The example of a row.
    fn example(&mut self, columns: &[String], row: &Row) -> Result<Example, String> {
        let known = |column: &&String| {
            let column = column.as_str();
            column == "answer" || COLUMNS.contains(&column) || PROSE.contains(&column)
        };
        if let Some(column) = columns.iter().find(|column| !known(column)) {
            return Err(format!("no example has a column {column:?}"));
        }
        let asking = COLUMNS.into_iter().filter(|name| has(columns, name));
        let cells: Vec<(&str, &str)> = asking.map(|name| (name, cell(columns, row, name))).collect();
        let some = |name| has(columns, name).then(|| cell(columns, row, name).to_string());
        Ok(Example {
            line: row.line,
            question: self.question(&cells)?,
            answer: cell(columns, row, "answer").to_string(),
            number: some("number"),
            sample: some("sample"),
        })
    }

    /// What the cells of the columns that ask, ask.
    fn question(&mut self, cells: &[(&str, &str)]) -> Result<Question, String> {
        let asked: Vec<&str> = cells.iter().map(|(name, _)| *name).collect();
        let asked = asked.join(" ");
        let of = |list: &[(&str, Operation)]| {
            let found = list.iter().find(|(columns, _)| *columns == asked);
            found.map(|(_, operation)| *operation)
        };
        if let (Some(operation), Some(text)) = (of(&ASKED_BY_NAMES), &mut self.text) {
            text.is_asked = true;
            return text.question(operation, cells);
        }
        let operation = of(&ASKED).ok_or(format!("nothing is asked by the columns {asked:?}"))?;
        let mut question = Question {
            operation,
            ..Question::default()
        };
        for (name, cell) in cells {
            question.set(&self.names, name, cell)?;
        }
        Ok(question)
    }
}

fn has(columns: &[String], name: &str) -> bool {
    columns.iter().any(|column| column == name)
}

/// A cell of a row; nothing if there is no such column.
fn cell<'row>(columns: &[String], row: &'row Row, name: &str) -> &'row str {
    let place = columns.iter().position(|column| column == name);
    place.map_or("", |place| &row.cells[place])
}

impl Question {
    /// Takes what a cell of a column that asks says.
    fn set(&mut self, names: &Names, column: &str, cell: &str) -> Result<(), String> {
        match column {
            "input" => self.input = cells::bytes(names, cell)?,
            "template" => self.template = cells::words(names, cell)?,
            "script" => self.script = cells::words(names, cell)?,
            "bookings" | "closure" => self.bookings = cells::words(names, cell)?,
            "desk" => self.desk = cells::number(cell)?,
            "counts" => self.counts = cells::words(names, cell)?,
            "shape" => self.shape = cells::number(cell)?,
            "card" => self.card = cells::number(cell)?,
            "bytes" => self.bytes = cells::number(cell)?,
            "smallest" => self.smallest = cells::number(cell)?,
            "largest" => self.largest = cells::number(cell)?,
            "round" => self.round = cells::number(cell)?,
            "typing" => self.typing = cells::grid(cell)?,
            "lower" => self.lower = cells::grid(cell)?,
            "upper" => self.upper = cells::grid(cell)?,
            "grid" => self.grid = cells::judged_grid(cell)?,
            "words" => self.words = cells::number(cell)?,
            _ => return Err(format!("no example asks with a column {column:?}")),
        }
        Ok(())
    }
}

/// The example of a block: lines that start with `template`, `script` and `bookings`, a line `prints`, and then the
/// lines that the printer writes.
fn sheet(names: &Names, line: usize, lines: &[String]) -> Result<Example, String> {
    let (files, answer) = printed(lines)?;
    let mut question = Question::default();
    for text in files {
        let (name, words) = text.split_once(' ').unwrap_or((text, ""));
        if !["template", "script", "bookings"].contains(&name) {
            return Err(format!("no sheet has a line {text:?}"));
        }
        question.set(names, name, words)?;
    }
    Ok(Example {
        line,
        question,
        answer,
        number: None,
        sample: None,
    })
}

/// The example of a block: lines of bytes in hex, a line `prints`, and then the lines that the printer writes.
fn hex(line: usize, lines: &[String]) -> Result<Example, String> {
    let (bytes, answer) = printed(lines)?;
    let input = bytes.iter().flat_map(|text| text.split_whitespace());
    Ok(Example {
        line,
        question: Question {
            operation: Operation::Input,
            input: input.map(cells::hex_byte).collect::<Result<_, _>>()?,
            ..Question::default()
        },
        answer,
        number: None,
        sample: None,
    })
}

/// The lines of a block before its line `prints`, and those behind it as an answer.
fn printed(lines: &[String]) -> Result<(&[String], String), String> {
    let prints = lines.iter().position(|text| text == "prints");
    let (asked, printed) = lines.split_at(prints.ok_or("the sheet has no line `prints`")?);
    Ok((asked, printed[1..].join(" / ")))
}
