//! Cuts a text into statements, and these into tokens. A line ends a statement, except inside brackets of any kind;
//! `#` starts a comment. A byte-order mark at the start is skipped. A fault doesn't end the cutting: what can't be a
//! token is passed over, and the statement isn't whole.

use super::brackets::Brackets;
use super::{quotations, Fault, Faults, Spot};

/// One token.
#[derive(Clone, PartialEq, Eq, Debug)]
pub enum Token {
    /// A name or a keyword: letters, digits, `_` and `-`, not only digits.
    Word(String),
    /// A number.
    Number(u32),
    /// A text between quotation marks.
    Quoted(String),
    /// One of `: = ( ) [ ] ; , @ ^ * + ?`.
    Sign(char),
    /// The end of a statement.
    End,
}

impl Token {
    /// The word that it is, if it is one.
    pub fn word(self) -> Option<String> {
        match self {
            Token::Word(word) => Some(word),
            _ => None,
        }
    }
}

/// A token and where it starts.
pub type Placed = (Token, Spot);

/// A statement.
#[derive(Clone, PartialEq, Eq, Debug)]
pub struct Statement {
    /// Its tokens; the last one is an end.
    pub tokens: Vec<Placed>,
    /// Whether all of it could be cut into tokens, and its brackets are closed.
    pub is_whole: bool,
}

/// The words that a statement starts with.
const KEYWORDS: [&str; 7] = ["title", "kinds", "shape", "open", "card", "link", "book"];

/// The statements of a text; what is wrong with them is noted.
pub fn statements(text: &str, faults: &mut Faults) -> Vec<Statement> {
    let text = text.strip_prefix('\u{feff}').unwrap_or(text);
    let mut cutter = Cutter::new(faults);
    for (content, line) in text.lines().zip(1..) {
        if !cutter.brackets.none_open() && starts_statement(content) {
            let column = 1 + content.chars().take_while(|sign| sign.is_whitespace()).count();
            cutter.end(Spot { line, column }, false);
        }
        let column = 1 + cutter.line(content, line);
        if cutter.brackets.none_open() {
            cutter.end(Spot { line, column }, false);
        }
    }
    let line = text.lines().count() + 1;
    cutter.end(Spot { line, column: 1 }, true);
    cutter.statements
}

/// Whether a line can only be the start of a statement, even inside brackets: a keyword, and then a word, a number, a
/// quotation or a colon, none of which ever follows a word inside brackets.
fn starts_statement(content: &str) -> bool {
    let content = content.trim_start();
    let word = content.find(|sign| !is_of_word(sign)).unwrap_or(content.len());
    let (word, rest) = content.split_at(word);
    let next = rest.trim_start().chars().next();
    KEYWORDS.contains(&word) && next.is_some_and(|next| is_of_word(next) || "\":".contains(next))
}

/// The statement that is being cut, and those before it.
struct Cutter<'a> {
    statements: Vec<Statement>,
    tokens: Vec<Placed>,
    is_whole: bool,
    brackets: Brackets,
    faults: &'a mut Faults,
}

impl Cutter<'_> {
    fn new(faults: &mut Faults) -> Cutter<'_> {
        Cutter {
            statements: Vec::new(),
            tokens: Vec::new(),
            is_whole: true,
            brackets: Brackets::default(),
            faults,
        }
    }

    /// Ends the statement before this spot, which is the text's end or not.
    fn end(&mut self, spot: Spot, is_last: bool) {
        let next = (!is_last).then_some(spot);
        if let Some(fault) = self.brackets.end(next) {
            self.fault(fault);
        }
        self.brackets = Brackets::default();
        let mut tokens = std::mem::take(&mut self.tokens);
        tokens.push((Token::End, spot));
        let is_whole = std::mem::replace(&mut self.is_whole, true);
        self.statements.push(Statement { tokens, is_whole });
    }

    fn fault(&mut self, fault: Fault) {
        self.is_whole = false;
        self.faults.note(|| fault);
    }

    /// Adds the tokens of one line, and gives its length.
    fn line(&mut self, content: &str, line: usize) -> usize {
        let characters: Vec<char> = content.chars().collect();
        let mut index = 0;
        while index < characters.len() && characters[index] != '#' {
            if characters[index].is_whitespace() {
                index += 1;
                continue;
            }
            let column = index + 1;
            let spot = Spot { line, column };
            let (token, length) = token(&characters[index..], spot);
            match token {
                Ok(token) => self.token(token, spot),
                Err(fault) => self.fault(fault),
            }
            index += length;
        }
        characters.len()
    }

    fn token(&mut self, token: Token, spot: Spot) {
        if let Token::Sign(sign) = token {
            if let Some(fault) = self.brackets.note(sign, spot) {
                self.fault(fault);
            }
        }
        self.tokens.push((token, spot));
    }
}

/// The token that the characters start with, or what is wrong there, and how many of them that takes.
fn token(characters: &[char], spot: Spot) -> (Result<Token, Fault>, usize) {
    let first = characters[0];
    if ":=()[];,@^*+?".contains(first) {
        return (Ok(Token::Sign(first)), 1);
    }
    if first == '"' {
        return match quotations::read(characters, spot) {
            Ok((inside, length)) => (Ok(Token::Quoted(inside)), length),
            // Where it should have ended can't be told, so the rest of the line goes with it.
            Err(fault) => (Err(fault), characters.len()),
        };
    }
    let length = characters.iter().take_while(|other| is_of_word(**other)).count();
    if length == 0 {
        let message = format!("the sign {first:?} has no meaning here");
        return (Err(Fault::at(spot, message)), 1);
    }
    let word: String = characters[..length].iter().collect();
    if !word.chars().all(|digit| digit.is_ascii_digit()) {
        return (Ok(Token::Word(word)), length);
    }
    let too_large = |_| Fault::at(spot, format!("the number {word} is too large"));
    (word.parse().map(Token::Number).map_err(too_large), length)
}

fn is_of_word(character: char) -> bool {
    character.is_alphanumeric() || character == '_' || character == '-'
}
