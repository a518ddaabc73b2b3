//! Reads the statements of a text. Names aren't looked up here; that is for `compile`. How deep parts lie is limited
//! while they are read, so that no text, however deep, is a danger to those who walk over its parts.
//!
//! A fault ends its statement, not the text: all others are read too.

use super::tokens::{statements, Placed, Statement, Token};
use super::{BookLine, Expression, Fault, Faults, LinkExpression, Name, ShapeLine, Spot, Text};
use crate::desk::Desk;
use crate::labels::Way;
use crate::template::{ALL, CHOICE, NO_LIMIT, OPTIONAL, PLUS, STAR};
use std::collections::HashSet;

/// The most parts within each other that are read. Words take 12; deeper parts up to here are refused as words.
pub const MOST_HEIGHT: usize = 64;

/// A part, and how many parts lie within each other there.
type Tall = (Expression, usize);

/// A text as far as it could be read.
#[derive(Clone, Default, Debug)]
pub struct Parsed {
    /// What could be read.
    pub text: Text,
    /// What is wrong with the rest.
    pub faults: Faults,
    /// The words of the statements at fault. These may have introduced names, so such a name isn't unknown.
    pub doubtful: HashSet<String>,
}

/// Reads a text.
pub fn parse(source: &str) -> Parsed {
    let mut parsed = Parsed::default();
    for Statement { tokens, is_whole } in statements(source, &mut parsed.faults) {
        let mut parser = Parser {
            tokens: &tokens,
            next: 0,
        };
        let read = is_whole.then(|| parser.statement(&mut parsed.text));
        if let Some(Ok(())) = read {
            continue;
        }
        if let Some(Err(fault)) = read {
            parsed.faults.note(|| fault);
        }
        let words = tokens.into_iter().filter_map(|(token, _)| token.word());
        parsed.doubtful.extend(words);
    }
    parsed
}

struct Parser<'a> {
    tokens: &'a [Placed],
    next: usize,
}

impl Parser<'_> {
    /// The next token; the last one, an end, stays.
    fn peek(&self) -> &Placed {
        &self.tokens[self.next.min(self.tokens.len() - 1)]
    }

    fn spot(&self) -> Spot {
        self.peek().1
    }

    /// Steps over a sign if it stands here.
    fn takes(&mut self, sign: char) -> bool {
        let here = self.peek().0 == Token::Sign(sign);
        self.next += usize::from(here);
        here
    }

    fn expect(&mut self, sign: char) -> Result<(), Fault> {
        if self.takes(sign) {
            return Ok(());
        }
        Err(self.unexpected(&format!("`{sign}`")))
    }

    fn expect_word(&mut self, word: &str) -> Result<(), Fault> {
        if self.peek().0 != Token::Word(word.to_string()) {
            return Err(self.unexpected(&format!("`{word}`")));
        }
        self.next += 1;
        Ok(())
    }

    /// The fault that something else stands here than was wanted.
    fn unexpected(&self, wanted: &str) -> Fault {
        let (token, spot) = self.peek();
        let found = match token {
            Token::Word(word) => format!("`{word}`"),
            Token::Number(number) => number.to_string(),
            Token::Quoted(_) => "a quotation".to_string(),
            Token::Sign(sign) => format!("`{sign}`"),
            Token::End => "the end of the line".to_string(),
        };
        Fault::at(*spot, format!("{wanted} is wanted here, not {found}"))
    }

    fn name(&mut self, what: &str) -> Result<Name, Fault> {
        match self.peek().clone() {
            (Token::Word(text), spot) => {
                self.next += 1;
                Ok(Name { text, spot })
            }
            _ => Err(self.unexpected(&format!("the name of {what}"))),
        }
    }

    fn number(&mut self, what: &str) -> Result<(u16, Spot), Fault> {
        let (token, spot) = self.peek().clone();
        let Token::Number(number) = token else {
            return Err(self.unexpected(what));
        };
        self.next += 1;
        match u16::try_from(number) {
            Ok(number) if number != NO_LIMIT => Ok((number, spot)),
            _ => Err(Fault::at(
                spot,
                format!("{number} can't be written; no limit is `[low;]`"),
            )),
        }
    }

    fn quoted(&mut self) -> Option<String> {
        let (Token::Quoted(text), _) = self.peek().clone() else {
            return None;
        };
        self.next += 1;
        Some(text)
    }

    /// The whole statement, which may be empty.
    fn statement(&mut self, text: &mut Text) -> Result<(), Fault> {
        if self.peek().0 != Token::End {
            let keyword = self.name("a section")?;
            self.section(&keyword, text)?;
        }
        match self.peek().0 {
            Token::End => Ok(()),
            _ => Err(self.unexpected("the end of the line")),
        }
    }

    /// What follows the word that a line starts with.
    fn section(&mut self, keyword: &Name, text: &mut Text) -> Result<(), Fault> {
        match keyword.text.as_str() {
            "title" => {
                let title = self.quoted().ok_or_else(|| self.unexpected("a quotation"))?;
                if text.title.replace(title).is_some() {
                    let message = "a sheet has one title, and this is the second";
                    return Err(Fault::at(keyword.spot, message));
                }
            }
            "kinds" => self.kinds(text)?,
            "shape" => self.shape(None, text)?,
            "open" => {
                self.expect_word("shape")?;
                self.shape(Some(keyword.spot), text)?;
            }
            "card" => {
                let name = self.name("a card")?;
                let title = self.quoted();
                text.cards.push((name, title));
            }
            "link" => self.links(text)?,
            "book" => self.booking(text)?,
            other => {
                let known = "title, kinds, shape, open shape, card, link or book";
                let message = format!("a line starts with {known}, not with `{other}`");
                return Err(Fault::at(keyword.spot, message));
            }
        }
        Ok(())
    }

    /// A shape's name and part; `open` is where the line says that it is open.
    fn shape(&mut self, open: Option<Spot>, text: &mut Text) -> Result<(), Fault> {
        let name = self.name("a shape")?;
        self.expect('=')?;
        let (part, _) = self.part()?;
        text.shapes.push(ShapeLine { open, name, part });
        Ok(())
    }

    fn kinds(&mut self, text: &mut Text) -> Result<(), Fault> {
        self.takes(':');
        text.kinds.push(self.name("a kind")?);
        while self.peek().0 != Token::End {
            text.kinds.push(self.name("a kind")?);
        }
        Ok(())
    }

    /// From, kind and one or more targets.
    fn links(&mut self, text: &mut Text) -> Result<(), Fault> {
        let from = self.name("a card")?;
        let kind = self.name("a kind")?;
        let mut to = self.name("a card")?;
        loop {
            text.links.push([from.clone(), kind.clone(), to]);
            if self.peek().0 == Token::End {
                return Ok(());
            }
            to = self.name("a card")?;
        }
    }

    /// A desk, if there is one, a card and a shape.
    fn booking(&mut self, text: &mut Text) -> Result<(), Fault> {
        let desk = self.desk()?;
        let card = self.name("a card")?;
        let shape = self.name("a shape")?;
        text.bookings.push(BookLine { desk, card, shape });
        Ok(())
    }

    /// The desk of a booking: a number, or the first of three names. No name is only digits, so a number can't be a
    /// card, and two names are a card and a shape.
    fn desk(&mut self) -> Result<Option<(u16, Name)>, Fault> {
        let (token, spot) = self.peek().clone();
        let (number, text) = match token {
            Token::Number(number) => {
                let too_high = |_| Fault::at(spot, format!("no word can say the desk {number}"));
                (u16::try_from(number).map_err(too_high)?, number.to_string())
            }
            Token::Word(word) if self.are_names_ahead(3) => match Desk::called(&word) {
                Some(desk) => (desk.number(), word),
                None => {
                    let message = "before a card and a shape stands a desk, 0, radio, 1 or television, not";
                    return Err(Fault::at(spot, format!("{message} `{word}`")));
                }
            },
            _ => return Ok(None),
        };
        self.next += 1;
        Ok(Some((number, Name { text, spot })))
    }

    /// Whether the next so many tokens are all names.
    fn are_names_ahead(&self, count: usize) -> bool {
        let ahead = self.tokens[self.next..].iter().take(count);
        ahead.filter(|(token, _)| matches!(token, Token::Word(_))).count() == count
    }

    /// A part: a simple one, then any of `*`, `+` and `?`.
    fn part(&mut self) -> Result<Tall, Fault> {
        let (mut part, mut height) = self.simple()?;
        loop {
            let spot = self.spot();
            let code = match self.peek().0 {
                Token::Sign('*') => STAR,
                Token::Sign('+') => PLUS,
                Token::Sign('?') => OPTIONAL,
                _ => return Ok((part, height)),
            };
            self.next += 1;
            height = higher(height, spot)?;
            part = Expression::Wrap(code, Box::new(part), spot);
        }
    }

    /// A part without a sign after it.
    fn simple(&mut self) -> Result<Tall, Fault> {
        let start = self.spot();
        if self.takes('(') {
            let inner = self.part()?;
            self.close("`)`", start)?;
            return Ok(inner);
        }
        if self.takes('^') {
            let kind = self.name("a kind")?;
            return Ok((self.link((Way::Incoming, start), kind)?, 1));
        }
        let name = self.name("a kind, or nothing, choice or all")?;
        match name.text.as_str() {
            "nothing" => Ok((Expression::Nothing(name.spot), 1)),
            "choice" => self.group(CHOICE, name.spot),
            "all" => self.group(ALL, name.spot),
            _ => Ok((self.link((Way::Outgoing, start), name)?, 1)),
        }
    }

    /// The parts of a group, in brackets; the spot is that of the word before them.
    fn group(&mut self, code: u16, spot: Spot) -> Result<Tall, Fault> {
        let start = self.spot();
        self.expect('(')?;
        let (mut parts, mut height) = (Vec::new(), 0);
        loop {
            let (part, inner) = self.part()?;
            parts.push(part);
            height = height.max(inner);
            if !self.takes(',') {
                break;
            }
        }
        self.close("`,` or `)`", start)?;
        Ok((Expression::Group(code, parts, spot), higher(height, spot)?))
    }

    /// The `)` of a bracket that opens at this spot.
    fn close(&mut self, wanted: &str, start: Spot) -> Result<(), Fault> {
        if self.takes(')') {
            return Ok(());
        }
        let fault = self.unexpected(wanted);
        let message = format!("{}; the bracket at {start} is open", fault.message);
        Err(Fault::at(fault.spot, message))
    }

    /// What follows a link's kind.
    fn link(&mut self, way: (Way, Spot), kind: Name) -> Result<Expression, Fault> {
        self.expect('[')?;
        let low = self.number("the low")?;
        self.expect(';')?;
        let high = if self.peek().0 == Token::Sign(']') {
            (None, self.spot())
        } else {
            let (high, spot) = self.number("the high")?;
            (Some(high), spot)
        };
        self.expect(']')?;
        self.expect('@')?;
        let shape = self.name("a shape")?;
        Ok(Expression::Link(LinkExpression {
            way,
            kind,
            shape,
            low,
            high,
        }))
    }
}

/// The height of a part around one of this height.
fn higher(height: usize, spot: Spot) -> Result<usize, Fault> {
    if height == MOST_HEIGHT {
        let message = format!("more than {MOST_HEIGHT} parts lie within each other here; 12 is the most");
        return Err(Fault::at(spot, message));
    }
    Ok(height + 1)
}
