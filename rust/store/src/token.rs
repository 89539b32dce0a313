//! Lines of text, cut into names and symbols that know where they stand.

use std::fmt;
use std::rc::Rc;

/// Line and column, counted from 1; a column is a character.
#[derive(Clone, Copy, Debug, PartialEq, Eq)]
pub struct Position {
    pub line: usize,
    pub column: usize,
}

impl Position {
    /// The position just behind a text.
    pub fn behind(text: &str) -> Self {
        let last = text.rsplit('\n').next().unwrap_or("");
        Position { line: text.matches('\n').count() + 1, column: last.chars().count() + 1 }
    }
}

/// A fault of a text. In a template `round` says which values the loops had.
#[derive(Clone, Debug, PartialEq, Eq)]
pub struct Error {
    pub at: Position,
    pub message: String,
    pub round: String,
}

impl Error {
    pub fn new(at: Position, message: impl Into<String>) -> Self {
        Error { at, message: message.into(), round: String::new() }
    }

    fn in_round(self, round: &str) -> Self {
        Error { round: round.to_owned(), ..self }
    }
}

impl fmt::Display for Error {
    fn fmt(&self, out: &mut fmt::Formatter) -> fmt::Result {
        write!(out, "line {}, column {}: {}", self.at.line, self.at.column, self.message)?;
        if self.round.is_empty() {
            return Ok(());
        }
        write!(out, " (with {})", self.round)
    }
}

/// A name, or a single character that stands for itself.
#[derive(Clone, Debug)]
pub struct Token {
    pub text: String,
    pub at: Position,
    round: Rc<str>,
}

impl Token {
    pub fn error(&self, message: impl Into<String>) -> Error {
        Error::new(self.at, message).in_round(&self.round)
    }

    /// The error for a token where another was expected.
    pub fn instead_of(&self, expected: &str) -> Error {
        self.error(format!("expected {expected}, found `{}`", self.text.escape_debug()))
    }

    pub fn twice(&self, expected: &str) -> Error {
        self.error(format!("expected {expected}, found `{}` a second time", self.text))
    }

    pub fn is_name(&self) -> bool {
        self.text.starts_with(in_name)
    }

    /// The token's place with another text, in a round of a template.
    pub fn with_text(&self, text: String, round: &Rc<str>) -> Token {
        Token { text, at: self.at, round: round.clone() }
    }

    /// The number that the token is, if it has digits only and is not above a limit.
    pub fn number(&self, limit: usize) -> Option<usize> {
        let digits = self.text.bytes().all(|byte| byte.is_ascii_digit());
        self.text.parse().ok().filter(|&number| digits && number <= limit)
    }
}

/// Names take any character but blanks, control characters and the four that have a meaning. Braces
/// belong to names here and are taken out by templates.
fn in_name(c: char) -> bool {
    let plain = !c.is_whitespace() && !c.is_control();
    plain && !matches!(c, '#' | '=' | ':' | ',' | '\u{fffe}' | '\u{ffff}')
}

/// What is left to read of a line.
#[derive(Clone, Debug)]
pub struct Line {
    tokens: std::vec::IntoIter<Token>,
    end: Position,
    round: Rc<str>,
}

/// The lines of a text; comments are left out.
pub fn lines(text: &str) -> impl Iterator<Item = Line> + '_ {
    let text = text.strip_prefix('\u{feff}').unwrap_or(text);
    let round: Rc<str> = "".into();
    text.lines().enumerate().map(move |(number, line)| {
        let line = line.split('#').next().unwrap_or("").trim_end();
        let at =
            |bytes: usize| Position { line: number + 1, column: line[..bytes].chars().count() + 1 };
        let cut = cut(line).into_iter();
        let tokens = cut.map(|(first, text)| Token {
            text: text.to_owned(),
            at: at(first),
            round: round.clone(),
        });
        Line::new(tokens.collect(), at(line.len()), &round)
    })
}

/// The tokens of a line, each behind the byte at which it starts.
fn cut(line: &str) -> Vec<(usize, &str)> {
    let (mut at, mut tokens) = (0, Vec::new());
    while let Some(first) = line[at..].chars().next() {
        let name = line[at..].find(|c| !in_name(c)).unwrap_or(line.len() - at);
        let length = name.max(first.len_utf8());
        if !first.is_whitespace() {
            tokens.push((at, &line[at..at + length]));
        }
        at += length;
    }
    tokens
}

impl Line {
    pub fn new(tokens: Vec<Token>, end: Position, round: &Rc<str>) -> Self {
        Line { tokens: tokens.into_iter(), end, round: round.clone() }
    }

    pub fn token(&mut self) -> Option<Token> {
        self.tokens.next()
    }

    pub fn peek(&self) -> Option<&Token> {
        self.rest().first()
    }

    /// The tokens not read yet.
    pub fn rest(&self) -> &[Token] {
        self.tokens.as_slice()
    }

    pub fn at_end(&self) -> bool {
        self.rest().is_empty()
    }

    /// Where the line ends.
    pub fn end_position(&self) -> Position {
        self.end
    }

    /// An error at the end of the line.
    pub fn error(&self, message: impl Into<String>) -> Error {
        Error::new(self.end, message).in_round(&self.round)
    }

    fn expect(&mut self, expected: &str) -> Result<Token, Error> {
        let missing = self.error(format!("expected {expected}, found end of line"));
        self.token().ok_or(missing)
    }

    /// The next token if it is a name.
    pub fn name(&mut self, expected: &str) -> Result<Token, Error> {
        let token = self.expect(expected)?;
        if token.is_name() {
            Ok(token)
        } else {
            Err(token.instead_of(expected))
        }
    }

    /// Passes over a word or symbol.
    pub fn pass(&mut self, text: &str) -> Result<(), Error> {
        let expected = format!("`{text}`");
        let token = self.expect(&expected)?;
        if token.text == text {
            Ok(())
        } else {
            Err(token.instead_of(&expected))
        }
    }

    /// A number from 0 to a limit.
    pub fn number(&mut self, what: &str, limit: usize) -> Result<usize, Error> {
        let expected = format!("{what} from 0 to {limit}");
        let token = self.expect(&expected)?;
        token.number(limit).ok_or_else(|| token.instead_of(&expected))
    }

    pub fn end(&mut self) -> Result<(), Error> {
        self.token().map_or(Ok(()), |token| Err(token.instead_of("end of line")))
    }
}
