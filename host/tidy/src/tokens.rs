//! The words of the two languages. A name of antt is any run of characters other than spaces and `( ) { } . ; , @ " « »`, and what stands
//! between `«` and `»` is one name. A name directly behind a dot keeps the dot: a field, or what is named through a module. In the name of
//! an operator `◌` stands where its arguments go.

#[derive(Clone, Debug, PartialEq, Eq)]
pub struct Token {
    pub text: String,
    pub line: usize,
    pub column: usize,
    /// It is the first of its line.
    pub first: bool,
}

pub struct Lexer {
    characters: Vec<char>,
    at: usize,
    line: usize,
    column: usize,
    first: bool,
}

impl Lexer {
    pub fn new(text: &str) -> Lexer {
        Lexer {
            characters: text.chars().collect(),
            at: 0,
            line: 1,
            column: 1,
            first: true,
        }
    }

    /// The next token of antt.
    pub fn antt(&mut self) -> Option<Token> {
        self.skip("--", "{-", "-}");
        self.token(|lexer| match lexer.peek(0) {
            Some('«') => lexer.quoted('»'),
            Some('"') => lexer.quoted('"'),
            Some('.') => {
                lexer.step();
                match lexer.peek(0) {
                    Some('«') => lexer.quoted('»'),
                    _ => lexer.run(in_antt_name),
                }
            }
            Some(c) if in_antt_name(c) => lexer.run(in_antt_name),
            _ => lexer.step(),
        })
    }

    /// The next token of the code. Names and numbers are words, and each other character stands for itself.
    pub fn code(&mut self) -> Option<Token> {
        self.skip("//", "/*", "*/");
        self.token(|lexer| match lexer.peek(0) {
            Some('"') => lexer.quoted('"'),
            // A character, unlike a lifetime, is closed.
            Some('\'') if lexer.peek(1) == Some('\\') || lexer.peek(2) == Some('\'') => {
                lexer.quoted('\'')
            }
            Some(c) if in_code_name(c) => lexer.run(in_code_name),
            _ => lexer.step(),
        })
    }

    fn token(&mut self, take: impl Fn(&mut Lexer)) -> Option<Token> {
        let (start, line, column, first) = (self.at, self.line, self.column, self.first);
        self.peek(0)?;
        take(self);
        self.first = false;
        Some(Token {
            text: self.characters[start..self.at].iter().collect(),
            line,
            column,
            first,
        })
    }

    fn peek(&self, ahead: usize) -> Option<char> {
        self.characters.get(self.at + ahead).copied()
    }

    fn step(&mut self) {
        if let Some(c) = self.peek(0) {
            self.at += 1;
            self.column += 1;
            if c == '\n' {
                self.line += 1;
                self.column = 1;
                self.first = true;
            }
        }
    }

    fn run(&mut self, within: fn(char) -> bool) {
        while self.peek(0).map_or(false, within) {
            self.step();
        }
    }

    /// From an opening character to the closing one.
    fn quoted(&mut self, close: char) {
        self.step();
        while self.peek(0).map_or(false, |c| c != close) {
            if self.peek(0) == Some('\\') {
                self.step();
            }
            self.step();
        }
        self.step();
    }

    /// Spaces, comments to the line's end, and comments within a pair of marks.
    fn skip(&mut self, to_end: &str, open: &str, close: &str) {
        loop {
            if self.peek(0).map_or(false, char::is_whitespace) {
                self.step();
            } else if self.sees(to_end) {
                self.run(|c| c != '\n');
            } else if self.sees(open) {
                while self.peek(0).is_some() && !self.sees(close) {
                    self.step();
                }
                self.step();
                self.step();
            } else {
                return;
            }
        }
    }

    fn sees(&self, mark: &str) -> bool {
        mark.chars()
            .enumerate()
            .all(|(ahead, c)| self.peek(ahead) == Some(c))
    }
}

fn in_antt_name(c: char) -> bool {
    !c.is_whitespace() && !"(){}.;,@\"«»".contains(c)
}

pub fn in_code_name(c: char) -> bool {
    c.is_alphanumeric() || c == '_'
}

/// A name without the marks in which one may be set: `«data»` is `data`.
pub fn bare(name: &str) -> &str {
    let inner = name.strip_prefix('«').and_then(|n| n.strip_suffix('»'));
    inner.unwrap_or(name)
}

/// A whole text's tokens of antt.
pub fn antt(text: &str) -> Vec<Token> {
    let mut lexer = Lexer::new(text);
    std::iter::from_fn(|| lexer.antt()).collect()
}

#[cfg(test)]
mod tests {
    use super::*;

    fn texts(tokens: Vec<Token>) -> Vec<String> {
        tokens.into_iter().map(|token| token.text).collect()
    }

    #[test]
    fn names_of_antt() {
        let text = "f·a-b (x₀ ∷ xs') = λ y. goal.at c.«page_sum» ◌+◌ .+f «data» -- no\n";
        let expected = [
            "f·a-b",
            "(",
            "x₀",
            "∷",
            "xs'",
            ")",
            "=",
            "λ",
            "y",
            ".",
            "goal",
            ".at",
            "c",
            ".«page_sum»",
            "◌+◌",
            ".+f",
            "«data»",
        ];
        assert_eq!(texts(antt(text)), expected);
        assert_eq!((bare("«data»"), bare("data")), ("data", "data"));
    }

    #[test]
    fn comments_and_texts_of_antt() {
        let text = "a {- b -- c\n -} \"-- d\" e-- f--g -- h";
        assert_eq!(texts(antt(text)), ["a", "\"-- d\"", "e--", "f--g"]);
    }

    #[test]
    fn words_of_the_code() {
        let mut lexer =
            Lexer::new("fn f<'a>(b: &'a u8) { b == b'\\'' /* c */ } // d\n\"e\\\"f\" g");
        let tokens: Vec<Token> = std::iter::from_fn(|| lexer.code()).collect();
        let last = tokens[tokens.len() - 1].clone();
        assert_eq!(
            texts(tokens).join(" "),
            "fn f < ' a > ( b : & ' a u8 ) { b = = b '\\'' } \"e\\\"f\" g"
        );
        assert_eq!((last.line, last.column, last.first), (2, 8, false));
    }

    #[test]
    fn places() {
        let tokens = antt("a\n  b c");
        let places: Vec<_> = tokens.iter().map(|t| (t.line, t.column, t.first)).collect();
        assert_eq!(places, [(1, 1, true), (2, 3, true), (2, 5, false)]);
    }
}
