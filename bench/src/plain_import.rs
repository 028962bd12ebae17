//! The import once more, unproved and fast, to measure against: one pass over the text, and one over the first nodes of what it says. Nothing is
//! allocated.

#![forbid(unsafe_code)]

use crate::reading::{Question, Refusal, AND, AT_MOST, EQUATION, NOT, OR};

const NESTING: usize = 32;
const NUMERAL: u32 = 1_000_000;
const COLLECTED: i64 = 1 << 40;

pub fn import(text: &[u8]) -> Result<Question, Refusal> {
    let mut reader = Reader::new(text);
    if reader.script().is_err() {
        return refused(14, reader.scanner.at);
    }
    reader.question()
}

fn refused<T>(number: u8, place: usize) -> Result<T, Refusal> {
    Err(Refusal { number, place })
}

// Tokens

#[derive(Clone, Copy, PartialEq)]
enum Token {
    Open,
    Close,
    Numeral,
    Plain,
    Quoted,
    Other,
    End,
}

/// The text is not well formed where the scanner stands.
struct Broken;

/// A byte of white space.
const SPACE: u8 = 1;
/// A byte that may stand after a token.
const STOP: u8 = 2;
/// A byte of a simple symbol.
const WORD: u8 = 4;
const DIGIT: u8 = 8;
/// A byte of a string.
const PRINTABLE: u8 = 16;

const CLASSES: [u8; 256] = {
    let mut classes = [0; 256];
    let mut byte = 0;
    while byte < 256 {
        classes[byte] = match byte as u8 {
            b'\t' | b'\n' | b'\r' | b' ' => SPACE | STOP | PRINTABLE,
            b'(' | b')' | b';' | b'"' | b'|' => STOP | PRINTABLE,
            b'0'..=b'9' => WORD | DIGIT | PRINTABLE,
            b'a'..=b'z' | b'A'..=b'Z' => WORD | PRINTABLE,
            b'~' | b'!' | b'@' | b'$' | b'%' | b'^' | b'&' | b'*' | b'_' | b'-' | b'+' | b'=' | b'<' | b'>' | b'.' | b'?' | b'/' => WORD | PRINTABLE,
            0..=31 | 127 => 0,
            _ => PRINTABLE,
        };
        byte += 1;
    }
    classes
};

fn is(byte: u8, class: u8) -> bool {
    CLASSES[byte as usize] & class != 0
}

struct Scanner<'t> {
    text: &'t [u8],
    /// Where the last token starts, and where it ends.
    start: usize,
    at: usize,
    /// The lists that are open.
    open: usize,
    /// The last numeral, or one above the largest.
    number: u32,
}

impl<'t> Scanner<'t> {
    fn next(&mut self) -> Result<Token, Broken> {
        let text = self.text;
        let mut at = self.at;
        let (byte, class) = loop {
            let Some(&byte) = text.get(at) else {
                (self.start, self.at) = (at, at);
                return if self.open == 0 { Ok(Token::End) } else { Err(Broken) };
            };
            let class = CLASSES[byte as usize];
            if class & SPACE != 0 {
                at += 1;
            } else if byte == b';' {
                let rest = &text[at..];
                at += rest.iter().position(|&byte| byte == b'\n' || byte == b'\r').unwrap_or(rest.len());
            } else {
                break (byte, class);
            }
        };
        (self.start, self.at) = (at, at);
        if class & DIGIT != 0 {
            let token = self.numeral(byte)?;
            return self.ended(token);
        }
        if class & WORD != 0 {
            self.skip(WORD);
            return self.ended(Token::Plain);
        }
        match byte {
            b'(' => {
                if self.open == NESTING {
                    return Err(Broken);
                }
                self.open += 1;
                self.at += 1;
                Ok(Token::Open)
            }
            b')' => {
                if self.open == 0 {
                    return Err(Broken);
                }
                self.open -= 1;
                self.at += 1;
                Ok(Token::Close)
            }
            b'|' => self.quoted(),
            _ => self.other(byte),
        }
    }

    /// The token, if what stands after it may.
    #[inline]
    fn ended(&self, token: Token) -> Result<Token, Broken> {
        match self.text.get(self.at) {
            Some(&byte) if !is(byte, STOP) => Err(Broken),
            _ => Ok(token),
        }
    }

    /// Moves past bytes of a class.
    #[inline]
    fn skip(&mut self, class: u8) {
        let mut at = self.at;
        while at < self.text.len() && is(self.text[at], class) {
            at += 1;
        }
        self.at = at;
    }

    fn numeral(&mut self, first: u8) -> Result<Token, Broken> {
        let mut number = (first - b'0') as u32;
        self.at += 1;
        if number != 0 {
            while self.at < self.text.len() && is(self.text[self.at], DIGIT) {
                number = (10 * number + (self.text[self.at] - b'0') as u32).min(NUMERAL + 1);
                self.at += 1;
            }
        }
        self.number = number;
        if self.text.get(self.at) != Some(&b'.') {
            return Ok(Token::Numeral);
        }
        self.at += 1;
        let whole = self.at;
        self.skip(DIGIT);
        if self.at == whole {
            return Err(Broken);
        }
        Ok(Token::Other)
    }

    fn quoted(&mut self) -> Result<Token, Broken> {
        let rest = &self.text[self.at + 1..];
        self.at += 1 + rest.iter().position(|&byte| byte == b'|' || byte == b'\\' || !is(byte, PRINTABLE)).unwrap_or(rest.len());
        if self.text.get(self.at) != Some(&b'|') {
            return Err(Broken);
        }
        self.at += 1;
        Ok(Token::Quoted)
    }

    /// A token that the subset has no use for.
    #[cold]
    fn other(&mut self, first: u8) -> Result<Token, Broken> {
        match first {
            b'"' => return self.string(),
            b'#' => self.coded()?,
            b':' => {
                self.at += 1;
                if self.text.get(self.at).is_none_or(|&byte| !is(byte, WORD) || is(byte, DIGIT)) {
                    return Err(Broken);
                }
                self.skip(WORD);
            }
            _ => return Err(Broken),
        }
        self.ended(Token::Other)
    }

    /// A hexadecimal or a binary number.
    fn coded(&mut self) -> Result<(), Broken> {
        self.at += 1;
        let is_digit: fn(&u8) -> bool = match self.text.get(self.at) {
            Some(b'x') => u8::is_ascii_hexdigit,
            Some(b'b') => |byte| matches!(byte, b'0' | b'1'),
            _ => return Err(Broken),
        };
        let digits = &self.text[self.at + 1..];
        let length = digits.iter().position(|byte| !is_digit(byte)).unwrap_or(digits.len());
        self.at += 1 + length;
        if length == 0 {
            return Err(Broken);
        }
        Ok(())
    }

    fn string(&mut self) -> Result<Token, Broken> {
        self.at += 1;
        loop {
            match self.text.get(self.at) {
                Some(b'"') => {
                    self.at += 1;
                    if self.text.get(self.at) != Some(&b'"') {
                        return Ok(Token::Other);
                    }
                }
                Some(&byte) if is(byte, PRINTABLE) => {}
                _ => return Err(Broken),
            }
            self.at += 1;
        }
    }

    /// The last token, if it is a symbol or a reserved word, without its bars.
    fn word(&self, token: Token) -> Option<&'t [u8]> {
        match token {
            Token::Plain => Some(&self.text[self.start..self.at]),
            Token::Quoted => Some(&self.text[self.start + 1..self.at - 1]),
            _ => None,
        }
    }
}

// The script

/// A number for each variable, one for a seventh name, and the constant last.
type Sum = [i64; 8];
const CONSTANT: usize = 7;
const ZERO: Sum = [0; 8];

/// Whether no number is past `COLLECTED`, either way.
fn collected(sum: &Sum) -> bool {
    // Negative if one is.
    sum.iter().fold(0, |past, number| past | (COLLECTED - number) | (COLLECTED + number)) >= 0
}

#[derive(Clone, Copy)]
struct Name<'t> {
    name: &'t [u8],
    key: u64,
    /// Where its declaration starts.
    place: usize,
    /// It is a reserved word without its bars.
    barred: bool,
    signed: bool,
}

/// The first bytes of a name. No byte is 0.
fn key(name: &[u8]) -> u64 {
    name.iter().take(8).fold(0, |key, &byte| key << 8 | byte as u64)
}

/// Connectives and comparisons as they stand in the text. A question ends before a ninth comparison, and over each stand fewer than `NESTING`
/// connectives.
struct Nodes {
    codes: [u8; Nodes::MOST],
    parts: [usize; Nodes::MOST],
    places: [usize; Nodes::MOST],
    count: usize,
    sums: [Sum; Question::ATOMS + 1],
    comparisons: usize,
}

impl Nodes {
    const MOST: usize = (Question::ATOMS + 1) * NESTING;

    /// The node's number. What comes after the most has none.
    fn push(&mut self, code: u8, place: usize) -> usize {
        let node = self.count;
        if node < Nodes::MOST {
            self.codes[node] = code;
            self.places[node] = place;
            self.count += 1;
        }
        node
    }

    fn push_comparison(&mut self, code: u8, place: usize, sum: Sum) {
        if self.comparisons < self.sums.len() {
            self.sums[self.comparisons] = sum;
            self.comparisons += 1;
            self.push(code, place);
        }
    }
}

/// What stands where a symbol is due: its word, if it is one.
struct Part<'t> {
    word: Option<&'t [u8]>,
    barred: bool,
    place: usize,
}

struct Reader<'t> {
    scanner: Scanner<'t>,
    names: [Name<'t>; Question::VARIABLES + 1],
    named: usize,
    nodes: Nodes,
    assertions: usize,
    /// The lowest fault: twice its place, and one more for 4.
    fault: usize,
}

impl<'t> Reader<'t> {
    fn new(text: &'t [u8]) -> Reader<'t> {
        Reader {
            scanner: Scanner { text, start: 0, at: 0, open: 0, number: 0 },
            names: [Name { name: b"", key: 0, place: 0, barred: false, signed: false }; 7],
            named: 0,
            nodes: Nodes { codes: [0; Nodes::MOST], parts: [0; Nodes::MOST], places: [0; Nodes::MOST], count: 0, sums: [ZERO; 9], comparisons: 0 },
            assertions: 0,
            fault: usize::MAX,
        }
    }

    fn next(&mut self) -> Result<Token, Broken> {
        self.scanner.next()
    }

    /// Where the last token starts.
    fn place(&self) -> usize {
        self.scanner.start
    }

    #[cold]
    fn outside(&mut self, place: usize) {
        self.fault = self.fault.min(2 * place);
    }

    #[cold]
    fn limit(&mut self, place: usize) {
        self.fault = self.fault.min(2 * place + 1);
    }

    /// Moves on until so many lists are open.
    #[cold]
    fn leave(&mut self, open: usize) -> Result<(), Broken> {
        while self.scanner.open > open {
            self.next()?;
        }
        Ok(())
    }

    /// The end of the list that starts at the place; whether it ends here.
    fn end(&mut self, place: usize) -> Result<bool, Broken> {
        let open = self.scanner.open - 1;
        if self.next()? == Token::Close {
            return Ok(true);
        }
        self.outside(place);
        self.leave(open)?;
        Ok(false)
    }

    fn script(&mut self) -> Result<(), Broken> {
        let mut check_sat = None;
        let mut first = true;
        loop {
            let token = self.next()?;
            let place = self.place();
            match token {
                Token::End => break,
                Token::Open if check_sat.is_none() => {
                    if self.command(place, first)? {
                        check_sat = Some(place);
                    }
                }
                _ => self.outside(place),
            }
            first = false;
        }
        for i in 0..self.named {
            if !self.names[i].signed {
                self.outside(self.names[i].place);
            }
        }
        match check_sat {
            None => self.outside(self.place()),
            Some(place) => {
                if self.assertions == 0 {
                    self.outside(place);
                }
                if self.named == 0 {
                    self.limit(place);
                }
            }
        }
        Ok(())
    }

    /// Whether it is `check-sat`.
    fn command(&mut self, place: usize, first: bool) -> Result<bool, Broken> {
        // A reserved word in bars is none.
        let token = self.next()?;
        let head = if token == Token::Plain { self.scanner.word(token) } else { None };
        if (head == Some(b"set-logic")) != first {
            self.outside(place);
        }
        match head {
            Some(b"assert") => self.assertion(place)?,
            Some(b"declare-const") => self.declaration(place)?,
            Some(b"set-logic") => self.logic(place)?,
            Some(b"check-sat") => {
                self.end(place)?;
                return Ok(true);
            }
            _ => {
                self.outside(place);
                self.leave(0)?;
            }
        }
        Ok(false)
    }

    /// What stands where a symbol is due, which may be a list, and is passed over. Nothing where the list around it, from `list` on, ends.
    fn part(&mut self, list: usize) -> Result<Option<Part<'t>>, Broken> {
        let token = self.next()?;
        let part = Part { word: self.scanner.word(token), barred: token == Token::Quoted, place: self.place() };
        match token {
            Token::Close => {
                self.outside(list);
                return Ok(None);
            }
            Token::Open => self.leave(self.scanner.open - 1)?,
            _ => {}
        }
        Ok(Some(part))
    }

    fn logic(&mut self, place: usize) -> Result<(), Broken> {
        if let Some(logic) = self.part(place)? {
            if logic.word != Some(b"QF_LIA") {
                self.outside(logic.place);
            }
            self.end(place)?;
        }
        Ok(())
    }

    fn declaration(&mut self, place: usize) -> Result<(), Broken> {
        let Some(Part { word, barred, place: at }) = self.part(place)? else { return Ok(()) };
        let reserved = word.is_some_and(is_reserved);
        let name = word.filter(|name| !is_theory(name) && (barred || !reserved) && self.variable(name, barred).is_none());
        if name.is_none() {
            self.outside(at);
        }
        let Some(sort) = self.part(place)? else { return Ok(()) };
        let is_int = sort.word == Some(b"Int");
        if !is_int {
            self.outside(sort.place);
        }
        let ends = self.end(place)?;
        if let (Some(name), true, true) = (name, is_int, ends) {
            if self.named < self.names.len() {
                if self.named == Question::VARIABLES {
                    self.limit(at);
                }
                self.names[self.named] = Name { name, key: key(name), place, barred: reserved, signed: false };
                self.named += 1;
            }
        }
        Ok(())
    }

    /// The variable of a name, which stands in bars or without.
    fn variable(&self, name: &[u8], barred: bool) -> Option<usize> {
        let key = key(name);
        self.names[..self.named].iter().position(|declared| {
            let same = declared.key == key && declared.name.len() == name.len() && (name.len() <= 8 || declared.name == name);
            same && (barred || !declared.barred)
        })
    }

    /// The variable that the last token names.
    fn named(&self, token: Token) -> Option<usize> {
        self.variable(self.scanner.word(token)?, token == Token::Quoted)
    }

    fn assertion(&mut self, place: usize) -> Result<(), Broken> {
        let token = self.next()?;
        if token == Token::Close {
            self.outside(place);
            return Ok(());
        }
        let (nodes, comparisons) = (self.nodes.count, self.nodes.comparisons);
        let sign = self.formula(token)?;
        if self.end(place)? {
            match sign {
                Some(variable) => {
                    self.names[variable].signed = true;
                    (self.nodes.count, self.nodes.comparisons) = (nodes, comparisons);
                }
                None => self.assertions += 1,
            }
        }
        Ok(())
    }

    /// The formula that starts with the last token. Where it says of a variable that it is not negative, and no more, the variable.
    fn formula(&mut self, token: Token) -> Result<Option<usize>, Broken> {
        let place = self.place();
        if token != Token::Open {
            self.outside(place);
            return Ok(None);
        }
        let open = self.scanner.open - 1;
        let token = self.next()?;
        match self.scanner.word(token) {
            Some(b"and") => self.connective(AND, place),
            Some(b"or") => self.connective(OR, place),
            Some(b"not") => self.connective(NOT, place),
            Some(b"=") => self.comparison(EQUATION, 1, 0, place),
            Some(b"<=") => self.comparison(AT_MOST, 1, 0, place),
            Some(b">=") => self.comparison(AT_MOST, -1, 0, place),
            Some(b"<") => self.comparison(AT_MOST, 1, 1, place),
            Some(b">") => self.comparison(AT_MOST, -1, 1, place),
            _ => {
                self.outside(place);
                self.leave(open)?;
                Ok(None)
            }
        }
    }

    fn connective(&mut self, code: u8, place: usize) -> Result<Option<usize>, Broken> {
        let node = self.nodes.push(code, place);
        let mut parts = 0;
        loop {
            let token = self.next()?;
            if token == Token::Close {
                break;
            }
            parts += 1;
            self.formula(token)?;
        }
        if parts == 0 || (code == NOT && parts > 1) {
            self.outside(place);
        }
        if node < Nodes::MOST {
            self.nodes.parts[node] = parts;
        }
        Ok(None)
    }

    /// A comparison whose smaller side is its left one (1) or its right one (-1), and which lowers the constant by so much.
    fn comparison(&mut self, code: u8, smaller: i64, lowered: i64, place: usize) -> Result<Option<usize>, Broken> {
        let mut sum = ZERO;
        let token = self.next()?;
        let name = self.named(token);
        let Some(left) = self.side(token, place, &mut sum, smaller)? else { return Ok(None) };
        let token = self.next()?;
        let zero = token == Token::Numeral && self.scanner.number == 0;
        let Some(right) = self.side(token, place, &mut sum, -smaller)? else { return Ok(None) };
        if !self.end(place)? || !left || !right {
            return Ok(None);
        }
        if !collected(&sum) {
            self.outside(place);
            return Ok(None);
        }
        sum[CONSTANT] = -sum[CONSTANT] - lowered;
        self.nodes.push_comparison(code, place, sum);
        let at_least = code == AT_MOST && smaller == -1 && lowered == 0;
        Ok(if at_least && zero { name } else { None })
    }

    /// A term that must not be the end of the list around it, which starts at `list`; nothing where it is.
    fn side(&mut self, token: Token, list: usize, sum: &mut Sum, times: i64) -> Result<Option<bool>, Broken> {
        if token == Token::Close {
            self.outside(list);
            return Ok(None);
        }
        Ok(Some(self.term(token, sum, times)?))
    }

    /// Adds the term that starts with the last token, or takes it away (-1). Whether nothing of it was refused.
    fn term(&mut self, token: Token, sum: &mut Sum, times: i64) -> Result<bool, Broken> {
        match token {
            Token::Numeral if self.scanner.number <= NUMERAL => {
                sum[CONSTANT] += times * self.scanner.number as i64;
                return Ok(true);
            }
            Token::Plain | Token::Quoted => {
                if let Some(variable) = self.named(token) {
                    sum[variable] += times;
                    return Ok(true);
                }
            }
            Token::Open => return self.list(sum, times),
            _ => {}
        }
        self.outside(self.place());
        Ok(false)
    }

    fn list(&mut self, into: &mut Sum, times: i64) -> Result<bool, Broken> {
        let place = self.place();
        let open = self.scanner.open - 1;
        let token = self.next()?;
        let mut sum = ZERO;
        let taken = match self.scanner.word(token) {
            Some(b"+") => self.addition(place, &mut sum)?,
            Some(b"-") => self.subtraction(place, &mut sum)?,
            Some(b"*") => self.product(place, open, &mut sum)?,
            _ => {
                self.outside(place);
                self.leave(open)?;
                false
            }
        };
        if !taken {
            return Ok(false);
        }
        if !collected(&sum) {
            self.outside(place);
            return Ok(false);
        }
        for (into, number) in into.iter_mut().zip(sum) {
            *into += times * number;
        }
        Ok(true)
    }

    fn addition(&mut self, place: usize, sum: &mut Sum) -> Result<bool, Broken> {
        // So many parts, none of them past `COLLECTED`, cannot pass 63 bits.
        const SOME: usize = 1 << 22;
        let mut parts = 0;
        let mut taken = true;
        loop {
            let token = self.next()?;
            if token == Token::Close {
                break;
            }
            taken &= self.term(token, sum, 1)?;
            parts += 1;
            if parts == SOME {
                return Ok(self.more(sum)? && taken);
            }
        }
        if parts < 2 {
            self.outside(place);
            return Ok(false);
        }
        Ok(taken)
    }

    /// The parts of an addition that has many.
    #[cold]
    fn more(&mut self, sum: &mut Sum) -> Result<bool, Broken> {
        let mut wide = sum.map(i128::from);
        let mut taken = true;
        loop {
            let token = self.next()?;
            if token == Token::Close {
                break;
            }
            let mut part = ZERO;
            taken &= self.term(token, &mut part, 1)?;
            for (wide, number) in wide.iter_mut().zip(part) {
                *wide += number as i128;
            }
        }
        // What is past `COLLECTED` stays so.
        *sum = wide.map(|number| number.clamp(-2 * COLLECTED as i128, 2 * COLLECTED as i128) as i64);
        Ok(taken)
    }

    fn subtraction(&mut self, place: usize, sum: &mut Sum) -> Result<bool, Broken> {
        let token = self.next()?;
        let Some(left) = self.side(token, place, sum, 1)? else { return Ok(false) };
        let token = self.next()?;
        if token == Token::Close {
            for number in sum {
                *number = -*number;
            }
            return Ok(left);
        }
        let right = self.term(token, sum, -1)?;
        Ok(self.end(place)? && left && right)
    }

    fn product(&mut self, place: usize, open: usize, sum: &mut Sum) -> Result<bool, Broken> {
        let left = self.next()?;
        let mut factor = self.scanner.number;
        let Some(left_taken) = self.side(left, place, sum, 1)? else { return Ok(false) };
        let right = self.next()?;
        let right_taken = if left == Token::Numeral {
            *sum = ZERO;
            let Some(taken) = self.side(right, place, sum, 1)? else { return Ok(false) };
            taken
        } else if right == Token::Numeral {
            factor = self.scanner.number;
            if factor > NUMERAL {
                self.outside(self.place());
            }
            factor <= NUMERAL
        } else {
            self.outside(place);
            self.leave(open)?;
            return Ok(false);
        };
        if !self.end(place)? || !left_taken || !right_taken {
            return Ok(false);
        }
        for number in sum {
            *number *= factor as i64;
        }
        Ok(true)
    }

    // The question

    fn question(&self) -> Result<Question, Refusal> {
        if self.fault != usize::MAX {
            return refused(if self.fault % 2 == 0 { 15 } else { 4 }, self.fault / 2);
        }
        let mut layout = Layout { nodes: &self.nodes, next: 0, question: Question::empty(), used: 0, atoms: 0 };
        layout.question.n = self.named as u8;
        layout.joined(AND, self.nodes.places[0], self.assertions, 1)?;
        Ok(layout.question)
    }
}

struct Layout<'r> {
    nodes: &'r Nodes,
    /// The next of them.
    next: usize,
    question: Question,
    used: usize,
    atoms: usize,
}

impl Layout<'_> {
    fn node(&mut self, code: u8, place: usize, depth: usize) -> Result<(), Refusal> {
        if self.used == Question::NODES || depth > Question::DEPTH {
            return refused(5, place);
        }
        self.question.codes[self.used] = code;
        self.used += 1;
        Ok(())
    }

    fn formula(&mut self, depth: usize) -> Result<(), Refusal> {
        let (code, place) = (self.nodes.codes[self.next], self.nodes.places[self.next]);
        self.next += 1;
        match code {
            AND | OR => self.joined(code, place, self.nodes.parts[self.next - 1], depth),
            NOT => {
                self.node(code, place, depth)?;
                self.formula(depth + 1)
            }
            _ => {
                if self.atoms == Question::ATOMS {
                    return refused(5, place);
                }
                self.node(code, place, depth)?;
                let sum = &self.nodes.sums[self.atoms];
                let row = &mut self.question.coefficients[6 * self.atoms..][..6];
                for (cell, &number) in row.iter_mut().zip(sum) {
                    if number.abs() > Question::COEFFICIENT as i64 {
                        return refused(12, place);
                    }
                    *cell = number as i32;
                }
                if sum[CONSTANT].abs() > Question::CONSTANT as i64 {
                    return refused(13, place);
                }
                self.question.constants[self.atoms] = sum[CONSTANT] as i32;
                self.atoms += 1;
                Ok(())
            }
        }
    }

    fn joined(&mut self, code: u8, place: usize, parts: usize, depth: usize) -> Result<(), Refusal> {
        for i in 0..parts - 1 {
            self.node(code, if i == 0 { place } else { self.nodes.places[self.next] }, depth + i)?;
            self.formula(depth + i + 1)?;
        }
        self.formula(depth + parts - 1)
    }
}

fn is_theory(name: &[u8]) -> bool {
    let words: &[&[u8]] = match name.len() {
        1 => &[b"=", b"+", b"-", b"*", b"<", b">"],
        2 => &[b"=>", b"or", b"<=", b">="],
        3 => &[b"not", b"and", b"xor", b"ite", b"div", b"mod", b"abs"],
        4 => &[b"true"],
        5 => &[b"false"],
        8 => &[b"distinct"],
        _ => &[],
    };
    words.contains(&name)
}

fn is_reserved(name: &[u8]) -> bool {
    let words: &[&[u8]] = match name.len() {
        1 => &[b"_", b"!"],
        2 => &[b"as"],
        3 => &[b"let", b"par", b"pop"],
        4 => &[b"echo", b"exit", b"push"],
        5 => &[b"match", b"reset"],
        6 => &[b"BINARY", b"STRING", b"exists", b"forall", b"assert"],
        7 => &[b"DECIMAL", b"NUMERAL"],
        8 => &[b"get-info", b"set-info"],
        9 => &[b"check-sat", b"get-model", b"get-proof", b"get-value", b"set-logic"],
        10 => &[b"define-fun", b"get-option", b"set-option"],
        11 => &[b"HEXADECIMAL", b"declare-fun", b"define-sort"],
        12 => &[b"declare-sort"],
        13 => &[b"declare-const"],
        14 => &[b"define-fun-rec", b"get-assertions", b"get-assignment", b"get-unsat-core"],
        15 => &[b"define-funs-rec"],
        16 => &[b"declare-datatype", b"reset-assertions"],
        17 => &[b"declare-datatypes"],
        18 => &[b"check-sat-assuming"],
        21 => &[b"get-unsat-assumptions"],
        _ => &[],
    };
    words.contains(&name)
}
