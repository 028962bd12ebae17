//! A reading of request E2 of document 02 in plain Rust, for comparison: SMT-LIB text into a held question. First the text is taken apart into forms,
//! which 14 may refuse; then the forms are checked, every fault being noted and the lowest counting; then the question is laid out, node by node.
//! Clear rather than fast; it shares nothing with the proved code or with `plain_import` but the types of `reading`.

#![forbid(unsafe_code)]

use crate::reading::{Question, Refusal, AND, AT_MOST, EQUATION, NOT, OR};
use std::ops::Range;

/// Lists that may be open at once.
const NESTING: usize = 32;
/// The largest numeral.
const NUMERAL: i128 = 1_000_000;
/// The largest number that a term or a comparison may come to, either way.
const COLLECTED: i128 = 1 << 40;

/// The held question of a text.
pub fn imported(text: &[u8]) -> Result<Question, Refusal> {
    let script = script(text, &forms(text)?)?;
    laid_out(&script)
}

/// Where the name of each variable stands in a text that is accepted, its bars included.
pub fn names(text: &[u8]) -> Result<Vec<Range<usize>>, Refusal> {
    let forms = forms(text)?;
    let script = script(text, &forms)?;
    laid_out(&script)?;
    Ok(script.variables.into_iter().map(|variable| variable.token).collect())
}

/// The same without their bars.
pub fn bare_names(text: &[u8]) -> Result<Vec<Range<usize>>, Refusal> {
    let bare = |name: Range<usize>| if text[name.start] == b'|' { name.start + 1..name.end - 1 } else { name };
    Ok(names(text)?.into_iter().map(bare).collect())
}

// Forms: tokens, and lists of forms

/// Characters of a simple symbol beside letters and digits.
const SYMBOL: &[u8] = b"~!@$%^&*_-+=<>.?/";

/// The standard's reserved words: those of its section 3.1, and the names of the commands.
const RESERVED: [&[u8]; 43] = [
    b"BINARY",
    b"DECIMAL",
    b"HEXADECIMAL",
    b"NUMERAL",
    b"STRING",
    b"_",
    b"!",
    b"as",
    b"let",
    b"exists",
    b"forall",
    b"match",
    b"par",
    b"assert",
    b"check-sat",
    b"check-sat-assuming",
    b"declare-const",
    b"declare-datatype",
    b"declare-datatypes",
    b"declare-fun",
    b"declare-sort",
    b"define-fun",
    b"define-fun-rec",
    b"define-funs-rec",
    b"define-sort",
    b"echo",
    b"exit",
    b"get-assertions",
    b"get-assignment",
    b"get-info",
    b"get-model",
    b"get-option",
    b"get-proof",
    b"get-unsat-assumptions",
    b"get-unsat-core",
    b"get-value",
    b"pop",
    b"push",
    b"reset",
    b"reset-assertions",
    b"set-info",
    b"set-logic",
    b"set-option",
];

/// The symbols of the standard's theories of truth values and integers, which cannot be declared.
const THEORY: [&[u8]; 20] = [
    b"true",
    b"false",
    b"not",
    b"=>",
    b"and",
    b"or",
    b"xor",
    b"=",
    b"distinct",
    b"ite",
    b"+",
    b"-",
    b"*",
    b"div",
    b"mod",
    b"abs",
    b"<=",
    b"<",
    b">=",
    b">",
];

/// A token or a list, and the bytes where it stands.
struct Form<'t> {
    at: Range<usize>,
    what: What<'t>,
}

enum What<'t> {
    /// A numeral, as a number where that is at most `NUMERAL`.
    Numeral(Option<i128>),
    /// A symbol, without its bars where it is quoted.
    Symbol(&'t [u8]),
    Reserved(&'t [u8]),
    /// A token that the subset has no use for: a decimal, a hexadecimal or binary number, a string or a keyword.
    Other,
    List(Vec<Form<'t>>),
}

impl<'t> Form<'t> {
    fn place(&self) -> usize {
        self.at.start
    }

    /// The head of a list and the parts after it.
    fn headed(&self) -> Option<(&What<'t>, &[Form<'t>])> {
        let What::List(forms) = &self.what else { return None };
        let (head, parts) = forms.split_first()?;
        Some((&head.what, parts))
    }

    fn is_numeral(&self) -> bool {
        matches!(self.what, What::Numeral(_))
    }

    fn is_symbol(&self, name: &[u8]) -> bool {
        matches!(self.what, What::Symbol(symbol) if symbol == name)
    }
}

fn is_space(byte: u8) -> bool {
    matches!(byte, b'\t' | b'\n' | b'\r' | b' ')
}

fn is_symbol(byte: u8) -> bool {
    byte.is_ascii_alphanumeric() || SYMBOL.contains(&byte)
}

/// What strings and quoted symbols take.
fn is_printable(byte: u8) -> bool {
    is_space(byte) || matches!(byte, 32..=126 | 128..)
}

fn not_well_formed<T>(place: usize) -> Result<T, Refusal> {
    Err(Refusal { number: 14, place })
}

/// The forms of a text.
fn forms(text: &[u8]) -> Result<Vec<Form<'_>>, Refusal> {
    // The lists that are open, the innermost last: where each began, and its forms so far. The first is the text itself.
    let mut open = vec![(0, Vec::new())];
    let mut place = 0;
    while place < text.len() {
        let start = place;
        match text[start] {
            byte if is_space(byte) => place += 1,
            b';' => {
                while place < text.len() && !matches!(text[place], b'\n' | b'\r') {
                    place += 1;
                }
            }
            b'(' => {
                if open.len() > NESTING {
                    return not_well_formed(start);
                }
                open.push((start, Vec::new()));
                place += 1;
            }
            b')' => {
                if open.len() == 1 {
                    return not_well_formed(start);
                }
                place += 1;
                let (start, forms) = open.pop().expect("the list");
                let (_, outer) = open.last_mut().expect("what it stands in");
                outer.push(Form { at: start..place, what: What::List(forms) });
            }
            _ => {
                let (end, what) = token(text, start)?;
                place = end;
                let (_, forms) = open.last_mut().expect("what it stands in");
                forms.push(Form { at: start..end, what });
            }
        }
    }
    let (_, forms) = open.pop().expect("the text");
    if open.is_empty() {
        Ok(forms)
    } else {
        not_well_formed(text.len())
    }
}

/// The first place from `place` on whose byte is none of these.
fn past(text: &[u8], place: usize, these: fn(u8) -> bool) -> usize {
    text[place..].iter().position(|&byte| !these(byte)).map_or(text.len(), |length| place + length)
}

/// The first place from `place` on whose byte is none of these, of which there must be one.
fn past_some(text: &[u8], place: usize, these: fn(u8) -> bool) -> Result<usize, Refusal> {
    let end = past(text, place, these);
    if end == place {
        return not_well_formed(place);
    }
    Ok(end)
}

/// The token that starts at a place, and where it ends.
fn token(text: &[u8], start: usize) -> Result<(usize, What<'_>), Refusal> {
    let digit = |byte: u8| byte.is_ascii_digit();
    let byte_at = |place: usize| text.get(place).copied();
    let (end, what) = match text[start] {
        // These two end themselves.
        b'"' => return Ok((string_end(text, start)?, What::Other)),
        b'|' => {
            let bar = past(text, start + 1, |byte| is_printable(byte) && byte != b'|' && byte != b'\\');
            if byte_at(bar) != Some(b'|') {
                return not_well_formed(bar);
            }
            return Ok((bar + 1, What::Symbol(&text[start + 1..bar])));
        }
        b'0'..=b'9' => {
            // No digit goes on after a first 0.
            let whole = if text[start] == b'0' { start + 1 } else { past(text, start, digit) };
            if byte_at(whole) == Some(b'.') {
                (past_some(text, whole + 1, digit)?, What::Other)
            } else {
                (whole, What::Numeral(number(&text[start..whole])))
            }
        }
        b'#' => {
            let end = match byte_at(start + 1) {
                Some(b'x') => past_some(text, start + 2, |byte| byte.is_ascii_hexdigit())?,
                Some(b'b') => past_some(text, start + 2, |byte| matches!(byte, b'0' | b'1'))?,
                _ => return not_well_formed(start + 1),
            };
            (end, What::Other)
        }
        b':' => {
            if byte_at(start + 1).is_some_and(digit) {
                return not_well_formed(start + 1);
            }
            (past_some(text, start + 1, is_symbol)?, What::Other)
        }
        _ => {
            let end = past_some(text, start, is_symbol)?;
            let word = &text[start..end];
            (end, if RESERVED.contains(&word) { What::Reserved(word) } else { What::Symbol(word) })
        }
    };
    match byte_at(end) {
        None | Some(b';' | b'(' | b')' | b'"' | b'|') => Ok((end, what)),
        Some(byte) if is_space(byte) => Ok((end, what)),
        Some(_) => not_well_formed(end),
    }
}

/// The end of a string: its first quote that is not one of two.
fn string_end(text: &[u8], start: usize) -> Result<usize, Refusal> {
    let mut place = start + 1;
    loop {
        place = past(text, place, |byte| is_printable(byte) && byte != b'"');
        if text.get(place) != Some(&b'"') {
            return not_well_formed(place);
        }
        if text.get(place + 1) != Some(&b'"') {
            return Ok(place + 1);
        }
        place += 2;
    }
}

/// What digits come to, if that is at most `NUMERAL`.
fn number(digits: &[u8]) -> Option<i128> {
    let mut number = 0;
    for digit in digits {
        number = 10 * number + (digit - b'0') as i128;
        if number > NUMERAL {
            return None;
        }
    }
    Some(number)
}

// The subset

/// What a text that 14 does not refuse says, if 15 and 4 do not refuse it either.
struct Script<'t> {
    variables: Vec<Variable<'t>>,
    /// The assertions but those of signs.
    formulas: Vec<Formula>,
}

/// A declared name. A seventh is refused, and it is one all the same.
struct Variable<'t> {
    name: &'t [u8],
    /// Where its name stands.
    token: Range<usize>,
    /// The place of its declaration.
    declared: usize,
    /// Whether it is asserted not to be negative.
    signed: bool,
}

/// A formula, with the place of its parenthesis.
struct Formula {
    place: usize,
    what: Connected,
}

enum Connected {
    /// The sum of these numbers times the variables equals the constant, or is at most it.
    Comparison {
        equation: bool,
        sum: Sum,
    },
    Not(Box<Formula>),
    And(Vec<Formula>),
    Or(Vec<Formula>),
}

/// A number for each variable, one for a seventh name, and the constant last.
type Sum = [i128; CONSTANT + 1];

const CONSTANT: usize = Question::VARIABLES + 1;

fn combined(left: &Sum, right: &Sum, by: impl Fn(i128, i128) -> i128) -> Sum {
    std::array::from_fn(|i| by(left[i], right[i]))
}

/// What was read so far, and the faults that were met. A part that is refused, or has one that is, comes out as none.
#[derive(Default)]
struct Reader<'t> {
    variables: Vec<Variable<'t>>,
    formulas: Vec<Formula>,
    faults: Vec<Refusal>,
}

fn script<'t>(text: &'t [u8], forms: &[Form<'t>]) -> Result<Script<'t>, Refusal> {
    let mut reader = Reader::default();
    let mut check_sat = None;
    if forms.is_empty() {
        reader.outside(text.len());
    }
    for (i, form) in forms.iter().enumerate() {
        if check_sat.is_some() {
            reader.outside(form.place());
            break;
        }
        let is_set_logic = matches!(form.headed(), Some((What::Reserved(b"set-logic"), _)));
        if is_set_logic != (i == 0) {
            reader.outside(form.place());
        }
        match form.headed() {
            Some((What::Reserved(b"set-logic"), [logic])) => {
                if !logic.is_symbol(b"QF_LIA") {
                    reader.outside(logic.place());
                }
            }
            Some((What::Reserved(b"declare-const"), [name, sort])) => reader.declaration(form.place(), name, sort),
            Some((What::Reserved(b"assert"), [formula])) => reader.assertion(formula),
            Some((What::Reserved(b"check-sat"), parts)) => {
                check_sat = Some(form.place());
                if !parts.is_empty() {
                    reader.outside(form.place());
                }
            }
            _ => reader.outside(form.place()),
        }
    }
    for variable in reader.variables.iter().filter(|variable| !variable.signed) {
        reader.faults.push(Refusal { number: 15, place: variable.declared });
    }
    if let Some(seventh) = reader.variables.get(Question::VARIABLES) {
        reader.faults.push(Refusal { number: 4, place: seventh.token.start });
    }
    match check_sat {
        None => reader.outside(text.len()),
        Some(place) => {
            if reader.formulas.is_empty() {
                reader.outside(place);
            }
            if reader.variables.is_empty() {
                reader.faults.push(Refusal { number: 4, place });
            }
        }
    }
    match reader.faults.into_iter().min_by_key(|fault| (fault.place, fault.number == 4)) {
        Some(fault) => Err(fault),
        None => Ok(Script { variables: reader.variables, formulas: reader.formulas }),
    }
}

impl<'t> Reader<'t> {
    fn outside(&mut self, place: usize) {
        self.faults.push(Refusal { number: 15, place });
    }

    fn variable(&self, name: &[u8]) -> Option<usize> {
        self.variables.iter().position(|variable| variable.name == name)
    }

    fn declaration(&mut self, place: usize, name: &Form<'t>, sort: &Form<'t>) {
        let symbol = match name.what {
            What::Symbol(symbol) if !THEORY.contains(&symbol) && self.variable(symbol).is_none() => Some(symbol),
            _ => {
                self.outside(name.place());
                None
            }
        };
        let is_int = sort.is_symbol(b"Int");
        if !is_int {
            self.outside(sort.place());
        }
        if let (Some(symbol), true) = (symbol, is_int) {
            // What comes after a seventh name cannot be lower.
            if self.variables.len() <= Question::VARIABLES {
                self.variables.push(Variable { name: symbol, token: name.at.clone(), declared: place, signed: false });
            }
        }
    }

    fn assertion(&mut self, formula: &Form) {
        if let Some((What::Symbol(b">="), [Form { what: What::Symbol(name), .. }, Form { what: What::Numeral(Some(0)), .. }])) = formula.headed() {
            if let Some(variable) = self.variable(name) {
                self.variables[variable].signed = true;
                return;
            }
        }
        if let Some(formula) = self.formula(formula) {
            self.formulas.push(formula);
        }
    }

    fn formula(&mut self, form: &Form) -> Option<Formula> {
        let what = match form.headed() {
            Some((What::Symbol(b"not"), [part])) => Connected::Not(Box::new(self.formula(part)?)),
            Some((What::Symbol(b"and"), parts @ [_, ..])) => Connected::And(self.formulas(parts)?),
            Some((What::Symbol(b"or"), parts @ [_, ..])) => Connected::Or(self.formulas(parts)?),
            Some((What::Symbol(head @ (b"=" | b"<=" | b"<" | b">=" | b">")), [left, right])) => self.comparison(form.place(), head, left, right)?,
            _ => {
                self.outside(form.place());
                return None;
            }
        };
        Some(Formula { place: form.place(), what })
    }

    fn formulas(&mut self, parts: &[Form]) -> Option<Vec<Formula>> {
        let parts: Vec<Option<Formula>> = parts.iter().map(|part| self.formula(part)).collect();
        parts.into_iter().collect()
    }

    fn comparison(&mut self, place: usize, head: &[u8], left: &Form, right: &Form) -> Option<Connected> {
        let (left, right) = (self.term(left), self.term(right));
        let (left, right) = (left?, right?);
        let (smaller, larger) = if head[0] == b'>' { (right, left) } else { (left, right) };
        let mut sum = combined(&smaller, &larger, |smaller, larger| smaller - larger);
        sum[CONSTANT] = -sum[CONSTANT];
        let mut sum = self.collected(place, sum)?;
        if head == b"<" || head == b">" {
            sum[CONSTANT] -= 1;
        }
        Some(Connected::Comparison { equation: head == b"=", sum })
    }

    fn term(&mut self, form: &Form) -> Option<Sum> {
        let mut sum = [0; CONSTANT + 1];
        match form.what {
            What::Numeral(Some(number)) => {
                sum[CONSTANT] = number;
                return Some(sum);
            }
            What::Symbol(name) => {
                if let Some(variable) = self.variable(name) {
                    sum[variable] = 1;
                    return Some(sum);
                }
            }
            _ => {}
        }
        let sum = match form.headed() {
            Some((What::Symbol(b"+"), parts @ [_, _, ..])) => {
                let mut refused = false;
                for part in parts {
                    match self.term(part) {
                        Some(part) => sum = combined(&sum, &part, |sum, part| sum + part),
                        None => refused = true,
                    }
                }
                (!refused).then_some(sum)?
            }
            Some((What::Symbol(b"-"), [part])) => self.term(part)?.map(|number| -number),
            Some((What::Symbol(b"-"), [left, right])) => {
                let (left, right) = (self.term(left), self.term(right));
                combined(&left?, &right?, |left, right| left - right)
            }
            Some((What::Symbol(b"*"), [left, right])) if left.is_numeral() || right.is_numeral() => {
                let (left, right) = (self.term(left), self.term(right));
                let (left, right) = (left?, right?);
                // One of the two has a constant alone.
                let mut product = combined(&left, &right, |a, b| a * right[CONSTANT] + b * left[CONSTANT]);
                product[CONSTANT] = left[CONSTANT] * right[CONSTANT];
                product
            }
            _ => {
                self.outside(form.place());
                return None;
            }
        };
        self.collected(form.place(), sum)
    }

    /// The numbers that a term or a comparison comes to, if they are within their limit.
    fn collected(&mut self, place: usize, sum: Sum) -> Option<Sum> {
        if sum.iter().any(|number| number.abs() > COLLECTED) {
            self.outside(place);
            return None;
        }
        Some(sum)
    }
}

// The question

struct Layout {
    question: Question,
    nodes: usize,
    atoms: usize,
}

fn laid_out(script: &Script) -> Result<Question, Refusal> {
    let mut layout = Layout { question: Question::empty(), nodes: 0, atoms: 0 };
    layout.question.n = script.variables.len() as u8;
    layout.joined(AND, script.formulas[0].place, &script.formulas, 1)?;
    Ok(layout.question)
}

impl Layout {
    fn node(&mut self, code: u8, place: usize, depth: usize) -> Result<(), Refusal> {
        let is_atom = code == EQUATION || code == AT_MOST;
        if self.nodes == Question::NODES || (is_atom && self.atoms == Question::ATOMS) || depth > Question::DEPTH {
            return Err(Refusal { number: 5, place });
        }
        self.question.codes[self.nodes] = code;
        self.nodes += 1;
        Ok(())
    }

    fn formula(&mut self, formula: &Formula, depth: usize) -> Result<(), Refusal> {
        let place = formula.place;
        match &formula.what {
            Connected::Comparison { equation, sum } => {
                self.node(if *equation { EQUATION } else { AT_MOST }, place, depth)?;
                let (coefficients, constant) = (&sum[..Question::VARIABLES], sum[CONSTANT]);
                if coefficients.iter().any(|number| number.abs() > Question::COEFFICIENT as i128) {
                    return Err(Refusal { number: 12, place });
                }
                if constant.abs() > Question::CONSTANT as i128 {
                    return Err(Refusal { number: 13, place });
                }
                for (j, coefficient) in coefficients.iter().enumerate() {
                    self.question.coefficients[6 * self.atoms + j] = *coefficient as i32;
                }
                self.question.constants[self.atoms] = constant as i32;
                self.atoms += 1;
                Ok(())
            }
            Connected::Not(part) => {
                self.node(NOT, place, depth)?;
                self.formula(part, depth + 1)
            }
            Connected::And(parts) => self.joined(AND, place, parts, depth),
            Connected::Or(parts) => self.joined(OR, place, parts, depth),
        }
    }

    /// Parts joined, each join taking the rest as its second part. The first join stands at `place`, each further one where its first part does.
    fn joined(&mut self, code: u8, place: usize, parts: &[Formula], depth: usize) -> Result<(), Refusal> {
        let last = parts.len() - 1;
        for (i, part) in parts[..last].iter().enumerate() {
            self.node(code, if i == 0 { place } else { part.place }, depth + i)?;
            self.formula(part, depth + i + 1)?;
        }
        self.formula(&parts[last], depth + last)
    }
}

// What a text says, by the standard's words

/// Whether a text that is accepted holds for these integers, in the order of their declarations: whether all that it asserts is true.
pub fn holds(text: &[u8], values: &[i128]) -> bool {
    let forms = forms(text).expect("an accepted text");
    let mut names = Vec::new();
    let mut holds = true;
    for form in &forms {
        match form.headed() {
            Some((What::Reserved(b"declare-const"), [name, _])) => {
                let What::Symbol(name) = name.what else { panic!("no name") };
                names.push(name);
            }
            Some((What::Reserved(b"assert"), [formula])) => {
                let value = |name: &[u8]| values[names.iter().position(|declared| *declared == name).expect("a declared name")];
                holds &= is_true(formula, &value);
            }
            _ => {}
        }
    }
    assert_eq!(names.len(), values.len());
    holds
}

fn is_true(formula: &Form, value: &dyn Fn(&[u8]) -> i128) -> bool {
    let Some((What::Symbol(head), parts)) = formula.headed() else { panic!("no formula") };
    let side = |i: usize| integer(&parts[i], value);
    match *head {
        b"not" => !is_true(&parts[0], value),
        b"and" => parts.iter().all(|part| is_true(part, value)),
        b"or" => parts.iter().any(|part| is_true(part, value)),
        b"=" => side(0) == side(1),
        b"<=" => side(0) <= side(1),
        b"<" => side(0) < side(1),
        b">=" => side(0) >= side(1),
        b">" => side(0) > side(1),
        _ => panic!("no formula"),
    }
}

fn integer(term: &Form, value: &dyn Fn(&[u8]) -> i128) -> i128 {
    match term.what {
        What::Numeral(number) => return number.expect("a numeral within its limit"),
        What::Symbol(name) => return value(name),
        _ => {}
    }
    let Some((What::Symbol(head), parts)) = term.headed() else { panic!("no term") };
    let mut parts = parts.iter().map(|part| integer(part, value));
    match *head {
        b"+" => parts.sum(),
        b"*" => parts.product(),
        b"-" if parts.len() == 1 => -parts.next().expect("a part"),
        b"-" => parts.reduce(|left, right| left - right).expect("a part"),
        _ => panic!("no term"),
    }
}
