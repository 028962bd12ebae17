//! SMT-LIB texts from a fixed seed, for the import: texts that say a known question, texts about the limits, and damaged ones. The same seed gives
//! the same texts.

#![forbid(unsafe_code)]

use crate::generate::{question, Random};
use crate::reading::{Question, AND, AT_MOST, EQUATION, NOT, OR};

/// How a text is written: as a tool would, in characters that every tool takes; or with all that the lexicon allows.
#[derive(Clone, Copy, Debug, PartialEq)]
pub enum Style {
    Tame,
    Wild,
}

/// A text, the names that it declares, and the question that it says or the number that refuses it.
#[derive(Clone, Debug)]
pub struct Text {
    pub bytes: Vec<u8>,
    pub names: Vec<Vec<u8>>,
    pub says: Result<Question, u8>,
}

/// A token or a list.
#[derive(Clone, Debug, PartialEq)]
enum Form {
    Token(Vec<u8>),
    List(Vec<Form>),
}

fn token(text: &str) -> Form {
    Form::Token(text.as_bytes().to_vec())
}

fn list(parts: impl IntoIterator<Item = Form>) -> Form {
    Form::List(parts.into_iter().collect())
}

fn numeral(number: i64) -> Form {
    token(&number.to_string())
}

/// How many lists stand in each other.
fn nesting(form: &Form) -> usize {
    match form {
        Form::Token(_) => 0,
        Form::List(parts) => 1 + parts.iter().map(nesting).max().unwrap_or(0),
    }
}

fn has(form: &Form, is: &dyn Fn(&[u8]) -> bool) -> bool {
    match form {
        Form::Token(token) => is(token),
        Form::List(parts) => parts.iter().any(|part| has(part, is)),
    }
}

// Names

const TAME: &str = "x y z i j k len counter old_index new_index X x1 x2 item.count";

/// Names that may stand without bars.
const PLAIN: &str = "\
    -1 -x +1 -- << >x =>= !x !! .x .. ? / % @ ~ ^ && $ _a __ a/b<c>=d! let1 lets asserts assert- check Int Bool QF_LIA And NOT true1 numeral Numeral \
    a-name-that-is-much-longer-than-a-name-has-to-be.0123456789";

/// Names that stand in bars alone, with bars between them. The first is empty.
const BARRED: &[u8] = b"| |x y|x |12|0|01|1x|1.5|#x1|:k|(|)|(assert|;|; x|\"|a\"b|it's|[i]|{|,|a\tb|a\r\nb|\xC3\xA9|\xFF|let|_|!|assert|\
    declare-const|define-funs-rec";

#[derive(Clone)]
struct Name {
    symbol: Vec<u8>,
    barred: bool,
}

/// One of some words.
fn word<'w>(random: &mut Random, words: &'w str) -> &'w str {
    random.pick(&words.split(' ').collect::<Vec<&str>>())
}

/// So many names, no two alike.
fn names(random: &mut Random, count: usize, style: Style) -> Vec<Name> {
    let mut names: Vec<Name> = Vec::new();
    while names.len() < count {
        let name = match random.below(5) {
            0 if style == Style::Wild => Name { symbol: word(random, PLAIN).into(), barred: false },
            1 if style == Style::Wild => {
                let symbols: Vec<&[u8]> = BARRED.split(|&byte| byte == b'|').collect();
                Name { symbol: random.pick(&symbols).into(), barred: true }
            }
            _ => Name { symbol: word(random, TAME).into(), barred: false },
        };
        if names.iter().all(|other| other.symbol != name.symbol) {
            names.push(name);
        }
    }
    names
}

// Terms

/// A number for each variable, and the constant last.
type Sum = [i64; 7];
const CONSTANT: usize = 6;

const MILLION: i64 = 1_000_000;
/// The largest number that a term or a comparison may come to.
const COLLECTED: i64 = 1 << 40;

fn plus(left: Sum, right: Sum) -> Sum {
    std::array::from_fn(|i| left[i] + right[i])
}

fn minus(left: Sum, right: Sum) -> Sum {
    std::array::from_fn(|i| left[i] - right[i])
}

struct Writer<'r> {
    random: &'r mut Random,
    names: Vec<Name>,
    style: Style,
}

impl Writer<'_> {
    /// A symbol of the standard, which may stand in bars.
    fn head(&mut self, head: &str) -> Form {
        let bars = self.style == Style::Wild && self.random.one_in(60);
        token(&if bars { format!("|{head}|") } else { head.into() })
    }

    fn headed(&mut self, head: &str, parts: impl IntoIterator<Item = Form>) -> Form {
        let head = self.head(head);
        list([head].into_iter().chain(parts))
    }

    fn name(&mut self, j: usize) -> Form {
        let Name { symbol, barred } = &self.names[j];
        if *barred || (self.style == Style::Wild && self.random.one_in(4)) {
            Form::Token([b"|", &symbol[..], b"|"].concat())
        } else {
            Form::Token(symbol.clone())
        }
    }

    /// A variable or a constant so many times.
    fn times(&mut self, number: i64, j: usize) -> Form {
        if number < 0 && (number != -1 || j == CONSTANT || self.random.one_in(2)) {
            let part = self.times(-number, j);
            return self.headed("-", [part]);
        }
        if number.abs() > MILLION {
            let most = self.times(number / MILLION, j);
            let most = self.product(MILLION, most);
            if number % MILLION == 0 {
                return most;
            }
            let rest = self.times(number % MILLION, j);
            return self.sum(vec![most, rest]);
        }
        if j == CONSTANT {
            return numeral(number);
        }
        let name = self.name(j);
        match number {
            1 if !self.random.one_in(8) => name,
            -1 => self.headed("-", [name]),
            _ => self.product(number, name),
        }
    }

    fn product(&mut self, number: i64, part: Form) -> Form {
        let mut parts = [numeral(number), part];
        if self.random.one_in(3) {
            parts.reverse();
        }
        self.headed("*", parts)
    }

    fn sum(&mut self, mut parts: Vec<Form>) -> Form {
        for i in 0..parts.len() {
            let j = self.random.below(parts.len());
            parts.swap(i, j);
        }
        self.headed("+", parts)
    }

    /// Its numbers, each once: no more than nine lists in each other.
    fn plainly(&mut self, sum: Sum) -> Form {
        let used: Vec<usize> = (0..7).filter(|&j| sum[j] != 0).collect();
        match used[..] {
            [] => numeral(0),
            [j] => self.times(sum[j], j),
            [j, k] if sum[k] < 0 && self.random.one_in(2) => {
                let parts = [self.times(sum[j], j), self.times(-sum[k], k)];
                self.headed("-", parts)
            }
            _ => {
                let parts = used.iter().map(|&j| self.times(sum[j], j)).collect();
                self.sum(parts)
            }
        }
    }

    /// A sum of small numbers over some of the variables.
    fn small(&mut self) -> Sum {
        let most = self.random.pick(&[1, 3, 3, 9, 100]);
        let n = self.names.len();
        let mut sum = [0; 7];
        for _ in 0..self.random.below(3) {
            sum[self.random.below(n)] = self.random.between(-most, most);
        }
        if self.random.one_in(2) {
            sum[CONSTANT] = self.random.between(-most, most);
        }
        sum
    }

    /// A term that comes to the sum, with no more lists in each other than `nest`, which is nine or more. The more `fuel`, the more is in it.
    fn term(&mut self, sum: Sum, nest: usize, fuel: usize) -> Form {
        if fuel == 0 || nest < 10 {
            return self.plainly(sum);
        }
        let fuel = fuel - 1;
        match self.random.below(7) {
            0 => {
                let mut left = sum;
                let mut parts = Vec::new();
                for _ in 0..self.random.pick(&[1, 1, 2, 3, 8]) {
                    let part = self.small();
                    left = minus(left, part);
                    parts.push(self.term(part, nest - 1, fuel / 2));
                }
                parts.push(self.term(left, nest - 1, fuel));
                self.sum(parts)
            }
            1 => {
                let more = self.small();
                let parts = [self.term(plus(sum, more), nest - 1, fuel), self.term(more, nest - 1, fuel / 2)];
                self.headed("-", parts)
            }
            2 => {
                let part = self.term(sum.map(|number| -number), nest - 1, fuel);
                self.headed("-", [part])
            }
            3 => {
                let factor = self.random.pick(&[1, 2, 2, 3, 4, 5, 10]);
                if sum.iter().any(|number| number % factor != 0) {
                    return self.plainly(sum);
                }
                let part = self.term(sum.map(|number| number / factor), nest - 1, fuel);
                self.product(factor, part)
            }
            4 => {
                let nothing = self.small();
                let nothing = self.term(nothing, nest - 2, fuel / 2);
                let parts = vec![self.product(0, nothing), self.term(sum, nest - 1, fuel)];
                self.sum(parts)
            }
            _ => self.plainly(sum),
        }
    }

    /// A comparison that says that the sum, whose last number is the constant, equals it or is at most it.
    fn comparison(&mut self, equation: bool, sum: Sum, nest: usize) -> Form {
        // What stands on both sides.
        let mut both = [0; 7];
        match self.random.below(8) {
            0 | 1 => {}
            2 => both = self.small(),
            3 => {
                let big = self.random.between(-COLLECTED / 2, COLLECTED / 2);
                both[self.random.pick(&[0, CONSTANT])] = big;
            }
            _ => both = sum.map(|number| (-number).max(0)),
        }
        let (mut smaller, mut larger) = (plus(sum, both), both);
        (smaller[CONSTANT], larger[CONSTANT]) = (both[CONSTANT], both[CONSTANT] + sum[CONSTANT]);
        let head = if equation {
            "="
        } else {
            let head = self.random.pick(&["<=", ">=", "<", ">"]);
            larger[CONSTANT] += (head.len() == 1) as i64;
            head
        };
        let fuel = self.random.pick(&[0, 0, 1, 2, 4]);
        let (smaller, larger) = (self.term(smaller, nest - 1, fuel), self.term(larger, nest - 1, fuel));
        let sides = if head.starts_with('>') { [larger, smaller] } else { [smaller, larger] };
        self.headed(head, sides)
    }
}

// Formulas

/// A formula with two parts to a join, as the question has it.
#[derive(Clone)]
enum Target {
    Atom(bool, Sum),
    Not(Box<Target>),
    Join(u8, Box<Target>, Box<Target>),
}

fn join(code: u8, left: Target, right: Target) -> Target {
    Target::Join(code, Box::new(left), Box::new(right))
}

fn nots(count: usize, mut target: Target) -> Target {
    for _ in 0..count {
        target = Target::Not(Box::new(target));
    }
    target
}

fn depth(target: &Target) -> usize {
    match target {
        Target::Atom(..) => 1,
        Target::Not(part) => 1 + depth(part),
        Target::Join(_, left, right) => 1 + depth(left).max(depth(right)),
    }
}

fn target_of(question: &Question) -> Target {
    fn part(question: &Question, node: &mut usize, atom: &mut usize) -> Target {
        let code = question.codes[*node];
        *node += 1;
        match code {
            NOT => nots(1, part(question, node, atom)),
            AND | OR => {
                let left = part(question, node, atom);
                join(code, left, part(question, node, atom))
            }
            _ => {
                let row = &question.coefficients[6 * *atom..];
                let sum = std::array::from_fn(|j| if j < CONSTANT { row[j] } else { question.constants[*atom] } as i64);
                *atom += 1;
                Target::Atom(code == EQUATION, sum)
            }
        }
    }
    part(question, &mut 0, &mut 0)
}

/// The question that a formula is, or the number that refuses it.
fn question_of(n: usize, target: &Target) -> Result<Question, u8> {
    fn part(target: &Target, depth: usize, question: &mut Question, nodes: &mut usize, atoms: &mut usize) -> Result<(), u8> {
        if *nodes == Question::NODES || depth > Question::DEPTH || (*atoms == Question::ATOMS && matches!(target, Target::Atom(..))) {
            return Err(5);
        }
        let code = &mut question.codes[*nodes];
        *nodes += 1;
        match target {
            Target::Atom(equation, sum) => {
                *code = if *equation { EQUATION } else { AT_MOST };
                if sum[..CONSTANT].iter().any(|number| number.abs() > Question::COEFFICIENT as i64) {
                    return Err(12);
                }
                if sum[CONSTANT].abs() > Question::CONSTANT as i64 {
                    return Err(13);
                }
                for j in 0..CONSTANT {
                    question.coefficients[6 * *atoms + j] = sum[j] as i32;
                }
                question.constants[*atoms] = sum[CONSTANT] as i32;
                *atoms += 1;
                Ok(())
            }
            Target::Not(inner) => {
                *code = NOT;
                part(inner, depth + 1, question, nodes, atoms)
            }
            Target::Join(join, left, right) => {
                *code = *join;
                part(left, depth + 1, question, nodes, atoms)?;
                part(right, depth + 1, question, nodes, atoms)
            }
        }
    }
    let mut question = Question::empty();
    question.n = n as u8;
    part(target, 1, &mut question, &mut 0, &mut 0)?;
    Ok(question)
}

impl Writer<'_> {
    /// Joins of a kind, each the second part of another, may stand as one list. A list of one part may stand around any formula.
    fn formula(&mut self, target: &Target, nest: usize) -> Form {
        let alone = self.random.pick(&["and", "or"]);
        if nest > depth(target) + 12 && self.random.one_in(12) {
            let part = self.formula(target, nest - 1);
            return self.headed(alone, [part]);
        }
        match target {
            Target::Atom(equation, sum) => self.comparison(*equation, *sum, nest),
            Target::Not(part) => {
                let part = self.formula(part, nest - 1);
                self.headed("not", [part])
            }
            Target::Join(code, left, right) => {
                let mut parts = vec![self.formula(left, nest - 1)];
                let mut rest = right;
                while let Target::Join(inner, left, right) = &**rest {
                    if inner != code || self.random.one_in(3) {
                        break;
                    }
                    parts.push(self.formula(left, nest - 1));
                    rest = right;
                }
                parts.push(self.formula(rest, nest - 1));
                self.headed(if *code == AND { "and" } else { "or" }, parts)
            }
        }
    }

    /// The formulas to be asserted: the joins by `and` at the top may stand as assertions of their own.
    fn asserted(&mut self, target: &Target) -> Vec<Form> {
        let mut formulas = Vec::new();
        let mut rest = target;
        while let Target::Join(AND, left, right) = rest {
            if self.random.one_in(3) {
                break;
            }
            formulas.push(self.formula(left, 31));
            rest = right;
        }
        formulas.push(self.formula(rest, 31));
        formulas
    }
}

// Scripts

fn command(head: &str, parts: impl IntoIterator<Item = Form>) -> Form {
    list([token(head)].into_iter().chain(parts))
}

/// Whether a formula says of a name that it is not negative, and no more.
fn is_sign(formula: &Form) -> bool {
    let Form::List(parts) = formula else { return false };
    let [Form::Token(head), Form::Token(name), Form::Token(zero)] = &parts[..] else { return false };
    (head == b">=" || head == b"|>=|") && !name[0].is_ascii_digit() && zero == b"0"
}

fn is_sign_assertion(form: &Form) -> bool {
    matches!(form, Form::List(parts) if parts.len() == 2 && parts[0] == token("assert") && is_sign(&parts[1]))
}

impl Writer<'_> {
    /// The commands that assert these formulas, and no others but those of signs.
    fn script(&mut self, formulas: Vec<Form>) -> Vec<Form> {
        let formulas: Vec<Form> = formulas
            .into_iter()
            .map(|formula| match &formula {
                Form::List(parts) if is_sign(&formula) => list([token("<="), parts[2].clone(), parts[1].clone()]),
                _ => formula,
            })
            .collect();

        // Each name is declared before its first use, in the order of the variables.
        let n = self.names.len();
        let mut latest: Vec<usize> = (0..n)
            .map(|j| {
                let symbol = &self.names[j].symbol;
                let barred = [b"|", &symbol[..], b"|"].concat();
                let is = |token: &[u8]| token == symbol || token == barred;
                formulas.iter().position(|formula| has(formula, &is)).unwrap_or(formulas.len())
            })
            .collect();
        for j in (1..n).rev() {
            latest[j - 1] = latest[j - 1].min(latest[j]);
        }
        let all_first = self.random.one_in(2);
        let mut commands = Vec::new();
        let mut declared = 0;
        let count = formulas.len();
        let mut formulas = formulas.into_iter();
        for i in 0..=count {
            while declared < n && (all_first || latest[declared] == i || self.random.one_in(3)) {
                let name = self.name(declared);
                let sort = self.head("Int");
                commands.push(command("declare-const", [name, sort]));
                declared += 1;
            }
            commands.extend(formulas.next().map(|formula| command("assert", [formula])));
        }

        for j in 0..n {
            for _ in 0..self.random.pick(&[1, 1, 1, 2, 3]) {
                let declaration = headed(&commands, "declare-const")[j];
                let at = match self.random.below(3) {
                    0 => declaration + 1,
                    1 => commands.len(),
                    _ => declaration + 1 + self.random.below(commands.len() - declaration),
                };
                let name = self.name(j);
                let sign = self.headed(">=", [name, numeral(0)]);
                commands.insert(at, command("assert", [sign]));
            }
        }
        let logic = self.head("QF_LIA");
        commands.insert(0, command("set-logic", [logic]));
        commands.push(command("check-sat", []));
        commands
    }
}

/// The forms of a text that says this formula, and the names of its variables.
fn forms_of(random: &mut Random, n: usize, target: &Target, style: Style) -> (Vec<Form>, Vec<Name>) {
    let names = names(random, n, style);
    let mut writer = Writer { random, names: names.clone(), style };
    let formulas = writer.asserted(target);
    (writer.script(formulas), names)
}

fn text(random: &mut Random, forms: &[Form], names: Vec<Name>, target: &Target, style: Style) -> Text {
    let says = question_of(names.len(), target);
    Text { bytes: laid_out(random, forms, style), names: names.into_iter().map(|name| name.symbol).collect(), says }
}

fn text_saying(random: &mut Random, n: usize, target: &Target, style: Style) -> Text {
    let (forms, names) = forms_of(random, n, target, style);
    text(random, &forms, names, target, style)
}

/// A text that says this question.
pub fn text_of(random: &mut Random, question: &Question, style: Style) -> Text {
    text_saying(random, question.n as usize, &target_of(question), style)
}

/// The forms of a list block, the names of its variables, and what it says: whether a run breaks it, with the length, counters, an old index and a new
/// one, and perhaps a counter's range.
fn block_forms(random: &mut Random, style: Style) -> (Vec<Form>, Vec<Name>, Target) {
    let counters = random.below(5);
    let names = names(random, 1 + counters, style);
    let mut index = || -> Sum {
        let mut index = [0; 7];
        for number in &mut index[1..=counters] {
            *number = random.pick(&[0, 0, 1, 1, 1, 2, -1, 3, -2, 10]);
        }
        index[CONSTANT] = random.between(-3, 9);
        index
    };
    let (old, new) = (index(), index());
    let range = (counters > 0 && random.one_in(2)).then(|| (1 + random.below(counters), random.between(0, 20), random.between(0, 99)));

    let mut writer = Writer { random, names: names.clone(), style };
    let mut indexed = |index: Sum| {
        let fuel = writer.random.pick(&[0, 0, 0, 1]);
        writer.term(index, 20, fuel)
    };
    let ([old_1, old_2, old_3], [new_1, new_2, new_3]) = ([old; 3].map(&mut indexed), [new; 3].map(&mut indexed));
    let (length_1, length_2) = (writer.name(0), writer.name(0));
    let before = writer.headed("-", [old_1, numeral(1)]);
    let same = writer.headed("=", [new_1, before]);
    let moved = writer.headed("not", [same]);
    let old_touches = [writer.headed(">=", [old_2, numeral(1)]), writer.headed("<=", [old_3, length_1])];
    let below = if writer.random.one_in(2) {
        writer.headed("<", [new_3, length_2])
    } else {
        let last = writer.headed("-", [length_2, numeral(1)]);
        writer.headed("<=", [new_3, last])
    };
    let new_touches = [writer.headed(">=", [new_2, numeral(0)]), below];
    let touches = [writer.headed("and", old_touches), writer.headed("and", new_touches)];
    let mut formulas = vec![moved, writer.headed("or", touches)];

    let negative = |sum: Sum| sum.map(|number| -number);
    let at_most = |mut sum: Sum, length: i64, constant: i64| {
        (sum[0], sum[CONSTANT]) = (length, constant);
        Target::Atom(false, sum)
    };
    let mut moved = minus(new, old);
    moved[CONSTANT] = old[CONSTANT] - 1 - new[CONSTANT];
    let old_touches = join(AND, at_most(negative(old), 0, old[CONSTANT] - 1), at_most(old, -1, -old[CONSTANT]));
    let new_touches = join(AND, at_most(negative(new), 0, new[CONSTANT]), at_most(new, -1, -1 - new[CONSTANT]));
    let mut rest = join(OR, old_touches, new_touches);
    if let Some((counter, lowest, highest)) = range {
        let (low, high) = (writer.name(counter), writer.name(counter));
        formulas.push(writer.headed("<=", [numeral(lowest), low]));
        formulas.push(writer.headed("<=", [high, numeral(highest)]));
        let mut value = [0; 7];
        value[counter] = 1;
        rest = join(AND, rest, join(AND, at_most(negative(value), 0, -lowest), at_most(value, 0, highest)));
    }
    (writer.script(formulas), names, join(AND, nots(1, Target::Atom(true, moved)), rest))
}

/// A text that asks of a list block whether a run breaks it.
pub fn block(random: &mut Random, style: Style) -> Text {
    let (forms, names, target) = block_forms(random, style);
    text(random, &forms, names, &target, style)
}

/// A text that is accepted.
pub fn accepted(random: &mut Random, style: Style) -> Text {
    if random.one_in(4) {
        block(random, style)
    } else {
        let question = question(random);
        text_of(random, &question, style)
    }
}

// About the limits

fn atom(random: &mut Random, n: usize) -> Target {
    let mut sum = [0; 7];
    for number in &mut sum[..n] {
        *number = random.between(-9, 9);
    }
    sum[CONSTANT] = random.between(-20, 20);
    Target::Atom(random.one_in(2), sum)
}

/// An atom with numbers about their limits.
fn atom_about(random: &mut Random, n: usize) -> Target {
    let Target::Atom(equation, mut sum) = atom(random, n) else { unreachable!() };
    let (j, limit) = if random.one_in(2) { (random.below(n), Question::COEFFICIENT) } else { (CONSTANT, Question::CONSTANT) };
    let number = limit as i64 + random.pick(&[-1, 0, 0, 1, 1, 2]);
    sum[j] = random.pick(&[number, -number]);
    Target::Atom(equation, sum)
}

/// So many atoms joined, halved at each join, each under some nots.
fn crowd(random: &mut Random, n: usize, atoms: usize, each: &[usize], about: bool) -> Target {
    if atoms > 1 {
        let left = crowd(random, n, atoms / 2, each, about);
        let right = crowd(random, n, atoms - atoms / 2, each, about);
        return join(random.pick(&[AND, OR]), left, right);
    }
    let atom = if about && random.one_in(4) { atom_about(random, n) } else { atom(random, n) };
    nots(random.pick(each), atom)
}

/// A formula so deep, of nots and some joins.
fn deep(random: &mut Random, n: usize, depth: usize) -> Target {
    let joins = random.below(8);
    let mut target = atom(random, n);
    for i in 1..depth {
        target = if i <= joins {
            let other = atom(random, n);
            let code = random.pick(&[AND, OR]);
            if random.one_in(2) {
                join(code, target, other)
            } else {
                join(code, other, target)
            }
        } else {
            nots(1, target)
        };
    }
    target
}

/// A text about the limits of a question: its nodes, atoms, depth or numbers.
pub fn about_limits(random: &mut Random) -> Text {
    let n = 1 + random.below(6);
    let target = match random.below(5) {
        0 => {
            let atoms = 7 + random.below(4);
            crowd(random, n, atoms, &[0, 0, 1], true)
        }
        1 => crowd(random, n, 8, &[5, 6, 6, 6, 7], true),
        2 => {
            // A chain of joins.
            let atoms = 7 + random.below(4);
            let code = random.pick(&[AND, OR]);
            let mut target = atom_about(random, n);
            for _ in 1..atoms {
                target = join(code, atom(random, n), target);
            }
            target
        }
        3 => {
            let depth = 15 + random.below(4);
            deep(random, n, depth)
        }
        _ => {
            let atoms = 1 + random.below(4);
            crowd(random, n, atoms, &[0, 0, 1], true)
        }
    };
    text_saying(random, n, &target, Style::Wild)
}

/// The forms of a text whose sums and products are about 2^40.
fn about_collected(random: &mut Random) -> Vec<Form> {
    let n = 1 + random.below(3);
    let names = names(random, n, Style::Wild);
    let mut writer = Writer { random, names, style: Style::Wild };
    let mut formulas = Vec::new();
    for _ in 0..1 + writer.random.below(2) {
        let j = writer.random.pick(&[0, n - 1, CONSTANT]);
        let near = |random: &mut Random| COLLECTED + random.pick(&[-1_000_000, -2, -1, 0, 0, 1, 2]);
        let mut big = [0; 7];
        big[j] = near(writer.random);
        if writer.random.one_in(2) {
            big[j] = -big[j];
        }
        let rest = writer.small();
        let sides = match writer.random.below(4) {
            // On both sides, and little between them.
            0 => [big, plus(big, rest)],
            // Half on each side.
            1 => {
                let half = big.map(|number| number / 2);
                [half, minus(half, big)]
            }
            _ => [big, rest],
        };
        let fuel = writer.random.below(3);
        let mut sides = sides.map(|side| writer.term(side, 20, fuel));
        if writer.random.one_in(4) {
            // 2^40 is passed on the way, and not by the whole.
            let (part, back) = (writer.times(big[j], j), writer.times(-big[j], j));
            let parts = [part.clone(), sides[0].clone(), part, back.clone(), back];
            sides[0] = writer.headed("+", parts);
        } else if writer.random.one_in(4) {
            let factor = writer.random.pick(&[2, 3, 1_000, MILLION]);
            let mut most = [0; 7];
            most[j] = near(writer.random) / factor + writer.random.pick(&[-1, 0, 0, 1]);
            let part = writer.term(most, 20, 0);
            sides[1] = writer.product(factor, part);
        }
        let head = writer.random.pick(&["=", "<=", "<", ">=", ">"]);
        formulas.push(writer.headed(head, sides));
    }
    writer.script(formulas)
}

// Damage

const TOKENS: &str = "x |x| y undeclared |[| and or not |and| = <= < >= > |>=| + - * 0 1 3 4097 999999 1000000 1000001 1000000000000000000000 \
                      Int Bool |Int| QF_LIA |QF_LIA| QF_LRA qf_lia true false => xor distinct ite div mod abs let ! _ as exists -1 || \
                      set-logic declare-const declare-fun assert |assert| check-sat push 1.5 0.0 #x1F #b01 \"a;(b\" \"\" \"\"\"\" :named :let";

/// What no lexicon has.
const BAD_TOKENS: &str = "01 1x 1. 1.x # #x #xg #b2 #o7 : :1 a:b [ \\ ' |a\\| \"\u{1}\" é";

fn odd_token(random: &mut Random) -> Form {
    let words = if random.one_in(12) { BAD_TOKENS } else { TOKENS };
    token(word(random, words))
}

fn odd_list(random: &mut Random) -> Form {
    match random.below(6) {
        0 => list([]),
        1 => list([odd_token(random)]),
        2 => command("push", [numeral(1)]),
        3 => list([list([odd_token(random)]), odd_token(random)]),
        _ => list([odd_token(random), odd_token(random), odd_token(random)]),
    }
}

/// Lets a random list be edited, or the text as a whole, and says how many lists stand around its parts.
fn edit(random: &mut Random, forms: &mut Vec<Form>, edit: &mut dyn FnMut(&mut Random, &mut Vec<Form>, usize)) {
    fn lists(forms: &[Form]) -> usize {
        1 + forms.iter().map(|form| if let Form::List(parts) = form { lists(parts) } else { 0 }).sum::<usize>()
    }
    fn visit(forms: &mut Vec<Form>, left: &mut usize, around: usize, edit: &mut dyn FnMut(&mut Vec<Form>, usize)) {
        if *left == 0 {
            edit(forms, around);
        }
        *left = left.wrapping_sub(1);
        for form in forms {
            if let Form::List(parts) = form {
                visit(parts, left, around + 1, edit);
            }
        }
    }
    let mut left = random.below(lists(forms));
    visit(forms, &mut left, 0, &mut |forms, around| edit(random, forms, around));
}

/// Where the commands with this head stand.
fn headed(forms: &[Form], head: &str) -> Vec<usize> {
    let is = |form: &Form| matches!(form, Form::List(parts) if parts.first() == Some(&token(head)));
    (0..forms.len()).filter(|&i| is(&forms[i])).collect()
}

/// Damages the forms of a text in one way.
fn damage(random: &mut Random, forms: &mut Vec<Form>) {
    if forms.is_empty() {
        return;
    }
    match random.below(24) {
        0 | 1 => edit(random, forms, &mut |random, parts, _| {
            if !parts.is_empty() {
                let i = random.below(parts.len());
                parts[i] = odd_token(random);
            }
        }),
        2 => edit(random, forms, &mut |random, parts, _| {
            if !parts.is_empty() {
                parts.remove(random.below(parts.len()));
            }
        }),
        3 => edit(random, forms, &mut |random, parts, _| {
            if !parts.is_empty() {
                let again = random.pick(&parts.iter().collect::<Vec<_>>()).clone();
                parts.insert(random.below(parts.len() + 1), again);
            }
        }),
        4 => edit(random, forms, &mut |random, parts, _| {
            if !parts.is_empty() {
                let (i, j) = (random.below(parts.len()), random.below(parts.len()));
                parts.swap(i, j);
            }
        }),
        5 => edit(random, forms, &mut |random, parts, _| {
            let odd = if random.one_in(2) { odd_token(random) } else { odd_list(random) };
            parts.insert(random.below(parts.len() + 1), odd);
        }),
        6 => edit(random, forms, &mut |random, parts, _| {
            if !parts.is_empty() {
                let i = random.below(parts.len());
                parts[i] = odd_list(random);
            }
        }),
        7 | 8 => {
            // Lists around a part, 31 to 34 in each other, or few.
            let wanted = random.pick(&[31, 32, 32, 33, 33, 34, 0]);
            let head = random.pick(&["-", "-", "and", "or", "not", "("]);
            edit(random, forms, &mut |random, parts, around| {
                if parts.len() > 1 && around > 0 {
                    let i = 1 + random.below(parts.len() - 1);
                    let inside = around + nesting(&parts[i]);
                    let more = if wanted == 0 { 1 } else { wanted.max(inside) - inside };
                    for _ in 0..more {
                        let part = std::mem::replace(&mut parts[i], list([]));
                        parts[i] = if head == "(" { list([part]) } else { list([token(head), part]) };
                    }
                }
            });
        }
        9 => {
            forms.remove(random.below(forms.len()));
        }
        10 => {
            let again = random.pick(&forms.iter().collect::<Vec<_>>()).clone();
            forms.insert(random.below(forms.len() + 1), again);
        }
        11 => {
            let form = forms.remove(random.below(forms.len()));
            forms.insert(random.below(forms.len() + 1), form);
        }
        12 | 13 => {
            // Seven names or more, all or most of them with their signs.
            let declared = headed(forms, "declare-const").len();
            let wanted = random.pick(&[6, 7, 7, 7, 8]);
            for i in declared..wanted {
                let name = token(&format!("more{i}"));
                let sort = token(if random.one_in(8) { "Bool" } else { "Int" });
                let at = 1 + random.below(forms.len());
                let sign = command("assert", [list([token(">="), name.clone(), numeral(0)])]);
                forms.insert(at, command("declare-const", [name, sort]));
                if !random.one_in(6) {
                    let end = headed(forms, "check-sat").first().copied().unwrap_or(forms.len());
                    forms.insert(end.max(at), sign);
                }
            }
        }
        14 => {
            // No name, or no assertion but of signs, or neither.
            let (names, others) = random.pick(&[(false, true), (true, false), (false, false), (false, true)]);
            if !names {
                forms.retain(|form| !has(form, &|token| token == b"declare-const") && !is_sign_assertion(form));
            }
            forms.retain(|form| is_sign_assertion(form) || !has(form, &|token| token == b"assert"));
            if others {
                let at = forms.len().saturating_sub(1);
                let number = random.between(0, MILLION);
                forms.insert(at, command("assert", [list([token(random.pick(&["=", "<"])), numeral(number), numeral(3)])]));
            }
        }
        15 | 16 => {
            // A sign assertion, which may be the only one of its name, is gone, or elsewhere, or another form.
            let signs: Vec<usize> = (0..forms.len()).filter(|&i| is_sign_assertion(&forms[i])).collect();
            if signs.is_empty() {
                return;
            }
            let mut sign = forms.remove(random.pick(&signs));
            let Form::List(assertion) = &mut sign else { return };
            let Form::List(parts) = &mut assertion[1] else { return };
            let end = headed(forms, "check-sat").first().copied().unwrap_or(forms.len());
            let mut at = random.below(end + 1);
            match random.below(9) {
                0 => return,
                1 => at = random.below(2).min(forms.len()),
                2 => at = forms.len(),
                3 => *parts = vec![token("<="), numeral(0), parts[1].clone()],
                4 => parts[2] = list([token("-"), numeral(0)]),
                5 => assertion[1] = list([token(random.pick(&["and", "or"])), assertion[1].clone()]),
                6 => parts[2] = random.pick(&[&token("|0|"), &numeral(1), &token("0.0"), &token("#b0")]).clone(),
                7 => parts[0] = token(random.pick(&["|>=|", ">", "="])),
                _ => parts[1] = list([token("+"), parts[1].clone(), numeral(0)]),
            }
            forms.insert(at, sign);
        }
        17 => {
            let number = random.pick(&["999999", "1000000", "1000001", "1000002", "9999999", "10000000", "4294967297", "18446744073709551617"]);
            edit(random, forms, &mut |random, parts, _| {
                let numerals: Vec<usize> =
                    (0..parts.len()).filter(|&i| matches!(&parts[i], Form::Token(token) if token[0].is_ascii_digit())).collect();
                if !numerals.is_empty() {
                    parts[random.pick(&numerals)] = token(number);
                }
            });
        }
        18 => {
            // Something behind the last command.
            let behind = match random.below(4) {
                0 => odd_token(random),
                1 => command("check-sat", []),
                2 => random.pick(&forms.iter().collect::<Vec<_>>()).clone(),
                _ => command("exit", []),
            };
            forms.push(behind);
        }
        19 => {
            // Another part of a declaration or of the first command.
            let mut at = headed(forms, "declare-const");
            at.extend(headed(forms, "set-logic"));
            if !at.is_empty() {
                if let Form::List(parts) = &mut forms[random.pick(&at)] {
                    if parts.len() > 1 {
                        let i = 1 + random.below(parts.len() - 1);
                        parts[i] = if random.one_in(5) { odd_list(random) } else { odd_token(random) };
                    }
                }
            }
        }
        20 => {
            // A name declared once more.
            let declarations = headed(forms, "declare-const");
            if !declarations.is_empty() {
                let again = forms[random.pick(&declarations)].clone();
                let end = headed(forms, "check-sat").first().copied().unwrap_or(forms.len());
                let at = random.below(end + 1);
                forms.insert(at, again);
                if let (Form::List(parts), true) = (&mut forms[at], random.one_in(3)) {
                    if let Some(sort) = parts.get_mut(2) {
                        *sort = token("Bool");
                    }
                }
            }
        }
        _ => {
            // A seventh name, with its sign, and nothing else that is wrong.
            let names = headed(forms, "declare-const").len();
            let at = headed(forms, "check-sat").first().copied().unwrap_or(forms.len());
            for i in names..7 {
                let name = token(&format!("v{i}"));
                let sign = list([token(">="), name.clone(), numeral(0)]);
                forms.insert(at, command("assert", [sign]));
                forms.insert(at, command("declare-const", [name, token("Int")]));
            }
        }
    }
}

const BYTES: [u8; 40] = [
    b'(', b')', b';', b'"', b'|', b'\\', b'#', b':', b'.', b'0', b'1', b'9', b'a', b'x', b'b', b'-', b'+', b'*', b'<', b'>', b'=', b'!', b'_', b' ',
    b'\t', b'\n', b'\r', 0x0B, 0x0C, 0x00, 0x1F, 0x7F, 0x80, 0xEF, 0xFF, b'[', b'{', b',', b'\'', b'`',
];

fn damage_bytes(random: &mut Random, text: &mut Vec<u8>) {
    match random.below(7) {
        0 => text.truncate(random.below(text.len() + 1)),
        1 if !text.is_empty() => {
            let i = random.below(text.len());
            text[i] ^= 1 << random.below(8);
        }
        2 if !text.is_empty() => {
            let i = random.below(text.len());
            text[i] = random.pick(&BYTES);
        }
        3 if !text.is_empty() => {
            text.remove(random.below(text.len()));
        }
        4 => text.push(random.pick(&BYTES)),
        _ => {
            let i = random.below(text.len() + 1);
            text.insert(i, random.pick(&BYTES));
        }
    }
}

/// A text damaged in one way or more (which may leave it accepted).
pub fn damaged(random: &mut Random) -> Vec<u8> {
    let mut forms = match random.below(6) {
        0 => block_forms(random, Style::Wild).0,
        1 => about_collected(random),
        _ => {
            let question = question(random);
            forms_of(random, question.n as usize, &target_of(&question), Style::Wild).0
        }
    };
    for _ in 0..random.pick(&[0, 1, 1, 1, 2, 2, 3]) {
        damage(random, &mut forms);
    }
    let mut text = laid_out(random, &forms, Style::Wild);
    for _ in 0..random.pick(&[0, 0, 0, 0, 0, 0, 1, 1, 2]) {
        damage_bytes(random, &mut text);
    }
    text
}

/// A text that is accepted, one about the limits, or a damaged one.
pub fn any_text(random: &mut Random) -> Vec<u8> {
    match random.below(20) {
        0..=4 => accepted(random, Style::Wild).bytes,
        5..=7 => about_limits(random).bytes,
        8 => {
            let forms = about_collected(random);
            laid_out(random, &forms, Style::Wild)
        }
        _ => damaged(random),
    }
}

// White space and comments

#[derive(Clone, Copy, PartialEq)]
enum Spacing {
    /// No more than is needed.
    Tight,
    /// A space between the parts, a line for each command.
    Lines,
    /// White space and comments wherever they may stand.
    Odd,
}

fn laid_out(random: &mut Random, forms: &[Form], style: Style) -> Vec<u8> {
    let spacing = match random.below(3) {
        _ if style == Style::Tame => Spacing::Lines,
        0 => Spacing::Tight,
        1 => Spacing::Lines,
        _ => Spacing::Odd,
    };
    let mut text = Vec::new();
    if spacing == Spacing::Odd {
        gap(random, &mut text);
    }
    for form in forms {
        lay(random, form, spacing, &mut text);
        match spacing {
            Spacing::Lines => text.push(b'\n'),
            Spacing::Odd => gap(random, &mut text),
            Spacing::Tight => {}
        }
    }
    if spacing == Spacing::Odd && random.one_in(4) {
        // A comment that ends with the text.
        text.extend_from_slice(b";(check-sat");
    }
    text
}

fn lay(random: &mut Random, form: &Form, spacing: Spacing, text: &mut Vec<u8>) {
    match form {
        Form::Token(token) => {
            // What stands before it may not run into it.
            let ends_itself = |byte: &u8| matches!(byte, b'(' | b')' | b'|' | b'"' | b'\n' | b'\r' | b'\t' | b' ');
            let apart = match (text.last(), token.first()) {
                (None, _) | (_, None) => true,
                (Some(b'"'), Some(b'"')) => false,
                (Some(before), Some(first)) => ends_itself(before) || matches!(first, b'|' | b'"'),
            };
            if !apart {
                text.push(b' ');
            }
            text.extend_from_slice(token);
        }
        Form::List(parts) => {
            text.push(b'(');
            for (i, part) in parts.iter().enumerate() {
                match spacing {
                    Spacing::Lines if i > 0 => text.push(b' '),
                    Spacing::Odd => gap(random, text),
                    _ => {}
                }
                lay(random, part, spacing, text);
            }
            if spacing == Spacing::Odd {
                gap(random, text);
            }
            text.push(b')');
        }
    }
}

/// Nothing, white space, comments.
fn gap(random: &mut Random, text: &mut Vec<u8>) {
    for _ in 0..random.pick(&[0, 0, 1, 1, 1, 2, 3]) {
        if random.one_in(6) {
            text.push(b';');
            for _ in 0..random.below(6) {
                let byte = if random.one_in(3) { random.next() as u8 } else { random.pick(&BYTES) };
                if byte != b'\n' && byte != b'\r' {
                    text.push(byte);
                }
            }
            text.push(random.pick(b"\n\r"));
        } else {
            text.push(random.pick(b" \t\n\r  "));
        }
    }
}
