//! The import: each rule by hand, generated texts, texts that are large, and what other solvers make of the texts that are accepted. The lines of
//! the outside vectors are put to the same sides in tests/vectors.rs.

use pelohuaki_bench::generate::Random;
use pelohuaki_bench::generate_text::*;
use pelohuaki_bench::met::Met;
use pelohuaki_bench::reading::*;
use pelohuaki_bench::{import, plain, plain_import, smt, vectors};

type Import = fn(&[u8]) -> Result<Question, Refusal>;

/// Who is asked beside the reading.
const SIDES: &[(&str, Import)] = &[
    ("the plain import", plain_import::import),
    #[cfg(feature = "proved")]
    ("the proved call", proved),
];

/// The proved call, every cell that is lent; and where it says that the names stand.
#[cfg(feature = "proved")]
fn proved(text: &[u8]) -> Result<Question, Refusal> {
    let (question, names) = pelohuaki_bench::exported::import(text)?;
    assert_eq!(Ok(names), import::bare_names(text), "{}", String::from_utf8_lossy(text));
    Ok(question)
}

/// What all say of a text.
#[track_caller]
fn imported(text: &[u8]) -> Result<Question, Refusal> {
    let imported = import::imported(text);
    for (name, side) in SIDES {
        assert_eq!(side(text), imported, "{name}: {}", String::from_utf8_lossy(text));
    }
    imported
}

// By hand

/// The text is refused by this number where `§` stands in it.
#[track_caller]
fn refused(number: u8, marked: &str) {
    let place = marked.find('§').expect("a place");
    let text = marked.replace('§', "");
    assert_eq!(imported(text.as_bytes()), Err(Refusal { number, place }), "{marked}");
}

/// The same for bytes that are no characters: before the place, and from it on.
#[track_caller]
fn refused_bytes(number: u8, before: &[u8], from: &[u8]) {
    assert_eq!(imported(&[before, from].concat()), Err(Refusal { number, place: before.len() }), "{before:x?} {from:x?}");
}

/// What these commands are refused by, behind two declared names and before `check-sat`.
#[track_caller]
fn refused_within(number: u8, marked: &str) {
    refused(number, &within(marked));
}

fn within(commands: &str) -> String {
    format!("(set-logic QF_LIA)(declare-const x Int)(declare-const y Int)(assert (>= x 0))(assert (>= y 0)){commands}(check-sat)")
}

/// The codes of the question that a text says, and its atoms: the coefficients and then the constant.
#[track_caller]
fn held(text: &str) -> (Vec<u8>, Vec<Vec<i32>>) {
    let question = imported(text.as_bytes()).unwrap_or_else(|refusal| panic!("{refusal:?}: {text}"));
    let nodes = question.codes.iter().take_while(|&&code| code != 0).count();
    let n = question.n as usize;
    let atom = |i: usize| [&question.coefficients[6 * i..6 * i + n], &question.constants[i..i + 1]].concat();
    (question.codes[..nodes].to_vec(), (0..question.atoms()).map(atom).collect())
}

/// The one atom that a comparison of x and y is.
#[track_caller]
fn atom(comparison: &str) -> (u8, [i32; 3]) {
    let (codes, atoms) = held(&within(&format!("(assert {comparison})")));
    assert_eq!((codes.len(), atoms.len()), (1, 1), "{comparison}");
    (codes[0], atoms[0][..].try_into().unwrap())
}

/// The codes of a question with these assertions.
#[track_caller]
fn codes(assertions: &str) -> Vec<u8> {
    held(&within(assertions)).0
}

/// Lists are closed, and no more than 32 are open at once.
#[test]
fn lists() {
    refused(14, "§)");
    refused(14, "(set-logic QF_LIA)§)(check-sat)");
    refused(14, "(set-logic QF_LIA§");
    refused(14, "(set-logic QF_LIA)(assert (and§");
    refused(14, "(§");
    refused(14, "|x§");
    refused(14, "(set-logic \"QF_LIA)(check-sat)§");
    refused(14, "1.§");
    refused(14, "#§");
    refused(14, "#x§");
    refused(14, "#b§");
    refused(14, ":§");
    let open = "(".repeat(32);
    let close = ")".repeat(32);
    refused(15, &format!("§{open}{close}"));
    refused(14, &format!("{open}§({close})"));
    refused(14, &format!("(set-logic QF_LIA){open}§()"));
    refused(15, &format!("(set-logic QF_LIA)§{open}{close}(check-sat)"));
    // Parentheses elsewhere do not count.
    refused(15, &format!("§{open} ;((\n |((| \"((\" {close}"));
    refused(15, &format!("§{open} ;))\n |))| \"))\" {close}"));
    // The list of an assertion is the first, and that of the comparison here the last.
    let deep = |lists: usize, inner: &str| format!("(assert {}{inner}{})", "(and ".repeat(lists), ")".repeat(lists));
    assert_eq!(codes(&deep(30, "(= x 1)")), [EQUATION]);
    refused_within(14, &deep(31, "§(= x 1)"));
    refused_within(14, &deep(30, "(= x §(+ x 1))"));
}

/// White space.
#[test]
fn white_space() {
    assert_eq!(
        held("\t(set-logic\nQF_LIA)\r\n(declare-const\rx\tInt)(assert(>=\nx\t0))(assert(=\rx 1))(check-sat)\n"),
        (vec![EQUATION], vec![vec![1, 1]])
    );
    refused(14, "§\x0C(set-logic QF_LIA)");
    refused(14, "(set-logic§\x0BQF_LIA)");
    refused_bytes(14, b"", b"\xEF\xBB\xBF(set-logic QF_LIA)");
    refused_bytes(14, b"(set-logic ", b"\xA0QF_LIA)");
    refused_bytes(14, b"(set-logic QF_LIA", b"\0)");
}

/// Tokens.
#[test]
fn tokens() {
    // Each is well formed, and nothing that may come first.
    let taken =
        ["0", "10", "0.0", "1.50", "12.00", "#x0aF", "#b01", "\"\"", "\"a\"\"b\"", "a", "-1", "~!@$%^&*_-+=<>.?/", "||", "|a b|", ":k", ":-", ":let"];
    for token in taken {
        refused(15, &format!("§{token}"));
        refused(15, &format!("§{token} (check-sat)"));
    }
    refused(14, "0§1");
    refused(14, "0§0");
    refused(14, "0§0.5");
    refused(14, "1.§x");
    refused(14, "1.§ 5");
    refused(14, "1.5§.");
    refused(14, "#§ x1");
    refused(14, "#§X1");
    refused(14, "#x§g");
    refused(14, "#x§ ");
    refused(14, "#b§2");
    refused(14, "#b1§2");
    refused(14, ":§ k");
    refused(14, ":§1");
    refused(14, ":§|k|");
    refused(14, ":§:k");
    refused(14, "|a§\\b|");
    // Two quotes are one quote of the string.
    refused(14, "\"a\"\"§");
    refused(15, "§\"a\" \"b\"");
    // A symbol, and so a name, and no number.
    assert_eq!(held("(set-logic QF_LIA)(declare-const -1 Int)(assert (>= -1 0))(assert (= -1 1))(check-sat)"), (vec![EQUATION], vec![vec![1, 1]]));
}

/// Comments, and what strings and quoted symbols take.
#[test]
fn comments_and_what_is_quoted() {
    assert_eq!(codes(";(\\\"|[\n(assert (= x 1));(\r(assert (= x 1))"), [AND, EQUATION, EQUATION]);
    refused(15, ";§");
    refused(15, ";(set-logic QF_LIA)(check-sat)§");
    refused(15, ";a\r§(check-sat)");
    refused_bytes(15, b";\0\x7F\xFF(\x0C\n", b"x");
    for byte in [0, 8, 11, 12, 14, 31, 127] {
        refused_bytes(14, b"\"a", &[byte, b'"']);
        refused_bytes(14, b"|a", &[byte, b'|']);
    }
    for byte in [9, 10, 13, 32, 33, 126, 128, 255] {
        refused_bytes(15, b"", &[b'"', byte, b'"']);
        refused_bytes(15, b"", &[b'|', byte, b'|']);
    }
    for byte in b"\\[]{},'`\x01\x7F\x80\xFF" {
        refused_bytes(14, b"(set-logic ", &[*byte, b')']);
    }
    refused(15, "§\"\\\"");
}

/// What stands after a token.
#[test]
fn after_tokens() {
    refused(14, "12§x");
    refused(14, "1.5§x");
    refused(14, "#x1§x");
    refused(14, "#b1§#b1");
    refused(14, "a§:b");
    refused(14, "a§#b");
    refused(14, "a§'");
    refused(14, ":a§:b");
    refused(14, "let§:");
    refused(14, "a§\\");
    for tokens in ["12;", "a()", "a\"\"", "a|b|", ":a|b|", "#x1\"\"", "let|b|", "1.5\n"] {
        refused(15, &format!("§{tokens}"));
    }
    refused(15, "§|a|b");
    refused(15, "§|a|1");
    refused(15, "§\"a\"b");
    refused(15, "§|a|:b");
    let tight = "(set-logic|QF_LIA|)(declare-const|x||Int|)(assert(>=|x|0))(assert(= 1|x|))(check-sat)";
    assert_eq!(held(tight), (vec![EQUATION], vec![vec![-1, -1]]));
}

/// 14 anywhere comes first, and the first byte of it.
#[test]
fn not_well_formed_first() {
    refused(14, "x (push 1) (declare-const let Int) §)");
    refused(14, "(check-sat)§[ 01 )");
    refused(14, "(set-logic QF_LRA)(check-sat) 0§1 ]");
    refused(14, &format!("(set-logic QF_LIA){}§( 01", "(".repeat(32)));
}

/// Of the faults that are left, the lowest, also before and behind a bad form.
#[test]
fn lowest_first() {
    refused(15, "(set-logic QF_LIA)§(declare-const x Int)(push 1)(check-sat)");
    // The sign assertion behind the bad form counts.
    refused(15, "(set-logic QF_LIA)(declare-const x Int)§(push 1)(assert (>= x 0))(check-sat)");
    refused(15, "(set-logic QF_LIA)(declare-const x Int)(assert §(= x y z))(assert (>= x 0))(push 1)(check-sat)");
    // Of a wrong list and what is in it, the list.
    refused_within(15, "(assert §(= (foo) y 1000001))");
    refused_within(15, "§(assert (= z 1) (= 1 z))");
    refused_within(15, "(assert (= x §|z|))");
    refused_within(15, "(assert (= §z |z|))");
}

/// What is outside the subset, and where.
#[test]
fn outside_the_subset() {
    let commands = ["(push 1)", "(x)", "()", "(assert)", "(assert (= x 1) (= x 1))", "((assert (= x 1)))", "(|assert| (= x 1))", "(1)", "(\"a\")"];
    let more = ["(set-info :a b)", "(declare-fun z () Int)", "(declare-const z)", "(declare-const z Int Int)", "(declare-const)", "(check-sat 1)"];
    for command in commands.iter().chain(&more) {
        refused_within(15, &format!("§{command}"));
    }
    let formulas = ["(= x y z)", "(= x)", "(=)", "(<= x)", "(and)", "(or)", "(not)", "(not (= x 1) (= x 1))", "(=> (= x 1) (= x 1))", "()", "(x)"];
    let more = ["x", "true", "1", "\"a\"", "let", ":k", "(+ x 1)", "((and (= x 1)))", "(let ((z 1)) (= z 1))", "(! (= x 1) :named a)", "|and|"];
    for formula in formulas.iter().chain(&more) {
        refused_within(15, &format!("(assert §{formula})"));
        refused_within(15, &format!("(assert (not §{formula}))"));
        refused_within(15, &format!("(assert (and (= x 1) §{formula}))"));
    }
    let terms = ["(+ x)", "(+)", "(-)", "(- x y 1)", "(*)", "(* 2)", "(* 2 x 1)", "(* x y)", "(* x (- 3))", "(* 2.0 x)", "()", "(x)", "((+) x y)"];
    let more = ["z", "|x |", "X", "\"x\"", "1.0", "#x1", "#b1", ":x", "let", "true", "+", "(= x y)", "(and (= x y))", "(div x 2)", "(abs x)"];
    for term in terms.iter().chain(&more) {
        refused_within(15, &format!("(assert (= x §{term}))"));
        refused_within(15, &format!("(assert (< (* 2 §{term}) x))"));
        refused_within(15, &format!("(assert (>= (+ y (- §{term}) x) x))"));
    }
    refused(15, "(set-logic §QF_LRA)(check-sat)");
    refused(15, "(set-logic §qf_lia)(check-sat)");
    refused(15, "(set-logic §(QF_LIA))(check-sat)");
    refused(15, "(set-logic §\"QF_LIA\")(check-sat)");
    refused(15, "§(set-logic)(check-sat)");
    refused(15, "§(set-logic QF_LIA QF_LIA)(check-sat)");
    for sort in ["Bool", "Real", "int", "(Int)", "1", "\"Int\"", "(_ BitVec 8)"] {
        refused(15, &format!("(set-logic QF_LIA)(declare-const x §{sort})(assert (>= x 0))(check-sat)"));
    }
    for name in ["let", "7", "assert", "_", "!", "(x)", "\"x\"", ":x", "#x1", "1.5", "true", "and", "|and|", "|<=|", "define-funs-rec", "NUMERAL"] {
        refused(15, &format!("(set-logic QF_LIA)(declare-const §{name} Int)(check-sat)"));
    }
    refused_within(15, "§x");
    refused_within(15, "§1");
    refused_within(15, "§|assert|");
    // Used before it is declared.
    refused_within(15, "(assert (= §z 1))(declare-const z Int)(assert (>= z 0))");
    refused_within(15, "(assert (>= §z 0))(declare-const z Int)(assert (>= z 0))(assert (= z 1))");
}

/// The order of the commands.
#[test]
fn order() {
    refused(15, "§");
    refused(15, " \n;a§");
    refused(15, "§(check-sat)");
    refused(15, "§x(set-logic QF_LIA)(check-sat)");
    refused(15, "§(declare-const x Int)(set-logic QF_LIA)(check-sat)");
    refused(15, "§(set-info :a b)(set-logic QF_LIA)(check-sat)");
    refused_within(15, "§(set-logic QF_LIA)(assert (= x 1))");
    refused_within(15, "§(set-logic)(assert (= x 1))");
    refused(15, "(set-logic QF_LIA)§");
    refused(15, &(within("(assert (= x 1))").replace("(check-sat)", " ;") + "§"));
    for behind in ["(check-sat)", "(exit)", "x y", "(assert (>= x 0))", "()", "1"] {
        refused(15, &(within("(assert (= x 1))") + " §" + behind));
    }
    // Assertions behind it do not count.
    refused(15, "(set-logic QF_LIA)§(declare-const x Int)(assert (= x 1))(check-sat)(assert (>= x 0))");
    refused(15, "(set-logic QF_LIA)(declare-const x Int)(assert (>= x 0))§(check-sat)(assert (= x 1))");
    // A check-sat with parts is outside the subset, and still what ends the commands that count.
    refused(15, "(set-logic QF_LIA)§(declare-const x Int)(check-sat x)(assert (>= x 0))(assert (= x 1))(check-sat)");
    refused(15, "(set-logic QF_LIA)(declare-const x Int)(assert (>= x 0))(assert (= x 1))§(check-sat x)(check-sat)");
    assert_eq!(held(&(within("(assert (= x 1))") + " ;x")).0, [EQUATION]);
}

/// Declarations.
#[test]
fn declarations() {
    refused_within(15, "(declare-const §x Int)(assert (= x 1))");
    refused_within(15, "(declare-const §|x| Int)(assert (= x 1))");
    refused_within(15, "(declare-const §x Bool)(assert (= x 1))");
    // What is refused for its sort or name asks for no sign assertion: the place is not the declaration.
    refused_within(15, "(declare-const z §Bool)(assert (= x 1))");
    refused_within(15, "(declare-const §and Int)(assert (= x 1))");
    refused_within(15, "§(declare-const z Int)(assert (= x 1))");
    let six = |more: &str| {
        let names: String = "abcd".chars().map(|name| format!("(declare-const {name} Int)(assert (>= {name} 0))")).collect();
        within(&(names + more))
    };
    assert_eq!(held(&six("(assert (= a d))")).1, [[0, 0, 1, 0, 0, -1, 0]]);
    refused(4, &six("(declare-const §g Int)(assert (>= g 0))(assert (= a g))"));
    refused(4, &six("(declare-const §g Int)(assert (>= g 0))(declare-const h Int)(push 1)"));
    // A seventh name is a name, which needs its sign assertion; what declares nothing is none.
    refused(15, &six("§(declare-const g Int)(assert (= a d))"));
    refused(15, &six("(declare-const g §Bool)(assert (= a d))"));
    refused(15, &six("(declare-const §a Int)(assert (= a d))"));
    refused(15, &six("(declare-const §let Int)(assert (= a d))"));
    refused(15, &six("§(push 1)(declare-const g Int)(assert (>= g 0))"));
    refused(4, &six("(declare-const §g Int)(assert (>= g 0))"));
}

/// Names.
#[test]
fn names() {
    let with = |name: &str, uses: &str| format!("(set-logic QF_LIA)(declare-const {name} Int)(assert (>= {uses} 0))(assert (= {uses} 1))(check-sat)");
    for (name, uses) in [("x", "|x|"), ("|x|", "x"), ("||", "||"), ("|let|", "|let|"), ("|assert|", "|assert|"), ("|_|", "|_|"), ("|a b|", "|a b|")] {
        assert_eq!(held(&with(name, uses)), (vec![EQUATION], vec![vec![1, 1]]), "{name}");
    }
    for name in ["Int", "Bool", "QF_LIA", "And", "TRUE", "--", "<<", "=<", "..", "Let", "lets", "numeral", "|1|", "|1.5|", "|;|", "|é|", "|\"|"] {
        assert_eq!(held(&with(name, name)), (vec![EQUATION], vec![vec![1, 1]]), "{name}");
    }
    for name in ["true", "false", "not", "=>", "and", "or", "xor", "=", "distinct", "ite", "+", "-", "*", "div", "mod", "abs", "<=", "<", ">=", ">"] {
        refused(15, &with(&format!("§{name}"), "x"));
        refused(15, &with(&format!("§|{name}|"), "x"));
    }
    let reserved = "BINARY DECIMAL HEXADECIMAL NUMERAL STRING _ ! as let exists forall match par assert check-sat check-sat-assuming declare-const \
        declare-datatype declare-datatypes declare-fun declare-sort define-fun define-fun-rec define-funs-rec define-sort echo exit get-assertions \
        get-assignment get-info get-model get-option get-proof get-unsat-assumptions get-unsat-core get-value pop push reset reset-assertions \
        set-info set-logic set-option";
    for word in reserved.split(' ') {
        refused(15, &with(&format!("§{word}"), "x"));
        assert_eq!(held(&with(&format!("|{word}|"), &format!("|{word}|"))), (vec![EQUATION], vec![vec![1, 1]]), "{word}");
    }
    // A reserved word is no symbol, also where its symbol is declared.
    refused(15, &with("|let|", "|let|").replace("(= |let|", "(= §let"));
    refused(15, &with("x", "x").replace("(assert (= x", "§(|assert| (= x"));
    refused(15, &with("x", "x").replace("(check-sat)", "§(|check-sat|)(check-sat)"));
    refused(15, &with("X", "X").replace("(= X", "(= §x"));
    assert_eq!(codes("(assert (|and| (|=| x 1) (|not| (|<| y 1))))"), [AND, EQUATION, NOT, AT_MOST]);
    assert_eq!(atom("(|=| (|+| x (|*| 2 y)) (|-| 3))"), (EQUATION, [1, 2, -3]));
    let ranges = import::names(
        b"(set-logic QF_LIA)(declare-const |x| Int)(declare-const yy Int)(assert (>= yy 0))(assert(>= x 0))(assert (= x yy))(check-sat)",
    );
    assert_eq!(ranges, Ok(vec![33..36, 56..58]));
}

/// The sign assertion is one form alone, and adds no atom.
#[test]
fn signs() {
    let with = |sign: &str| format!("(set-logic QF_LIA)§(declare-const x Int)(assert {sign})(assert (= x 1))(check-sat)");
    for sign in ["(>= x 0)", "(>= |x| 0)", "(|>=| x 0)"] {
        assert_eq!(held(&with(sign).replace('§', "")).0, [EQUATION]);
    }
    for other in ["(<= 0 x)", "(>= x (- 0))", "(and (>= x 0))", "(>= (+ x 0) 0)", "(not (< x 0))", "(> x 0)", "(>= x 1)", "(>= 0 x)", "(>= 0 0)"] {
        refused(15, &with(other));
    }
    // Of a name that has its own, these are ordinary.
    assert_eq!(atom("(<= 0 x)"), (AT_MOST, [-1, 0, 0]));
    assert_eq!(atom("(>= x (- 0))"), (AT_MOST, [-1, 0, 0]));
    assert_eq!(atom("(and (>= x 0))"), (AT_MOST, [-1, 0, 0]));
    assert_eq!(atom("(>= x y)"), (AT_MOST, [-1, 1, 0]));
    assert_eq!(codes("(assert (>= x 0))(assert (= x 1))(assert (>= x 0))(assert (>= y 0))"), [EQUATION]);
    refused_within(15, "(assert (>= x §|0|))");
    refused_within(15, "§(assert (>= x 0) 0)(assert (= x 1))");
}

/// Products.
#[test]
fn products() {
    assert_eq!(atom("(= (* 3 x) y)"), (EQUATION, [3, -1, 0]));
    assert_eq!(atom("(= (* x 3) y)"), (EQUATION, [3, -1, 0]));
    assert_eq!(atom("(= (- (* 3 x)) y)"), (EQUATION, [-3, -1, 0]));
    assert_eq!(atom("(= (* 2 3) x)"), (EQUATION, [-1, 0, -6]));
    assert_eq!(atom("(= (* 2 (+ x 1)) y)"), (EQUATION, [2, -1, -2]));
    assert_eq!(atom("(= (* (- x y) 0) 0)"), (EQUATION, [0, 0, 0]));
    assert_eq!(atom("(= (* 2 (* 3 (* 4 x))) y)"), (EQUATION, [24, -1, 0]));
    refused_within(15, "(assert (= §(* (- 3) x) y))");
    refused_within(15, "(assert (= §(* (* 2 3) x) y))");
    refused_within(15, "(assert (= §(* x |3|) y))");
    refused_within(15, "(assert (= (* 2 §z) y))");
    refused_within(15, "(assert (= (* §z 2) y))");
    refused_within(15, "(assert (= §(* z z) y))");
}

/// Numerals, and what terms and comparisons come to.
#[test]
fn sizes() {
    assert_eq!(atom("(= x 1000000)"), (EQUATION, [1, 0, 1_000_000]));
    refused_within(15, "(assert (= x §1000001))");
    refused_within(15, "(assert (= x (* §1000001 y)))");
    refused_within(15, "(assert (= x (* y §1000001)))");
    refused_within(15, "(assert (= x (* 0 §99999999999999999999999999)))");
    refused_within(15, "(assert (= §18446744073709551617 1))");
    // 2^40, of a constant and of a variable, and one more.
    let whole = "(* 1000000 (+ 1000000 99511))";
    let number = |rest: i64| format!("(+ {whole} {rest})");
    let much = |rest: i64| format!("(+ (* 1000000 (+ (* 1000000 x) (* 99511 x))) (* {rest} x))");
    for (at, past) in [(number(627_776), number(627_777)), (much(627_776), much(627_777))] {
        assert_eq!(atom(&format!("(= {at} {at})")), (EQUATION, [0, 0, 0]));
        assert_eq!(atom(&format!("(< (- {at}) (- {at}))")), (AT_MOST, [0, 0, -1]));
        refused_within(15, &format!("(assert (= §{past} {past}))"));
        refused_within(15, &format!("(assert (= (- §{past}) 0))"));
        refused_within(15, &format!("(assert (= y §(+ {at} {at})))"));
        refused_within(15, &format!("(assert (= y §(- (- {at}) {at})))"));
        refused_within(15, &format!("(assert (= y §(* 2 {at})))"));
        refused_within(15, &format!("(assert §(= (- {at}) {at}))"));
        // Only the whole counts, and not the way to it.
        assert_eq!(atom(&format!("(= y (+ {at} {at} (- {at}) (- {at})))")), (EQUATION, [0, 1, 0]));
        assert_eq!(atom(&format!("(= y (+ {at} {at} (- {at}) (- {at}) x))")), (EQUATION, [-1, 1, 0]));
    }
    // A comparison's own numbers are those before a strict one is lowered.
    let (at, past) = (number(627_776), number(627_777));
    let half = |rest: i64| format!("(+ (* 1000000 549755) {rest})");
    refused_within(13, &format!("(assert §(< {at} 0))"));
    refused_within(13, &format!("(assert §(< 0 {at}))"));
    refused_within(15, &format!("(assert (< §{past} 0))"));
    refused_within(13, &format!("(assert §(> (- {}) {}))", half(813_888), half(813_888)));
    refused_within(15, &format!("(assert §(> (- {}) {}))", half(813_888), half(813_889)));
    refused_within(13, &format!("(assert §(<= (- {}) {}))", half(813_888), half(813_888)));
    refused_within(15, &format!("(assert §(<= (- {}) {}))", half(813_889), half(813_888)));
    // Where something inside is refused, the whole is not looked at.
    refused_within(15, &format!("(assert (= (+ {at} {at} §z) 0))"));
    refused_within(15, &format!("(assert (= (- {at}) (+ {at} (* 2 §z))))"));
}

/// No assertion but of signs, and no name.
#[test]
fn nothing_to_ask() {
    refused_within(15, "§");
    refused(4, "(set-logic QF_LIA)(assert (= 1 1))§(check-sat)");
    refused(15, "(set-logic QF_LIA)§(check-sat)");
    refused(15, "(set-logic QF_LIA)§(declare-const x Int)(check-sat)");
    refused(15, "(set-logic QF_LIA)(declare-const x Int)(assert (>= x 0))§(check-sat)(check-sat)");
    refused(4, "(set-logic QF_LIA)(assert (= 1 1))§(check-sat)(check-sat)");
    refused(15, "(set-logic QF_LIA)(assert (= 1 1))§");
}

/// Atoms and joins.
#[test]
fn atoms_and_joins() {
    assert_eq!(atom("(<= (+ x 2) (+ (* 3 y) 7))"), (AT_MOST, [1, -3, 5]));
    assert_eq!(atom("(>= (+ x 2) (+ (* 3 y) 7))"), (AT_MOST, [-1, 3, -5]));
    assert_eq!(atom("(< (+ x 2) (+ (* 3 y) 7))"), (AT_MOST, [1, -3, 4]));
    assert_eq!(atom("(> (+ x 2) (+ (* 3 y) 7))"), (AT_MOST, [-1, 3, -6]));
    assert_eq!(atom("(= (+ x 2) (+ (* 3 y) 7))"), (EQUATION, [1, -3, 5]));
    assert_eq!(atom("(= (+ x y x 1 y) (- x 4))"), (EQUATION, [1, 2, -5]));
    assert_eq!(atom("(= x x)"), (EQUATION, [0, 0, 0]));
    assert_eq!(atom("(< 3 (- 4))"), (AT_MOST, [0, 0, -8]));
    assert_eq!(codes("(assert (and (= x 1)))"), [EQUATION]);
    assert_eq!(codes("(assert (or (and (or (= x 1)))))"), [EQUATION]);
    assert_eq!(codes("(assert (not (or (not (= x 1)))))"), [NOT, NOT, EQUATION]);
    assert_eq!(codes("(assert (or (= x 1) (< x 1) (= x 1)))"), [OR, EQUATION, OR, AT_MOST, EQUATION]);
    assert_eq!(codes("(assert (or (or (= x 1) (< x 1)) (= x 1)))"), [OR, OR, EQUATION, AT_MOST, EQUATION]);
    assert_eq!(codes("(assert (= x 1))(assert (or (< x 1) (= x 1)))(assert (= x 1))"), [AND, EQUATION, AND, OR, AT_MOST, EQUATION, EQUATION]);
    assert_eq!(codes("(assert (and (= x 1) (< x 1)))(assert (= x 1))"), [AND, AND, EQUATION, AT_MOST, EQUATION]);
}

/// Nodes, atoms, depth and numbers, in the question's order.
#[test]
fn in_question_order() {
    // A ninth atom.
    refused_within(5, &format!("(assert (or {} §(= x 2)))", "(= x 1)".repeat(8)));
    refused_within(5, &format!("{}(assert §(= x 2))", "(assert (= x 1))".repeat(8)));
    refused_within(5, &format!("(assert (or {} §(= x 2) (= x 5000)))", "(= x 1)".repeat(8)));
    assert_eq!(codes(&"(assert (= x 1))".repeat(8)).len(), 15);
    // Depth.
    let deep = |nots: usize, inner: &str| format!("(assert {}{inner}{})", "(not ".repeat(nots), ")".repeat(nots));
    assert_eq!(codes(&deep(15, "(= x 1)")).len(), 16);
    refused_within(5, &deep(16, "§(= x 1)"));
    refused_within(5, &deep(16, "§(not (= x 1))"));
    refused_within(5, &deep(16, "(and §(= x 1))"));
    assert_eq!(codes(&deep(14, "(and (= x 1) (= x 1))")).len(), 17);
    refused_within(5, &deep(14, "(and (= x 1) §(= x 1) (= x 1))"));
    refused_within(5, &deep(15, "(and §(= x 1) (= x 1))"));
    refused_within(5, &deep(16, "§(and (= x 1) (= x 1))"));
    // 64 nodes are within the limits, and the 65th is not: an atom, a connective.
    let under = |nots: usize| format!("{}(= x 1){}", "(not ".repeat(nots), ")".repeat(nots));
    let many = |last: &str| format!("{}(assert {last})", format!("(assert {})", under(6)).repeat(7));
    assert_eq!(codes(&many(&under(6))).len(), 63);
    assert_eq!(codes(&many(&under(7))).len(), 64);
    refused_within(5, &many(&under(8)).replace("(= x 1))))))))))", "§(= x 1))))))))))"));
    refused_within(5, &many(&under(9)).replace("(not (= x 1)))))))))))", "§(not (= x 1)))))))))))"));
    // An added join is the 65th: it stands where its first part does, also where that is a list of one part.
    let two = |part: &str| format!("(or {part} {part})");
    let crowd = two(&two(&two(&under(6))));
    assert_eq!(codes(&format!("(assert {crowd})")).len(), 63);
    refused_within(5, &format!("(assert {crowd})(assert §(= x 2))(assert (= x 3))"));
    refused_within(5, &format!("(assert {crowd})(assert §(and (= x 2)))(assert (= x 3))"));
    refused_within(5, &format!("(assert {crowd})(assert (and §(= x 2)))"));
    refused_within(5, &format!("(assert {crowd})(assert §(and (= x 2) (= x 3)))"));
    refused_within(5, &format!("(assert (and {crowd} §(or (not (= x 2))) (= x 3)))"));
    refused_within(5, &format!("(assert (or (or {crowd}) §(not (= x 2)) (= x 3)))"));
    // 12 before 13, and both in the question's order, after the nodes before them.
    refused_within(12, "(assert §(= (* 4097 x) 0))");
    refused_within(12, "(assert §(= (* 4097 x) (* 2 1000000)))");
    refused_within(13, "(assert §(= x (* 2 1000000)))");
    refused_within(13, "(assert §(= x (+ 1000000 1)))(assert (= (* 4097 x) 0))");
    refused_within(12, "(assert §(= (- (* 4097 x)) y))(assert (= x (+ 1000000 1)))");
    refused_within(12, "(assert (and (= x 1) §(= y (* 4097 x))))");
    assert_eq!(atom("(= (* 4096 x) (* 4096 y))"), (EQUATION, [4_096, -4_096, 0]));
    assert_eq!(atom("(< x (+ 1000000 1))"), (AT_MOST, [1, 0, 1_000_000]));
    assert_eq!(atom("(> (- 999999) y)"), (AT_MOST, [0, 1, -1_000_000]));
    refused_within(13, "(assert §(< x (- 1000000)))");
    refused_within(13, "(assert §(= (+ x 1000000 1) 0))");
    // 5 at a node comes before the numbers of a later one, and after those of an earlier one.
    refused_within(12, &format!("(assert (or §(= (* 4097 x) 1) {}))", "(= x 1)".repeat(9)));
    refused_within(5, &format!("(assert (or {} §(= (* 4097 x) 1)))", "(= x 1)".repeat(8)));
}

// Generated texts

/// Naturals to try: small ones, large ones, and some that an atom turns on.
fn tuples(random: &mut Random, question: &Question) -> Vec<Vec<u64>> {
    let n = question.n as usize;
    let mut up_to = |most: u64| -> Vec<u64> { (0..n).map(|_| random.next() % (most + 1)).collect() };
    let mut tuples = vec![up_to(3), up_to(1_000), up_to(Question::VALUE)];
    for _ in 0..2 {
        let i = random.below(question.atoms());
        let row = &question.coefficients[6 * i..6 * i + n];
        let most = random.pick(&[1, 3, 9, 100_000]);
        let mut values: Vec<u64> = (0..n).map(|_| random.next() % (most + 1)).collect();
        let j = random.below(n);
        if row[j] != 0 {
            let others: i128 = (0..n).filter(|&other| other != j).map(|other| row[other] as i128 * values[other] as i128).sum();
            let value = (question.constants[i] as i128 - others).div_euclid(row[j] as i128) + random.between(-1, 1) as i128;
            values[j] = value.clamp(0, Question::VALUE as i128) as u64;
        }
        tuples.push(values);
    }
    tuples
}

/// The question holds for the same naturals as the text, and its bytes read back. Where a value is negative, the text does not hold.
fn means_the_same(random: &mut Random, text: &[u8], question: &Question, met: &mut Met) {
    let bytes = bytes_of(question).expect("a question within the limits");
    assert_eq!(read(&bytes).as_ref(), Ok(question));
    let mut integers = Vec::new();
    for values in tuples(random, question) {
        integers = values.iter().map(|&value| value as i128).collect();
        let yes = import::holds(text, &integers);
        assert_eq!(judge(&bytes, &values), Ok(yes), "{values:?} {}", String::from_utf8_lossy(text));
        met.meet(if yes { "yes" } else { "no" });
    }
    let j = random.below(integers.len());
    integers[j] = -1 - integers[j];
    assert!(!import::holds(text, &integers));
}

/// What stands where a text is refused: a list with a head of the subset, or another, or what kind of token.
fn at(text: &[u8], place: usize) -> &'static str {
    const HEADS: [&str; 15] =
        ["(set-logic", "(declare-const", "(assert", "(check-sat", "(and", "(or", "(not", "(=", "(<=", "(<", "(>=", "(>", "(+", "(-", "(*"];
    match text.get(place) {
        None => "the end",
        Some(b'(') => {
            let rest = &text[place..];
            let ends = |head: &str| rest.get(head.len()).is_some_and(|byte| b" \t\r\n;()|".contains(byte));
            HEADS.into_iter().find(|head| rest.starts_with(head.as_bytes()) && ends(head)).unwrap_or("another list")
        }
        Some(b'0'..=b'9') => "a number",
        Some(b'|') => "a symbol in bars",
        Some(b'"' | b':' | b'#') => "another token",
        Some(_) => "a symbol",
    }
}

#[test]
fn generated() {
    let mut random = Random::new(14);
    let (mut met, mut places, mut truth) = (Met::default(), Met::default(), Met::default());
    for _ in 0..100_000 {
        let text = any_text(&mut random);
        match imported(&text) {
            Ok(question) => {
                met.meet("held");
                means_the_same(&mut random, &text, &question, &mut truth);
            }
            Err(refusal) => {
                met.meet(refusal.number.to_string());
                if refusal.number != 14 {
                    places.meet(format!("{} at {}", refusal.number, at(&text, refusal.place)));
                }
            }
        }
    }
    met.exactly(1_500, &["held", "4", "5", "12", "13", "14", "15"]);
    truth.at_least(20_000, &["yes", "no"]);
    let commands = ["15 at (set-logic", "15 at (declare-const", "15 at (assert", "15 at (check-sat", "15 at the end", "4 at (check-sat"];
    let terms = ["15 at (+", "15 at (-", "15 at (*", "15 at (=", "15 at (<=", "15 at (<", "15 at (>=", "15 at (>"];
    let formulas = ["15 at (and", "15 at (or", "15 at (not", "5 at (and", "5 at (or", "5 at (not", "5 at (=", "5 at (<="];
    let others = ["15 at another list", "15 at a number", "15 at a symbol", "15 at a symbol in bars", "15 at another token", "4 at a symbol"];
    places.at_least(50, &[&commands[..], &terms, &formulas, &others].concat());
}

/// Texts that were made of a known question say that question, and name their variables where they are declared.
#[test]
fn of_known_questions() {
    let mut random = Random::new(15);
    let mut met = Met::default();
    for _ in 0..20_000 {
        let style = random.pick(&[Style::Tame, Style::Wild, Style::Wild]);
        let text = if random.one_in(3) { about_limits(&mut random) } else { accepted(&mut random, style) };
        let said = imported(&text.bytes);
        assert_eq!(said.clone().map_err(|refusal| refusal.number), text.says, "{}", String::from_utf8_lossy(&text.bytes));
        met.meet(said.map_or_else(|refusal| refusal.number.to_string(), |_| "held".into()));
        if text.says.is_ok() {
            let ranges = import::names(&text.bytes).unwrap();
            let names: Vec<&[u8]> = ranges
                .into_iter()
                .map(|range| {
                    let (before, name) = (&text.bytes[..range.start], &text.bytes[range]);
                    assert!(before.windows(13).any(|word| word == b"declare-const"));
                    name.strip_prefix(b"|").and_then(|name| name.strip_suffix(b"|")).unwrap_or(name)
                })
                .collect();
            assert_eq!(names, text.names);
        }
    }
    met.exactly(500, &["held", "5", "12", "13"]);
}

/// The texts of the outside vectors that are accepted hold for the same naturals as their questions.
#[test]
fn outside_texts() {
    let mut random = Random::new(16);
    let mut met = Met::default();
    for line in vectors::E2.lines() {
        let text = vectors::bytes(line.split(' ').nth(1).unwrap());
        if let Ok(question) = imported(&text) {
            met.meet("held");
            means_the_same(&mut random, &text, &question, &mut met);
        }
    }
    met.exactly(180, &["held", "yes", "no"]);
}

/// Every text of up to three bytes, of those that matter to the lexicon.
#[test]
fn short_texts() {
    let bytes = b"()|\";:#.01axb_-\\ \n\r\t\x0C\x7F\xFF[";
    let mut met = Met::default();
    for &a in bytes {
        for &b in bytes {
            for &c in bytes {
                for text in [&[a][..], &[a, b], &[a, b, c]] {
                    met.meet(imported(text).unwrap_err().number.to_string());
                }
            }
        }
    }
    met.exactly(1_000, &["14", "15"]);
}

// Large texts

const MEGABYTE: usize = 1 << 20;

#[test]
fn large() {
    let refused = |number: u8, place: usize, text: String| assert_eq!(imported(text.as_bytes()), Err(Refusal { number, place }));
    refused(14, 32, "(".repeat(MEGABYTE));
    refused(14, 0, ")".repeat(MEGABYTE));
    refused(15, MEGABYTE, ";".repeat(MEGABYTE));
    refused(15, MEGABYTE, " ".repeat(MEGABYTE));
    refused(15, MEGABYTE, ";\n".repeat(MEGABYTE / 2));
    refused(15, 0, "x".repeat(MEGABYTE));
    refused(15, 0, "x ".repeat(MEGABYTE / 2));
    refused(15, 0, "7".repeat(MEGABYTE));
    refused(14, 1, "0".repeat(MEGABYTE));
    refused(14, MEGABYTE + 1, "|".to_string() + &"x".repeat(MEGABYTE));
    refused(14, MEGABYTE + 1, "\"".to_string() + &"\"".repeat(MEGABYTE));
    refused(15, 0, "()".repeat(MEGABYTE / 2));
    refused(15, 0, ("(".repeat(32) + &")".repeat(32)).repeat(MEGABYTE / 64));

    let begin = "(set-logic QF_LIA)(declare-const x Int)(declare-const y Int)(assert (>= x 0))(assert (>= y 0))";
    let here = begin.len();
    let script = |middle: &str| format!("{begin}{middle}(check-sat)");
    let held = |text: &str| imported(text.as_bytes()).unwrap_or_else(|refusal| panic!("{refusal:?}"));
    refused(15, here, script(&("(".repeat(32) + &")".repeat(32)).repeat(MEGABYTE / 64)));
    refused(15, here + 13, script(&format!("(assert (= x {}))", "7".repeat(MEGABYTE))));
    refused(15, here + 13, script(&format!("(assert (= x {}))", "x".repeat(MEGABYTE))));
    refused(15, here + 8, script(&format!("(assert (= x {}))", "x ".repeat(MEGABYTE / 2))));

    // A name of a megabyte, used here and there.
    let name = "n".repeat(MEGABYTE);
    let text = format!("(set-logic QF_LIA)(declare-const {name} Int)(assert (>= |{name}| 0))(assert (= {name} 1))(check-sat)");
    assert_eq!(held(&text).coefficients[0], 1);

    // One sum of many parts: one coefficient, or none where both sides have them.
    let parts = "x ".repeat(MEGABYTE / 2);
    refused(12, here + 8, script(&format!("(assert (= (+ {parts}) 1))")));
    assert_eq!(held(&script(&format!("(assert (<= (+ {parts}) (+ {parts} y)))"))).coefficients[..2], [0, -1]);
    let million = "1000000 ".repeat(MEGABYTE / 8);
    refused(13, here + 8, script(&format!("(assert (= x (+ {million})))")));
    let much = "(* 1000000 1000000) ".repeat(MEGABYTE / 20);
    refused(15, here + 13, script(&format!("(assert (= x (+ {much})))")));
    let less = "(- (* 1000000 1000000)) ".repeat(MEGABYTE / 20);
    assert_eq!(held(&script(&format!("(assert (= x (+ {much}{less}7)))"))).constants[0], 7);
    assert_eq!(held(&script(&format!("(assert (= x {}7{}))", "(- ".repeat(30), ")".repeat(30)))).constants[0], 7);

    // Many parts, assertions, declarations: the ninth atom, or the seventh name.
    let ninth = here + "(assert (or ".len() + 8 * "(= x 1)".len();
    refused(5, ninth, script(&format!("(assert (or {}))", "(= x 1)".repeat(MEGABYTE / 7))));
    let ninth = here + 8 * "(assert (= x 1))".len() + "(assert ".len();
    refused(5, ninth, script(&"(assert (= x 1))".repeat(MEGABYTE / 16)));
    refused(15, here, script(&(0..MEGABYTE / 32).map(|i| format!("(declare-const v{i} Int)")).collect::<String>()));
    let seventh = here + 4 * "(declare-const v1 Int)(assert (>= v1 0))".len() + "(declare-const ".len();
    refused(4, seventh, script(&(0..MEGABYTE / 50).map(|i| format!("(declare-const v{i} Int)(assert (>= v{i} 0))")).collect::<String>()));
    assert_eq!(held(&script(&("(assert (>= x 0))".repeat(MEGABYTE / 17) + "(assert (= x 1))"))).atoms(), 1);
    let nested = format!("(assert {}(= x 1){})", "(and ".repeat(30), ")".repeat(30));
    assert_eq!(held(&script(&nested.repeat(8))).codes[14..16], [EQUATION, 0]);
    let ninth = here + 8 * nested.len() + "(assert ".len() + "(and ".len() * 30;
    refused(5, ninth, script(&nested.repeat(MEGABYTE / nested.len())));
}

/// A sum of so many parts that the plain import adds the last of them in another way.
#[test]
fn plain_sums() {
    let script = |sum: &str| format!("(set-logic QF_LIA)(declare-const x Int)(assert (>= x 0))(assert (= (+ {sum}) 7))(check-sat)");
    let sum = script("").find("(+ ").unwrap();
    let many = "0 ".repeat(1 << 22);
    let question = plain_import::import(script(&format!("5 {many}x x 4")).as_bytes()).unwrap();
    assert_eq!((question.coefficients[0], question.constants[0]), (2, -2));
    let (more, less) = ("1000000 ".repeat(1_100_000), "(- 1000000)".repeat(1_100_000));
    assert_eq!(plain_import::import(script(&format!("{more}{many}")).as_bytes()), Err(Refusal { number: 15, place: sum }));
    let question = plain_import::import(script(&format!("{more}{many}{less}x")).as_bytes()).unwrap();
    assert_eq!((question.coefficients[0], question.constants[0]), (1, 7));
}

// Other solvers

/// Whether the question is satisfiable, if a room of some rows tells.
fn satisfiable(question: &Question) -> Option<bool> {
    let rows = 20_000;
    let (mut keys, mut path, mut word) = (vec![0; rows * question.atoms()], vec![0; rows * 2], vec![0; rows]);
    match plain::decide(&bytes_of(question).unwrap(), &mut keys, &mut path, &mut word) {
        Decision::Found { .. } => Some(true),
        Decision::Never { .. } => Some(false),
        _ => None,
    }
}

/// Each other solver that is installed takes the texts that are accepted, and answers as their questions are decided.
#[test]
fn other_solvers() {
    let solvers: Vec<smt::Solver> = smt::SOLVERS.into_iter().filter(|solver| solver.version().is_some()).collect();
    if solvers.is_empty() {
        println!("no other solver is installed");
        return;
    }
    let mut random = Random::new(17);
    let mut met = Met::default();
    let (mut batch, mut expected) = (String::new(), Vec::new());
    while expected.len() < 3_000 {
        let text = accepted(&mut random, Style::Tame);
        let Some(yes) = satisfiable(&imported(&text.bytes).unwrap()) else { continue };
        batch += &format!("(reset){}\n", String::from_utf8(text.bytes).unwrap());
        expected.push(if yes { "sat" } else { "unsat" });
        met.meet(if yes { "sat" } else { "unsat" });
    }
    met.exactly(300, &["sat", "unsat"]);
    for solver in solvers {
        let (answers, _) = solver.answers(&batch, expected.len()).expect("an answer to each text");
        assert_eq!(answers, expected, "{}", solver.name);
    }
}
