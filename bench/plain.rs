//! Runs a program as `hpr run FILE --steps N` does, and prints the same, written without proof: what a run of the proved program is
//! compared with (bench/runs). A tree is walked, and a map has the variables by their names. It reads what bench/programs.py makes.
use std::collections::BTreeMap;
use std::fmt::{self, Display};
use std::rc::Rc;
use std::{env, fs};

const PAGE: usize = 256;
const ELEMENTS: usize = 65_536;
const MOST_WRITTEN: usize = 1_000_000;

type Name = Rc<str>;
type Block = Vec<Stmt>;

#[derive(Clone, Copy)]
struct Tag(u32, u32);

#[derive(Clone, Copy)]
enum Unary {
    Neg,
    Not,
}

#[derive(Clone, Copy)]
enum Binary {
    Or,
    And,
    Equal,
    Differ,
    Less,
    LessEqual,
    Greater,
    GreaterEqual,
    Add,
    Sub,
    Mul,
    Div,
    Rem,
}

const SIGNS: [(&str, u8, Binary); 13] = [
    ("or", 1, Binary::Or),
    ("and", 2, Binary::And),
    ("=", 3, Binary::Equal),
    ("<>", 3, Binary::Differ),
    ("<", 3, Binary::Less),
    ("<=", 3, Binary::LessEqual),
    (">", 3, Binary::Greater),
    (">=", 3, Binary::GreaterEqual),
    ("+", 4, Binary::Add),
    ("-", 4, Binary::Sub),
    ("*", 5, Binary::Mul),
    ("/", 5, Binary::Div),
    ("%", 5, Binary::Rem),
];

enum Expr {
    Num(i64),
    Var(Name),
    Prefix(Unary, Box<Expr>),
    Infix(Binary, Box<Expr>, Box<Expr>),
    Elem(Name, Box<Expr>),
}

enum Stmt {
    Assign(Tag, Name, Expr),
    If(Tag, Expr, Block, Block),
    While(Tag, Expr, Block),
    Write(Tag, Name, Expr),
    Store(Tag, Name, Expr, Expr),
}

// ---- reading
fn tokens(text: &str) -> Vec<&str> {
    let is_word = |byte: &u8| byte.is_ascii_alphanumeric() || *byte == b'_';
    let mut found = Vec::new();
    let mut rest = text.trim_start();
    while !rest.is_empty() {
        let length = match rest.bytes().take_while(|byte| is_word(byte)).count() {
            0 if [":=", "<>", "<=", ">="].iter().any(|sign| rest.starts_with(sign)) => 2,
            0 => 1,
            letters => letters,
        };
        let (token, behind) = rest.split_at(length);
        found.push(token);
        rest = behind.trim_start();
    }
    found
}

struct Reader<'a> {
    tokens: Vec<&'a str>,
    at: usize,
}

impl<'a> Reader<'a> {
    fn peek(&self) -> &'a str {
        self.tokens[self.at]
    }

    fn take(&mut self) -> &'a str {
        self.at += 1;
        self.tokens[self.at - 1]
    }

    fn expect(&mut self, token: &str) {
        assert_eq!(self.take(), token);
    }

    fn takes(&mut self, token: &str) -> bool {
        let is_next = self.peek() == token;
        self.at += usize::from(is_next);
        is_next
    }

    fn number(&mut self) -> u32 {
        self.take().parse().expect("a number")
    }

    fn program(&mut self) -> (Block, Vec<Name>) {
        self.expect("program");
        if self.takes("issued") {
            loop {
                self.number();
                self.expect(":");
                self.number();
                if !self.takes(",") {
                    break;
                }
            }
        }
        let body = self.block();
        self.expect("end");
        self.expect("(");
        let mut finals = Vec::new();
        while !self.takes(")") {
            let name = self.take();
            finals.push(if self.takes("[") { array(name) } else { Name::from(name) });
            self.takes("]");
            self.takes(",");
        }
        (body, finals)
    }

    fn block(&mut self) -> Block {
        let mut block = Vec::new();
        while !matches!(self.peek(), "end" | "else" | "fi" | "od") {
            block.push(self.part());
        }
        block
    }

    fn part(&mut self) -> Stmt {
        let author = self.number();
        self.expect(".");
        let tag = Tag(author, self.number());
        self.expect(":");
        match self.take() {
            "if" => {
                let test = self.expr(1);
                self.expect("then");
                let yes = self.block();
                let no = if self.takes("else") { self.block() } else { Vec::new() };
                self.expect("fi");
                Stmt::If(tag, test, yes, no)
            }
            "while" => {
                let test = self.expr(1);
                self.expect("do");
                let body = self.block();
                self.expect("od");
                Stmt::While(tag, test, body)
            }
            "write" => {
                let value = self.expr(1);
                self.expect(";");
                Stmt::Write(tag, "out".into(), value)
            }
            name => {
                let index = self.index();
                self.expect(":=");
                let value = self.expr(1);
                self.expect(";");
                match index {
                    Some(index) => Stmt::Store(tag, array(name), index, value),
                    None => Stmt::Assign(tag, name.into(), value),
                }
            }
        }
    }

    fn expr(&mut self, least: u8) -> Expr {
        let mut left = self.prefix();
        while let Some(&(_, level, op)) = SIGNS.iter().find(|sign| sign.0 == self.peek() && sign.1 >= least) {
            self.take();
            let right = self.expr(level + 1);
            left = Expr::Infix(op, Box::new(left), Box::new(right));
        }
        left
    }

    fn prefix(&mut self) -> Expr {
        match self.take() {
            "-" => Expr::Prefix(Unary::Neg, Box::new(self.prefix())),
            "not" => Expr::Prefix(Unary::Not, Box::new(self.prefix())),
            "(" => {
                let inner = self.expr(1);
                self.expect(")");
                inner
            }
            token if token.as_bytes()[0].is_ascii_digit() => Expr::Num(token.parse().expect("a literal")),
            name => match self.index() {
                Some(index) => Expr::Elem(array(name), Box::new(index)),
                None => Expr::Var(name.into()),
            },
        }
    }

    fn index(&mut self) -> Option<Expr> {
        if !self.takes("[") {
            return None;
        }
        let index = self.expr(1);
        self.expect("]");
        Some(index)
    }
}

fn array(name: &str) -> Name {
    format!("{name}[]").into()
}

// ---- values
enum Value {
    Number(i64),
    List(Vec<i64>),
    Array(Cells),
}

/// The elements of an array, in pages that are made when one of theirs first becomes another number than 0.
#[derive(Default)]
struct Cells(Vec<Option<Box<[i64; PAGE]>>>);

impl Cells {
    fn get(&self, at: usize) -> i64 {
        match self.0.get(at / PAGE) {
            Some(Some(page)) => page[at % PAGE],
            _ => 0,
        }
    }

    fn set(&mut self, at: usize, number: i64) {
        if number == self.get(at) {
            return;
        }
        if self.0.len() <= at / PAGE {
            self.0.resize_with(at / PAGE + 1, || None);
        }
        self.0[at / PAGE].get_or_insert_with(|| Box::new([0; PAGE]))[at % PAGE] = number;
    }
}

enum Fault {
    Overflow,
    ZeroDivide,
    OutputFull,
    IndexRange,
}

enum Stop {
    Faulty(Tag, Fault),
    Spent,
}

// ---- running
struct Run {
    state: BTreeMap<Name, Value>,
    left: u64,
}

impl Run {
    fn block(&mut self, block: &[Stmt]) -> Result<(), Stop> {
        block.iter().try_for_each(|stmt| self.stmt(stmt))
    }

    fn stmt(&mut self, stmt: &Stmt) -> Result<(), Stop> {
        match stmt {
            Stmt::Assign(tag, name, value) => {
                let number = self.step(*tag, value)?;
                self.state.insert(name.clone(), Value::Number(number));
                Ok(())
            }
            Stmt::If(tag, test, yes, no) => match self.step(*tag, test)? {
                0 => self.block(no),
                _ => self.block(yes),
            },
            Stmt::While(tag, test, body) => {
                while self.step(*tag, test)? != 0 {
                    self.block(body)?;
                }
                Ok(())
            }
            Stmt::Write(tag, out, value) => {
                let number = self.step(*tag, value)?;
                match self.state.entry(out.clone()).or_insert_with(|| Value::List(Vec::new())) {
                    Value::List(written) if written.len() < MOST_WRITTEN => written.push(number),
                    _ => return Err(Stop::Faulty(*tag, Fault::OutputFull)),
                }
                Ok(())
            }
            Stmt::Store(tag, array, index, value) => {
                let at = self.step(*tag, index)?;
                let faulty = |fault| Stop::Faulty(*tag, fault);
                let number = self.eval(value).map_err(faulty)?;
                let at = in_array(at).map_err(faulty)?;
                let place = self.state.entry(array.clone());
                if let Value::Array(cells) = place.or_insert_with(|| Value::Array(Cells::default())) {
                    cells.set(at, number);
                }
                Ok(())
            }
        }
    }

    fn step(&mut self, tag: Tag, expr: &Expr) -> Result<i64, Stop> {
        if self.left == 0 {
            return Err(Stop::Spent);
        }
        self.left -= 1;
        self.eval(expr).map_err(|fault| Stop::Faulty(tag, fault))
    }

    fn eval(&self, expr: &Expr) -> Result<i64, Fault> {
        match expr {
            Expr::Num(number) => Ok(*number),
            Expr::Var(name) => match self.state.get(name) {
                Some(Value::Number(number)) => Ok(*number),
                _ => Ok(0),
            },
            Expr::Prefix(op, operand) => {
                let number = self.eval(operand)?;
                match op {
                    Unary::Neg => number.checked_neg().ok_or(Fault::Overflow),
                    Unary::Not => Ok(i64::from(number == 0)),
                }
            }
            Expr::Infix(op, left, right) => {
                let left = self.eval(left)?;
                infix(*op, left, self.eval(right)?)
            }
            Expr::Elem(array, index) => {
                let at = in_array(self.eval(index)?)?;
                match self.state.get(array) {
                    Some(Value::Array(cells)) => Ok(cells.get(at)),
                    _ => Ok(0),
                }
            }
        }
    }
}

fn in_array(index: i64) -> Result<usize, Fault> {
    match usize::try_from(index) {
        Ok(at) if at < ELEMENTS => Ok(at),
        _ => Err(Fault::IndexRange),
    }
}

fn infix(op: Binary, left: i64, right: i64) -> Result<i64, Fault> {
    match op {
        Binary::Or => Ok(i64::from(left != 0 || right != 0)),
        Binary::And => Ok(i64::from(left != 0 && right != 0)),
        Binary::Equal => Ok(i64::from(left == right)),
        Binary::Differ => Ok(i64::from(left != right)),
        Binary::Less => Ok(i64::from(left < right)),
        Binary::LessEqual => Ok(i64::from(left <= right)),
        Binary::Greater => Ok(i64::from(left > right)),
        Binary::GreaterEqual => Ok(i64::from(left >= right)),
        Binary::Add => left.checked_add(right).ok_or(Fault::Overflow),
        Binary::Sub => left.checked_sub(right).ok_or(Fault::Overflow),
        Binary::Mul => left.checked_mul(right).ok_or(Fault::Overflow),
        Binary::Div | Binary::Rem if right == 0 => Err(Fault::ZeroDivide),
        Binary::Div => left.checked_div(right).ok_or(Fault::Overflow),
        Binary::Rem => left.checked_rem(right).ok_or(Fault::Overflow),
    }
}

// ---- printing
impl Display for Tag {
    fn fmt(&self, out: &mut fmt::Formatter) -> fmt::Result {
        write!(out, "{}.{}", self.0, self.1)
    }
}

impl Display for Fault {
    fn fmt(&self, out: &mut fmt::Formatter) -> fmt::Result {
        out.write_str(match self {
            Fault::Overflow => "overflow",
            Fault::ZeroDivide => "zero-divide",
            Fault::OutputFull => "output-full",
            Fault::IndexRange => "index-range",
        })
    }
}

fn joined(items: impl Iterator<Item = String>) -> String {
    items.collect::<Vec<_>>().join(",")
}

fn value_text(name: &str, value: Option<&Value>) -> String {
    match value {
        Some(Value::Number(number)) => number.to_string(),
        Some(Value::List(numbers)) => format!("[{}]", joined(numbers.iter().map(i64::to_string))),
        Some(Value::Array(cells)) => {
            let entries = (0..ELEMENTS).map(|at| (at, cells.get(at))).filter(|entry| entry.1 != 0);
            format!("{{{}}}", joined(entries.map(|(at, number)| format!("{at}:{number}"))))
        }
        None if name == "out" => "[]".into(),
        None if name.ends_with("[]") => "{}".into(),
        None => "0".into(),
    }
}

fn main() {
    let words: Vec<String> = env::args().skip(1).collect();
    let [file, _, steps] = &words[..] else { panic!("usage: plain FILE --steps N") };
    let text = fs::read_to_string(file).expect("a file");
    let most = steps.parse().expect("a number of steps");
    let (body, finals) = Reader { tokens: tokens(&text), at: 0 }.program();
    let mut run = Run { state: BTreeMap::new(), left: most };
    match run.block(&body) {
        Ok(()) => {
            println!("ended, steps {}", most - run.left);
            for name in finals {
                println!("{name} = {}", value_text(&name, run.state.get(&name)));
            }
        }
        Err(Stop::Faulty(tag, fault)) => println!("faulted {fault} at {tag}, steps {}", most - run.left),
        Err(Stop::Spent) => println!("not ended, steps {most}"),
    }
}
