//! A plain Rust program for comparison: it reads a text, builds its diagram and prints it, as `print F` does, with the
//! same data (tokens, a tree, 128-bit numbers) but without any check of faults or of overflow. Only for texts that
//! `print` accepts.
//!
//!     rustc -O -o plain bench/plain.rs && time ./plain F
use std::collections::HashMap;
use std::io::Write;

#[derive(Clone, Copy, PartialEq)]
enum Kind {
    Word,
    Text,
    Number,
    Mark(u8),
}

#[derive(Clone, Copy)]
struct Token {
    kind: Kind,
    start: usize,
    end: usize,
}

enum Value {
    Leaf(Token),
    List(Vec<Value>),
}

struct Block {
    kind: Token,
    names: Vec<Token>,
    attributes: Vec<(Token, Value)>,
}

fn is_run(b: u8) -> bool {
    b.is_ascii_alphanumeric() || matches!(b, b'_' | b'.' | b'+' | b'-')
}

fn lex(text: &[u8]) -> Vec<Token> {
    let (mut tokens, mut at) = (Vec::new(), 0);
    while at < text.len() {
        let start = at;
        let kind = match text[at] {
            b' ' | b'\t' | b'\r' | b'\n' => {
                at += 1;
                continue;
            }
            b'%' => {
                while at < text.len() && text[at] != b'\n' {
                    at += 1;
                }
                continue;
            }
            b'"' => {
                at += 1;
                while text[at] != b'"' {
                    at += if text[at] == b'\\' { 2 } else { 1 };
                }
                at += 1;
                Kind::Text
            }
            b if is_run(b) => {
                while at < text.len() && is_run(text[at]) {
                    at += 1;
                }
                if b.is_ascii_alphabetic() || b == b'_' { Kind::Word } else { Kind::Number }
            }
            b => {
                at += 1;
                Kind::Mark(b)
            }
        };
        tokens.push(Token { kind, start, end: at });
    }
    tokens
}

fn value(tokens: &[Token], at: &mut usize) -> Value {
    let token = tokens[*at];
    *at += 1;
    if token.kind != Kind::Mark(b'(') {
        return Value::Leaf(token);
    }
    let mut values = Vec::new();
    while tokens[*at].kind != Kind::Mark(b')') {
        values.push(value(tokens, at));
    }
    *at += 1;
    Value::List(values)
}

fn parse(tokens: &[Token]) -> Vec<Block> {
    let (mut blocks, mut at) = (Vec::new(), 0);
    while at < tokens.len() {
        let mut block = Block { kind: tokens[at], names: Vec::new(), attributes: Vec::new() };
        at += 1;
        while tokens[at].kind != Kind::Mark(b'{') {
            if tokens[at].kind == Kind::Word {
                block.names.push(tokens[at]);
            }
            at += 1;
        }
        at += 1;
        while tokens[at].kind != Kind::Mark(b'}') {
            let name = tokens[at];
            at += 2;
            block.attributes.push((name, value(tokens, &mut at)));
            at += 1;
        }
        at += 1;
        blocks.push(block);
    }
    blocks
}

fn leaves(value: &Value, out: &mut Vec<Token>) {
    match value {
        Value::Leaf(token) => out.push(*token),
        Value::List(values) => values.iter().for_each(|v| leaves(v, out)),
    }
}

/// The number as m / 10^k, without exponents.
fn decimal(text: &[u8]) -> (i128, u32) {
    let (mut m, mut k, mut behind) = (0i128, 0, false);
    for b in text {
        match b {
            b'.' => behind = true,
            b'0'..=b'9' => {
                m = m * 10 + (b - b'0') as i128;
                k += behind as u32;
            }
            _ => {}
        }
    }
    while k > 0 && m % 10 == 0 {
        m /= 10;
        k -= 1;
    }
    (if text[0] == b'-' { -m } else { m }, k)
}

fn gcd(mut a: u128, mut b: u128) -> u128 {
    while b != 0 {
        (a, b) = (b, a % b);
    }
    a
}

/// The reduced rows, and each brought to one total.
fn weights(numbers: &[(i128, u32)], states: usize) -> Vec<i128> {
    let (mut reduced, mut total) = (Vec::with_capacity(numbers.len()), 1u128);
    for row in numbers.chunks(states) {
        let most = row.iter().map(|n| n.1).max().unwrap();
        let mut divisor = 0;
        let first = reduced.len();
        for (m, k) in row {
            let raised = *m as u128 * 10u128.pow(most - k);
            divisor = if divisor == 1 { 1 } else { gcd(divisor, raised) };
            reduced.push(raised);
        }
        if divisor != 1 {
            reduced[first..].iter_mut().for_each(|n| *n /= divisor);
        }
        let sum: u128 = reduced[first..].iter().sum();
        total = total / gcd(total, sum) * sum;
    }
    let mut cells = Vec::with_capacity(reduced.len());
    for row in reduced.chunks(states) {
        let factor = total / row.iter().sum::<u128>();
        cells.extend(row.iter().map(|n| (n * factor) as i128));
    }
    cells
}

fn push_value(out: &mut Vec<u8>, cell: i128, scale: u32) {
    let (mut size, mut k) = (cell.unsigned_abs(), scale);
    while k > 0 && size % 10 == 0 {
        size /= 10;
        k -= 1;
    }
    if cell < 0 {
        out.push(b'-');
    }
    let unit = 10u128.pow(k);
    write!(out, "{}", size / unit).unwrap();
    if k > 0 {
        write!(out, ".{:0width$}", size % unit, width = k as usize).unwrap();
    }
}

fn main() {
    let text = std::fs::read(std::env::args().nth(1).expect("a file")).expect("bytes");
    let tokens = lex(&text);
    let blocks = parse(&tokens);
    let bytes = |t: &Token| &text[t.start..t.end];
    let nodes: Vec<&Block> = blocks.iter().filter(|b| matches!(bytes(&b.kind), b"node" | b"decision" | b"utility")).collect();
    let places: HashMap<&[u8], usize> = nodes.iter().enumerate().map(|(v, b)| (bytes(&b.names[0]), v)).collect();
    let mut potentials = vec![None; nodes.len()];
    for block in blocks.iter().filter(|b| bytes(&b.kind) == b"potential") {
        potentials[places[bytes(&block.names[0])]] = Some(block);
    }
    let attribute = |block: &Block, name: &[u8]| {
        let mut found = Vec::new();
        if let Some((_, value)) = block.attributes.iter().find(|(n, _)| bytes(n) == name) {
            leaves(value, &mut found);
        }
        found
    };
    let labels: Vec<Vec<Token>> = nodes.iter().map(|b| attribute(b, b"states")).collect();
    let is_utility = |v: usize| bytes(&nodes[v].kind) == b"utility";
    let numbers: Vec<Vec<(i128, u32)>> = potentials
        .iter()
        .map(|p| p.map_or(Vec::new(), |p| attribute(p, b"data").iter().map(|t| decimal(bytes(t))).collect()))
        .collect();
    let scale = (0..nodes.len()).filter(|v| is_utility(*v)).flat_map(|v| numbers[v].iter().map(|n| n.1)).max().unwrap_or(0);
    let cells: Vec<Vec<i128>> = (0..nodes.len())
        .map(|v| match bytes(&nodes[v].kind) {
            b"node" => weights(&numbers[v], labels[v].len()),
            b"utility" => numbers[v].iter().map(|(m, k)| m * 10i128.pow(scale - k)).collect(),
            _ => Vec::new(),
        })
        .collect();
    let mut out = Vec::new();
    for (v, block) in nodes.iter().enumerate() {
        write!(out, "{} {} {{ ", String::from_utf8_lossy(bytes(&block.kind)), String::from_utf8_lossy(bytes(&block.names[0]))).unwrap();
        if !is_utility(v) {
            out.extend_from_slice(b"states = (");
            for (i, label) in labels[v].iter().enumerate() {
                out.extend_from_slice(if i > 0 { b" " } else { b"" });
                out.extend_from_slice(bytes(label));
            }
            out.extend_from_slice(b"); ");
        }
        if bytes(&block.kind) != b"node" {
            let agent = attribute(block, b"agent");
            out.extend_from_slice(b"agent = ");
            out.extend_from_slice(agent.first().map_or(b"\"agent\"", |t| bytes(t)));
            out.extend_from_slice(b"; ");
        }
        out.extend_from_slice(b"}\n");
    }
    for (v, block) in nodes.iter().enumerate() {
        out.extend_from_slice(b"potential (");
        out.extend_from_slice(bytes(&block.names[0]));
        let parents = potentials[v].map_or(&[][..], |p| &p.names[1..]);
        for (i, parent) in parents.iter().enumerate() {
            out.extend_from_slice(if i > 0 { b" " } else { b" | " });
            out.extend_from_slice(bytes(parent));
        }
        out.extend_from_slice(b") { ");
        if !cells[v].is_empty() {
            out.extend_from_slice(b"data = (");
            let width = if is_utility(v) { cells[v].len() } else { labels[v].len() };
            for (r, row) in cells[v].chunks(width).enumerate() {
                let divisor = row.iter().fold(0, |d, x| if d == 1 { 1 } else { gcd(d, x.unsigned_abs()) });
                for (i, x) in row.iter().enumerate() {
                    if r + i > 0 {
                        out.push(b' ');
                    }
                    if is_utility(v) {
                        push_value(&mut out, *x, scale);
                    } else {
                        write!(out, "{}", x.unsigned_abs() / divisor).unwrap();
                    }
                }
            }
            out.extend_from_slice(b"); ");
        }
        out.extend_from_slice(b"}\n");
    }
    std::io::stdout().write_all(&out).unwrap();
}
