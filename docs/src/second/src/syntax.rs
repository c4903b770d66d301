//! Programs as trees, and the tables that they are written as. Only for making inputs.

#[derive(Clone, Copy, Debug, PartialEq, Eq)]
pub enum Param {
    Var(u32),
    Const(i32),
}

#[derive(Clone, Debug, PartialEq, Eq)]
pub enum Expr {
    Stop,
    Site(u16, Vec<Param>),
    Call(u16, Vec<Param>),
    Fork(Box<Expr>, Box<Expr>),
    Sequence(Box<Expr>, Box<Expr>),
    Prune(Box<Expr>, Box<Expr>),
}

#[derive(Clone, Debug)]
pub struct Program {
    /// Count of formals and body.
    pub definitions: Vec<(u32, Expr)>,
    pub goal: Expr,
}

/// An entry as it is written: kind and operand.
pub type Row = (u8, u32);

pub fn fork(f: Expr, g: Expr) -> Expr {
    Expr::Fork(Box::new(f), Box::new(g))
}

pub fn sequence(f: Expr, g: Expr) -> Expr {
    Expr::Sequence(Box::new(f), Box::new(g))
}

pub fn prune(f: Expr, g: Expr) -> Expr {
    Expr::Prune(Box::new(f), Box::new(g))
}

pub fn signal() -> Expr {
    Expr::Site(3, vec![])
}

pub fn give(param: Param) -> Expr {
    Expr::Site(0, vec![param])
}

pub fn rwait(param: Param) -> Expr {
    Expr::Site(7, vec![param])
}

impl Program {
    pub fn new(goal: Expr) -> Program {
        Program { definitions: vec![], goal }
    }

    pub fn rows(&self) -> Vec<Row> {
        let mut rows = Vec::new();
        for (formals, body) in &self.definitions {
            rows.push((6, *formals));
            write(body, &mut rows);
        }
        write(&self.goal, &mut rows);
        rows
    }

    pub fn bytes(&self) -> Vec<u8> {
        encode(self.definitions.len() as u16, &self.rows())
    }
}

fn write(expr: &Expr, rows: &mut Vec<Row>) {
    match expr {
        Expr::Stop => rows.push((0, 0)),
        Expr::Site(number, params) => write_call(1, *number, params, rows),
        Expr::Call(number, params) => write_call(2, *number, params, rows),
        Expr::Fork(f, g) => write_pair(3, f, g, rows),
        Expr::Sequence(f, g) => write_pair(4, f, g, rows),
        Expr::Prune(f, g) => write_pair(5, f, g, rows),
    }
}

fn write_call(kind: u8, number: u16, params: &[Param], rows: &mut Vec<Row>) {
    rows.push((kind, number as u32 | (params.len() as u32) << 16));
    rows.extend(params.iter().map(|param| match *param {
        Param::Var(number) => (7, number),
        Param::Const(value) => (8, value as u32),
    }));
}

fn write_pair(kind: u8, f: &Expr, g: &Expr, rows: &mut Vec<Row>) {
    rows.push((kind, 0));
    write(f, rows);
    write(g, rows);
}

/// Header, kinds, operands.
pub fn encode(definitions: u16, rows: &[Row]) -> Vec<u8> {
    let mut bytes = definitions.to_le_bytes().to_vec();
    bytes.extend((rows.len() as u16).to_le_bytes());
    bytes.extend(rows.iter().map(|row| row.0));
    bytes.extend(rows.iter().flat_map(|row| row.1.to_le_bytes()));
    bytes
}

/// Appends a record: an answer, or with the handle `lines::CLOCK` a clock move.
pub fn append_record(bytes: &mut Vec<u8>, handle: u32, value: i32) {
    bytes.extend(handle.to_le_bytes());
    bytes.extend(value.to_le_bytes());
}
