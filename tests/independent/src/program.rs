//! Reading the program of a job.

use crate::reader::*;
use crate::templates::{Templates, GAPS};

pub const VARIABLES: u8 = 4;
const POINTS: usize = 32;

/// Operands in the order of the documents.
#[derive(Clone, Copy, Debug)]
pub enum Statement {
    Copy(u8, u8),
    Template(u8, u8),
    CopyString(u8, u8),
    String(u8, u8),
    AnyString(u8),
    Plug(u8, u8, u8, u8),
    PlugString(u8, u8, u8, u8),
    Show(u8),
    Framed(u8, u8, u8),
    Stop,
}

#[derive(Clone, Copy)]
pub struct Point {
    pub at: usize,
    pub statement: Statement,
    /// Without meaning at a stop.
    pub next: [u8; 2],
}

impl Point {
    pub fn steps(&self) -> &[u8] {
        match self.statement {
            Statement::Stop => &[],
            _ => &self.next,
        }
    }

    /// The variables named, numbered as in `40`, as a set.
    fn names(&self) -> u8 {
        let x = |x: u8| 1u8 << x;
        let y = |y: u8| 1u8 << (VARIABLES + y);
        match self.statement {
            Statement::Copy(to, from) => x(to) | x(from),
            Statement::Template(to, _) => x(to),
            Statement::Show(shown) | Statement::Framed(shown, _, _) => x(shown),
            Statement::CopyString(to, from) => y(to) | y(from),
            Statement::String(to, _) | Statement::AnyString(to) => y(to),
            Statement::Plug(to, from, _, plugged) => x(to) | x(from) | x(plugged),
            Statement::PlugString(to, from, _, plugged) => x(to) | x(from) | y(plugged),
            Statement::Stop => 0,
        }
    }
}

pub struct Program {
    pub points: Vec<Point>,
    /// The variables that some statement names.
    pub named: u8,
}

impl Program {
    pub fn read(reader: &mut Reader, templates: &Templates) -> Result<Program, Fault> {
        let mut points: Vec<Point> = Vec::new();
        loop {
            let at = reader.at;
            let command = reader.command()?;
            if command == 0x3F && !points.is_empty() {
                reader.at += 1;
                break;
            }
            let (statement, next) = statement(reader, command, templates)?;
            if points.len() == POINTS {
                return Err(Fault::new(TOO_MANY, at));
            }
            points.push(Point { at, statement, next });
        }
        let there = |point: &Point| point.steps().iter().all(|&next| (next as usize) < points.len());
        if let Some(point) = points.iter().find(|point| !there(point)) {
            return Err(Fault::new(NOT_THERE, point.at));
        }
        let named = points.iter().fold(0, |named, point| named | point.names());
        Ok(Program { points, named })
    }
}

fn statement(reader: &mut Reader, command: u8, templates: &Templates) -> Result<(Statement, [u8; 2]), Fault> {
    let at = reader.at;
    let in_range = |operand: u8, below: u8| if operand < below { Ok(()) } else { Err(Fault::new(OUT_OF_RANGE, at)) };
    let variables = |list: &[u8]| list.iter().try_for_each(|&variable| in_range(variable, VARIABLES));
    let there = |t: u8| if templates.is_there(t) { Ok(()) } else { Err(Fault::new(NOT_THERE, at)) };
    match command {
        0x30 | 0x32 => {
            let [to, from, p, q] = reader.operands()?;
            variables(&[to, from])?;
            let copy = if command == 0x30 { Statement::Copy } else { Statement::CopyString };
            Ok((copy(to, from), [p, q]))
        }
        0x31 => {
            let [to, template, p, q] = reader.operands()?;
            variables(&[to])?;
            there(template)?;
            Ok((Statement::Template(to, template), [p, q]))
        }
        0x33 => {
            let [to, string, p, q] = reader.operands()?;
            variables(&[to])?;
            in_range(string, 64)?;
            Ok((Statement::String(to, string), [p, q]))
        }
        0x34 | 0x37 => {
            let [variable, p, q] = reader.operands()?;
            variables(&[variable])?;
            let statement = if command == 0x34 { Statement::AnyString } else { Statement::Show };
            Ok((statement(variable), [p, q]))
        }
        0x35 | 0x36 => {
            let [to, from, gap, plugged, p, q] = reader.operands()?;
            variables(&[to, from, plugged])?;
            in_range(gap, GAPS)?;
            let plug = if command == 0x35 { Statement::Plug } else { Statement::PlugString };
            Ok((plug(to, from, gap, plugged), [p, q]))
        }
        0x38 => {
            reader.at += 1;
            Ok((Statement::Stop, [0, 0]))
        }
        0x39 => {
            let [shown, template, gap, p, q] = reader.operands()?;
            variables(&[shown])?;
            in_range(gap, GAPS)?;
            there(template)?;
            Ok((Statement::Framed(shown, template, gap), [p, q]))
        }
        _ => Err(Fault::new(NOT_ALLOWED, at)),
    }
}
