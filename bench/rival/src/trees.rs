//! Trees of formulas, as `12*-3-45+6`, by `precedence`.

use crate::language::{binary_op, precedence, unary_op, Assoc, Operation};
use crate::{list, Case, Round};
use nom::branch::alt;
use nom::character::complete::{char, one_of, u32};
use nom::combinator::{fail, map};
use nom::multi::many0;
use nom::sequence::terminated;
use nom::{IResult, Parser};

/// How far the end of the first formula is looked for.
const HEAD: usize = 256;

/// A formula.
#[allow(dead_code)]
enum Tree {
    Number(u32),
    Negated(Box<Tree>),
    Joined(Box<Tree>, char, Box<Tree>),
}

/// The tree of an operation.
fn joined(operation: Operation<char, (), char, Tree>) -> Result<Tree, ()> {
    Ok(match operation {
        Operation::Prefix(_, x) => Tree::Negated(Box::new(x)),
        Operation::Postfix(x, _) => x,
        Operation::Binary(x, operator, y) => Tree::Joined(Box::new(x), operator, Box::new(y)),
    })
}

fn formula(input: &str) -> IResult<&str, Tree> {
    let number = map(u32, Tree::Number);
    let binary = alt((
        binary_op(2, Assoc::Left, char('*')),
        binary_op(3, Assoc::Left, one_of("+-")),
    ));
    precedence(unary_op(1, char('-')), fail(), binary, number, joined)(input)
}

/// Whether the first line of a text is short. A tree of a long sum is as deep, and so is the stack that drops it.
fn is_short(text: &str) -> bool {
    let bytes = text.as_bytes();
    bytes[..bytes.len().min(HEAD)].contains(&b'\n')
}

#[inline(never)]
fn by_trees(text: &str) -> Option<Round> {
    if !is_short(text) {
        return None;
    }
    list(many0(terminated(formula, char('\n'))), text)
}

pub const CASES: [Case; 1] = [Case::new("trees", "trees", "no trees", |it| by_trees(it.text))];
