//! What nom-language has: an error that keeps all that led to it, and expressions by the precedence of their operators.

use nom::error::{ContextError, ErrorKind, FromExternalError, ParseError};
use nom::{Err, IResult, Parser};

/// What was wrong at a place, and around it.
#[derive(Debug)]
#[allow(dead_code)]
pub enum VerboseErrorKind {
    Context(&'static str),
    Char(char),
    Nom(ErrorKind),
}

/// An error with a list of places.
#[derive(Debug)]
pub struct VerboseError<I> {
    pub errors: Vec<(I, VerboseErrorKind)>,
}

impl<I> ParseError<I> for VerboseError<I> {
    fn from_error_kind(input: I, kind: ErrorKind) -> Self {
        VerboseError {
            errors: vec![(input, VerboseErrorKind::Nom(kind))],
        }
    }

    fn append(input: I, kind: ErrorKind, mut other: Self) -> Self {
        other.errors.push((input, VerboseErrorKind::Nom(kind)));
        other
    }

    fn from_char(input: I, c: char) -> Self {
        VerboseError {
            errors: vec![(input, VerboseErrorKind::Char(c))],
        }
    }
}

impl<I> ContextError<I> for VerboseError<I> {
    fn add_context(input: I, ctx: &'static str, mut other: Self) -> Self {
        other.errors.push((input, VerboseErrorKind::Context(ctx)));
        other
    }
}

impl<I, E> FromExternalError<I, E> for VerboseError<I> {
    fn from_external_error(input: I, kind: ErrorKind, _e: E) -> Self {
        Self::from_error_kind(input, kind)
    }
}

/// How operators of one precedence are grouped.
#[derive(PartialEq, Clone, Copy)]
#[allow(dead_code)]
pub enum Assoc {
    Left,
    Right,
}

/// An operator before or after an operand.
pub struct Unary<V> {
    value: V,
    precedence: usize,
}

/// An operator between operands.
pub struct Binary<V> {
    value: V,
    precedence: usize,
    assoc: Assoc,
}

/// An operator with its operands.
pub enum Operation<P1, P2, P3, O> {
    Prefix(P1, O),
    Postfix(O, P2),
    Binary(O, P3, O),
}

#[allow(dead_code)]
enum Operator<P1, P2, P3> {
    Prefix(P1, usize),
    Postfix(P2, usize),
    Binary(P3, usize, Assoc),
}

impl<P1, P2, P3> Operator<P1, P2, P3> {
    fn precedence(&self) -> usize {
        match self {
            Operator::Prefix(_, p) => *p,
            Operator::Postfix(_, p) => *p,
            Operator::Binary(_, p, _) => *p,
        }
    }

    fn is_postfix(&self) -> bool {
        matches!(self, Operator::Postfix(_, _))
    }
}

/// An operator before or after an operand: a lower precedence binds tighter.
pub fn unary_op<I, O, E, P>(
    precedence: usize,
    mut parser: P,
) -> impl FnMut(I) -> IResult<I, Unary<O>, E>
where
    P: Parser<I, Output = O, Error = E>,
{
    move |input| {
        parser
            .parse(input)
            .map(|(i, value)| (i, Unary { value, precedence }))
    }
}

/// An operator between operands.
pub fn binary_op<I, O, E, P>(
    precedence: usize,
    assoc: Assoc,
    mut parser: P,
) -> impl FnMut(I) -> IResult<I, Binary<O>, E>
where
    P: Parser<I, Output = O, Error = E>,
{
    move |input| {
        parser.parse(input).map(|(i, value)| {
            (
                i,
                Binary {
                    value,
                    precedence,
                    assoc,
                },
            )
        })
    }
}

/// Takes the last operator and its operands, and puts the value of the operation in their place.
fn fold_last<I, O, E, E2, G, P1, P2, P3>(
    start: &I,
    place: &I,
    operands: &mut Vec<O>,
    operators: &mut Vec<Operator<P1, P2, P3>>,
    fold: &mut G,
) -> Result<(), Err<E>>
where
    I: Clone,
    E: ParseError<I> + FromExternalError<I, E2>,
    G: FnMut(Operation<P1, P2, P3, O>) -> Result<O, E2>,
{
    let value = operands.pop().unwrap();
    let operation = match operators.pop().unwrap() {
        Operator::Prefix(op, _) => Operation::Prefix(op, value),
        Operator::Postfix(op, _) => Operation::Postfix(value, op),
        Operator::Binary(op, _, _) => match operands.pop() {
            Some(lhs) => Operation::Binary(lhs, op, value),
            None => {
                return Err(Err::Error(E::from_error_kind(
                    place.clone(),
                    ErrorKind::Precedence,
                )))
            }
        },
    };
    match fold(operation) {
        Err(e) => Err(Err::Error(E::from_external_error(
            start.clone(),
            ErrorKind::Precedence,
            e,
        ))),
        Ok(value) => {
            operands.push(value);
            Ok(())
        }
    }
}

/// Parses operands with operators before, after and between them.
pub fn precedence<I, O, E, E2, F, G, H1, H3, H2, P1, P2, P3>(
    mut prefix: H1,
    mut postfix: H2,
    mut binary: H3,
    mut operand: F,
    mut fold: G,
) -> impl FnMut(I) -> IResult<I, O, E>
where
    I: Clone + PartialEq,
    E: ParseError<I> + FromExternalError<I, E2>,
    F: Parser<I, Output = O, Error = E>,
    G: FnMut(Operation<P1, P2, P3, O>) -> Result<O, E2>,
    H1: Parser<I, Output = Unary<P1>, Error = E>,
    H2: Parser<I, Output = Unary<P2>, Error = E>,
    H3: Parser<I, Output = Binary<P3>, Error = E>,
{
    move |i| {
        let mut operands = Vec::new();
        let mut operators = Vec::new();
        let mut i1 = i.clone();

        'main: loop {
            loop {
                match prefix.parse(i1.clone()) {
                    Err(Err::Error(_)) => break,
                    Err(e) => return Err(e),
                    Ok((i2, o)) => {
                        if i2 == i1 {
                            return Err(Err::Error(E::from_error_kind(i1, ErrorKind::Precedence)));
                        }
                        i1 = i2;
                        operators.push(Operator::Prefix(o.value, o.precedence));
                    }
                }
            }

            let (i2, o) = match operand.parse(i1.clone()) {
                Ok((i, o)) => (i, o),
                Err(Err::Error(e)) => {
                    return Err(Err::Error(E::append(i, ErrorKind::Precedence, e)))
                }
                Err(e) => return Err(e),
            };
            i1 = i2;
            operands.push(o);

            loop {
                match postfix.parse(i1.clone()) {
                    Err(Err::Error(_)) => break,
                    Err(e) => return Err(e),
                    Ok((i2, o)) => {
                        if i2 == i1 {
                            return Err(Err::Error(E::from_error_kind(i1, ErrorKind::Precedence)));
                        }
                        while operators
                            .last()
                            .map(|op| op.precedence() <= o.precedence)
                            .unwrap_or(false)
                        {
                            fold_last(&i, &i1, &mut operands, &mut operators, &mut fold)?;
                        }
                        i1 = i2;
                        operators.push(Operator::Postfix(o.value, o.precedence));
                    }
                }
            }

            match binary.parse(i1.clone()) {
                Err(Err::Error(_)) => break 'main,
                Err(e) => return Err(e),
                Ok((i2, o)) => {
                    while operators
                        .last()
                        .map(|op| {
                            op.precedence() < o.precedence
                                || (o.assoc == Assoc::Left && op.precedence() == o.precedence)
                                || (op.is_postfix())
                        })
                        .unwrap_or(false)
                    {
                        fold_last(&i, &i1, &mut operands, &mut operators, &mut fold)?;
                    }
                    operators.push(Operator::Binary(o.value, o.precedence, o.assoc));
                    i1 = i2;
                }
            }

            if i1 == i {
                return Err(Err::Error(E::from_error_kind(i, ErrorKind::Precedence)));
            }
        }

        while !operators.is_empty() {
            fold_last(&i, &i1, &mut operands, &mut operators, &mut fold)?;
        }
        if operands.len() == 1 {
            Ok((i1, operands.pop().unwrap()))
        } else {
            Err(Err::Error(E::from_error_kind(i, ErrorKind::Precedence)))
        }
    }
}
