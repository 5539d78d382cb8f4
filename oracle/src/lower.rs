//! The cut `LoweredOp`: the operators that `Poly::from_lowered` and `Poly::to_lowered` name, and one (`Exp`) that stands for every other.
//! The values of `NamedConst` are not in the text that was handed over; its stub has none.

use std::sync::Arc;

/// A stub: no named constant can be made.
#[derive(Clone, Debug, PartialEq)]
pub enum NamedConst {}

impl NamedConst {
    pub fn value(&self) -> f64 {
        match *self {}
    }
}

#[derive(Clone, Debug, PartialEq)]
pub enum LoweredOp {
    Const(f64),
    Var(usize),
    Add(Arc<LoweredOp>, Arc<LoweredOp>),
    Sub(Arc<LoweredOp>, Arc<LoweredOp>),
    Mul(Arc<LoweredOp>, Arc<LoweredOp>),
    Pow(Arc<LoweredOp>, Arc<LoweredOp>),
    Neg(Arc<LoweredOp>),
    NamedConst(NamedConst),
    Exp(Arc<LoweredOp>),
}
