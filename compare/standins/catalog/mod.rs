//! Stand-in: what the given files take from the catalogues of queries and math functions.

use std::cmp::Ordering;

mod math;

pub use math::{MAX_MATH_ARGS, MathCatalog, MathDecl, MathError, MathImpl, MathRef};

/// The most declarations of a catalogue.
pub(crate) const MAX_DECLS: usize = 65_536;

/// How many arguments a function takes.
#[derive(Copy, Clone, Debug, PartialEq, Eq)]
pub struct Arity(u8);

impl Arity {
    pub const fn exactly(count: u8) -> Self {
        Self(count)
    }

    pub const fn min(self) -> u8 {
        self.0
    }

    pub const fn max(self) -> Option<u8> {
        Some(self.0)
    }
}

/// The positions of declarations in the order of their names.
pub(crate) struct ByName(pub(crate) Vec<u16>);

impl ByName {
    pub(crate) fn new<T>(decls: &[T], name: impl Fn(&T) -> &str) -> Self {
        let mut order: Vec<u16> = (0..=u16::MAX).take(decls.len()).collect();
        order.sort_by(|&a, &b| name(&decls[usize::from(a)]).cmp(name(&decls[usize::from(b)])));
        Self(order)
    }

    pub(crate) fn find<T>(&self, decls: &[T], order: impl Fn(&T) -> Ordering) -> Option<u16> {
        let found = self.0.binary_search_by(|&i| order(&decls[usize::from(i)]));
        found.ok().map(|at| self.0[at])
    }
}

pub(crate) fn is_canonical_name(name: &str, namespace: &str) -> bool {
    name.starts_with(namespace)
}

/// A query's position in its catalogue.
#[derive(Copy, Clone, Debug, PartialEq, Eq)]
pub struct QueryIndex;

/// The catalogue of queries: the float loop makes no call with arguments, so it holds none.
pub struct QueryCatalog;

pub struct QueryDecl;

impl QueryCatalog {
    pub(crate) fn decl(&self, _index: QueryIndex) -> &QueryDecl {
        &QueryDecl
    }
}

impl QueryDecl {
    pub fn name(&self) -> &str {
        "query"
    }
}

/// What a query returns without a subject; no query returns anything here.
pub enum DefaultReturn {
    Float(FloatBits),
    EmptyString,
    EmptyActorArray,
    StructRgba0,
}

pub struct FloatBits(u32);

impl FloatBits {
    pub const fn to_f32(self) -> f32 {
        f32::from_bits(self.0)
    }
}
