//! The refusals of lay, cut and send, told apart by the end or the buffer that they are about.

use crate::model::answer::Answer;
use std::fmt;

/// An end of a call: a cut and a send have only a near one.
#[derive(Clone, Copy, Debug, PartialEq, Eq)]
pub enum Which {
    /// The first that is named.
    Near,
    /// The second.
    Far,
}

/// What is lent.
#[derive(Clone, Copy, Debug, PartialEq, Eq)]
pub enum Part {
    /// The table.
    Table,
    /// The record of an end's domain.
    Record(Which),
}

/// A refusal; nothing is changed by it.
#[derive(Clone, Copy, Debug, PartialEq, Eq)]
pub enum Refusal {
    /// 23: a domain number of 40 or more.
    BadDomain(Which),
    /// 24: both ends in one domain.
    SameDomain,
    /// 64: fewer bytes lent than the table or a record has.
    TooShort(Part),
    /// 10, 3, 14 or 4 of an end.
    Port(Which, Answer),
    /// 25: the end is already taken.
    Taken(Which),
    /// 26: no cable at the end.
    NoCable,
    /// 34: no slot is free.
    TableFull,
}

use Part::{Record, Table};
use Refusal::{BadDomain, NoCable, Port, SameDomain, TableFull, Taken, TooShort};
use Which::{Far, Near};

impl Refusal {
    /// Every refusal of lay, in its order.
    pub const LAY: [Refusal; 17] = [
        BadDomain(Near),
        BadDomain(Far),
        SameDomain,
        TooShort(Table),
        TooShort(Record(Near)),
        TooShort(Record(Far)),
        Port(Near, Answer::NotGiven),
        Port(Near, Answer::BadPort),
        Port(Near, Answer::NoEntry),
        Port(Near, Answer::NotBound),
        Port(Far, Answer::NotGiven),
        Port(Far, Answer::BadPort),
        Port(Far, Answer::NoEntry),
        Port(Far, Answer::NotBound),
        Taken(Near),
        Taken(Far),
        TableFull,
    ];

    /// Every refusal of cut and of send, in its order.
    pub const NEAR: [Refusal; 8] = [
        BadDomain(Near),
        TooShort(Table),
        TooShort(Record(Near)),
        Port(Near, Answer::NotGiven),
        Port(Near, Answer::BadPort),
        Port(Near, Answer::NoEntry),
        Port(Near, Answer::NotBound),
        NoCable,
    ];

    /// Its number.
    pub fn number(self) -> u32 {
        match self {
            BadDomain(_) => 23,
            SameDomain => 24,
            TooShort(_) => 64,
            Port(_, answer) => answer.number(),
            Taken(_) => 25,
            NoCable => 26,
            TableFull => 34,
        }
    }
}

impl fmt::Display for Refusal {
    fn fmt(&self, out: &mut fmt::Formatter<'_>) -> fmt::Result {
        let about = match self {
            SameDomain | NoCable | TableFull => "",
            TooShort(Table) => ", table",
            TooShort(Record(Near)) => ", near record",
            TooShort(Record(Far)) => ", far record",
            BadDomain(Near) | Port(Near, _) | Taken(Near) => ", near",
            BadDomain(Far) | Port(Far, _) | Taken(Far) => ", far",
        };
        write!(out, "{}{about}", self.number())
    }
}
