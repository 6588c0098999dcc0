#![doc = include_str!("../README.md")]
#![no_std]
#![deny(unsafe_code)]

#[forbid(unsafe_code)]
mod answer;
#[forbid(unsafe_code)]
mod book;
#[forbid(unsafe_code)]
mod calls;
#[forbid(unsafe_code)]
mod cell;
#[forbid(unsafe_code)]
mod field;
#[forbid(unsafe_code)]
mod field_name;
#[forbid(unsafe_code)]
mod layout;
mod library;
#[forbid(unsafe_code)]
mod list;
#[forbid(unsafe_code)]
mod order;
#[forbid(unsafe_code)]
mod refusal;
#[forbid(unsafe_code)]
mod row_place;
#[forbid(unsafe_code)]
mod rule;
#[forbid(unsafe_code)]
mod space;
#[forbid(unsafe_code)]
mod values;

pub use answer::{Answer, AnswerIter, Answers, Outcome, Status};
pub use book::{Book, Sheet};
pub use calls::{check, run};
pub use cell::Cell;
pub use field::Field;
pub use field_name::FieldName;
pub use library::{check_number, run_number};
pub use list::{Full, OrderIter, OrderList};
pub use order::{Order, OrderRefusal};
pub use refusal::Refusal;
pub use row_place::RowPlace;
pub use space::{space_for, Space};
pub use values::{ValueIter, Values};
