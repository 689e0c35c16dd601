//! The vectors as text: tokens, rows of them, rows in columns, files of rows.

mod book;
mod columns;
mod file;
mod row;
mod token;

pub use self::{
    book::Book,
    file::{File, said},
    row::Row,
    token::{Token, numbers},
};
