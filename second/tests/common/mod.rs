//! One read or write with a layout of its own, and the answers to hold it to.

use second::field::{self, Reading, Written};
use second::layout::{Layouts, Shape};
use second::refusal::Refusal;

pub fn read(shape: &Shape, cells: &[u8]) -> Result<Reading, Refusal> {
    field::read(shape, cells, &mut Layouts::default())
}

pub fn write(shape: &Shape, number: u64, cells: &[u8]) -> Result<Written, Refusal> {
    field::write(shape, number, cells, &mut Layouts::default())
}

pub fn written(generation: usize, turned: u64, cells: &[u8]) -> Result<Written, Refusal> {
    Ok(Written {
        generation,
        turned,
        cells: cells.to_vec(),
    })
}

pub fn miscounted<T>(generation: usize, unerased: usize) -> Result<T, Refusal> {
    Err(Refusal::Miscounted {
        generation,
        unerased,
    })
}

pub fn beyond<T>(generation: usize) -> Result<T, Refusal> {
    Err(Refusal::Beyond { generation })
}

pub fn reading(generation: usize, number: u64, left: usize) -> Result<Reading, Refusal> {
    Ok(Reading {
        generation,
        number,
        left,
    })
}
