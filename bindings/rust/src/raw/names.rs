//! What a program declares, as the library tells it.

use super::Handle;
use crate::declared::Declared;

extern "C" {
    fn stm_program_variables(program: *const Handle) -> usize;
    fn stm_program_conditions(program: *const Handle) -> usize;
    fn stm_program_variable_name(
        program: *const Handle,
        variable: u32,
        room: *mut u8,
        room_length: usize,
        wanted: *mut usize,
    ) -> i32;
    fn stm_program_table_name(
        program: *const Handle,
        table: u32,
        room: *mut u8,
        room_length: usize,
        wanted: *mut usize,
    ) -> i32;
    fn stm_program_condition_name(
        program: *const Handle,
        condition: u32,
        room: *mut u8,
        room_length: usize,
        wanted: *mut usize,
    ) -> i32;
    fn stm_program_transaction_name(
        program: *const Handle,
        transaction: u32,
        room: *mut u8,
        room_length: usize,
        wanted: *mut usize,
    ) -> i32;
    fn stm_program_parameter_name(
        program: *const Handle,
        transaction: u32,
        parameter: u32,
        room: *mut u8,
        room_length: usize,
        wanted: *mut usize,
    ) -> i32;
}

/// What the program declares that this handle holds.
pub(super) fn declared(program: &Handle) -> Declared {
    // SAFETY, for each call below: the handle and the room are borrowed for it; the library tests the numbers.
    let variables = unsafe { stm_program_variables(program) };
    let conditions = unsafe { stm_program_conditions(program) };
    Declared {
        variables: names(variables, |at, room, wanted| unsafe {
            stm_program_variable_name(program, at, room.as_mut_ptr(), room.len(), wanted)
        }),
        tables: names(unsafe { super::stm_program_tables(program) }, |at, room, wanted| unsafe {
            stm_program_table_name(program, at, room.as_mut_ptr(), room.len(), wanted)
        })
        .into_iter()
        .zip(0..)
        .map(|(name, table)| (name, unsafe { super::stm_program_cells(program, table) } as u32))
        .collect(),
        conditions: names(conditions, |at, room, wanted| unsafe {
            stm_program_condition_name(program, at, room.as_mut_ptr(), room.len(), wanted)
        }),
        transactions: names(unsafe { super::stm_program_transactions(program) }, |at, room, wanted| unsafe {
            stm_program_transaction_name(program, at, room.as_mut_ptr(), room.len(), wanted)
        })
        .into_iter()
        .zip(0..)
        .map(|(name, transaction)| (name, parameters(program, transaction)))
        .collect(),
    }
}

fn parameters(program: &Handle, transaction: u32) -> Vec<String> {
    // SAFETY: as in `declared`.
    let count = unsafe { super::stm_program_parameters(program, transaction) };
    names(count as usize, |at, room, wanted| unsafe {
        stm_program_parameter_name(program, transaction, at, room.as_mut_ptr(), room.len(), wanted)
    })
}

/// So many names, each copied by the call.
fn names(count: usize, call: impl Fn(u32, &mut [u8], &mut usize) -> i32) -> Vec<String> {
    (0..count as u32)
        .map(|at| super::text_or_code(|room, wanted| call(at, room, wanted)))
        .map(|name| {
            name.unwrap_or_else(|code| unreachable!("the library answers {code} for a name that is there"))
        })
        .collect()
}
