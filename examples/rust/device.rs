//! A device of Modbus TCP and a unit of a line in Rust, over the library for C: bytes in, and bytes out.
//!
//! What `modbus.h` says is owed is kept by the types: a `Tables` borrows its arrays, so no call outlives them, and no two of them overlap.

use std::marker::PhantomData;

const DONE: u32 = 0;
const SILENT: u32 = 2;
const FOREIGN: u32 = 6;
const LONGEST_REPLY: usize = 260;

/// `modbus_tables`: the arrays of a device, borrowed.
#[repr(C)]
struct Tables<'t> {
    coils: *mut bool,
    coils_len: usize,
    discrete_inputs: *const bool,
    discrete_inputs_len: usize,
    holding_registers: *mut u16,
    holding_registers_len: usize,
    input_registers: *const u16,
    input_registers_len: usize,
    lender: PhantomData<&'t mut [u16]>,
}

/// `modbus_unit`
#[repr(C)]
struct Unit<'t> {
    unit: u8,
    tables: Tables<'t>,
}

/// `modbus_served`
#[repr(C)]
struct Served {
    status: u32,
    detail: u32,
    used: usize,
    written: usize,
}

/// `modbus_done`
#[repr(C)]
struct Done {
    status: u32,
    detail: u32,
    written: usize,
}

extern "C" {
    fn modbus_line_serve(units: *mut Unit, units_len: usize, burst: *const u8, burst_len: usize, output: *mut u8, output_len: usize) -> Served;
    fn modbus_stream_serve(tables: *mut Tables, input: *const u8, input_len: usize, output: *mut u8, output_len: usize) -> Served;
    fn modbus_rtu_wrap(slave: u8, pdu: *const u8, pdu_len: usize, output: *mut u8, output_len: usize) -> Done;
}

impl<'t> Tables<'t> {
    fn new(coils: &'t mut [bool], discrete_inputs: &'t [bool], holding_registers: &'t mut [u16], input_registers: &'t [u16]) -> Self {
        Tables {
            coils: coils.as_mut_ptr(),
            coils_len: coils.len(),
            discrete_inputs: discrete_inputs.as_ptr(),
            discrete_inputs_len: discrete_inputs.len(),
            holding_registers: holding_registers.as_mut_ptr(),
            holding_registers_len: holding_registers.len(),
            input_registers: input_registers.as_ptr(),
            input_registers_len: input_registers.len(),
            lender: PhantomData,
        }
    }

    /// Answers what stands at the front of a connection: the status, how many bytes were used, and the reply.
    fn answer(&mut self, held: &[u8]) -> (u32, usize, Vec<u8>) {
        let mut output = [0; LONGEST_REPLY];
        let served = unsafe { modbus_stream_serve(self, held.as_ptr(), held.len(), output.as_mut_ptr(), output.len()) };
        (served.status, served.used, output[..served.written].to_vec())
    }
}

/// The units hear all that came between two silences: the status, and the reply.
fn hear(units: &mut [Unit<'_>], burst: &[u8]) -> (u32, Vec<u8>) {
    let mut output = [0; LONGEST_REPLY];
    let served = unsafe { modbus_line_serve(units.as_mut_ptr(), units.len(), burst.as_ptr(), burst.len(), output.as_mut_ptr(), output.len()) };
    assert_eq!((served.detail, served.used), (0, burst.len()));
    (served.status, output[..served.written].to_vec())
}

fn frame(slave: u8, pdu: &[u8]) -> Vec<u8> {
    let mut output = [0; LONGEST_REPLY];
    let done = unsafe { modbus_rtu_wrap(slave, pdu.as_ptr(), pdu.len(), output.as_mut_ptr(), output.len()) };
    assert_eq!((done.status, done.detail), (DONE, 0));
    output[..done.written].to_vec()
}

fn main() {
    let (mut coils, mut registers) = ([false; 16], [0; 16]);
    registers[2] = 0x1234;
    let mut units = [Unit { unit: 17, tables: Tables::new(&mut coils, &[], &mut registers, &[]) }];
    assert_eq!(hear(&mut units, &frame(17, &[3, 0, 2, 0, 1])), (DONE, frame(17, &[3, 2, 0x12, 0x34])));
    assert_eq!(hear(&mut units, &frame(18, &[6, 0, 2, 0, 7])), (SILENT, vec![]));
    let tables = &mut units[0].tables;
    assert_eq!(tables.answer(&[0, 1, 0, 0, 0, 6, 1, 6, 0, 3, 0, 7]), (DONE, 12, vec![0, 1, 0, 0, 0, 6, 1, 6, 0, 3, 0, 7]));
    assert_eq!(tables.answer(b"GET "), (FOREIGN, 0, vec![]));
    assert_eq!(registers[2..4], [0x1234, 7]);
    println!("each answer was the one wanted");
}
