//! Asks a server of Modbus TCP on the loopback address from Rust, over the library for C, as examples/c/poller.c does.
//!
//! usage: poller PORT. The status is 0 where each answer was the one wanted.

use std::error::Error;
use std::fmt;
use std::io::{Read, Write};
use std::net::TcpStream;
use std::process::ExitCode;
use std::time::Duration;

/// The library's structs and functions, as modbus.h declares them.
#[allow(non_camel_case_types)]
mod sys {
    pub const DONE: u32 = 0;
    pub const WAITING: u32 = 1;

    #[repr(C)]
    #[derive(Clone, Copy, Default)]
    pub struct modbus_done {
        pub status: u32,
        pub detail: u32,
        pub written: usize,
    }

    #[repr(C)]
    #[derive(Clone, Copy, Default)]
    pub struct modbus_request {
        pub function: u8,
        pub coil: bool,
        pub address: u16,
        pub quantity: u16,
        pub write_address: u16,
        pub word: u16,
        pub or_mask: u16,
        pub count: usize,
    }

    #[repr(C)]
    #[derive(Clone, Copy, Default)]
    pub struct modbus_response {
        pub function: u8,
        pub exception: bool,
        pub code: u8,
        pub coil: bool,
        pub address: u16,
        pub quantity: u16,
        pub word: u16,
        pub or_mask: u16,
        pub count: usize,
    }

    #[repr(C)]
    pub struct modbus_inbox {
        pub len: usize,
        pub bytes: [u8; 268],
    }

    #[repr(C)]
    pub struct modbus_call {
        pub tcp: bool,
        pub transaction_id: u16,
        pub slave: u8,
        pub request: modbus_request,
        pub inbox: modbus_inbox,
    }

    extern "C" {
        pub fn modbus_call_tcp(
            call: *mut modbus_call,
            transaction_id: u16,
            unit_id: u8,
            request: *const modbus_request,
            words: *const u16,
            words_len: usize,
            coils: *const bool,
            coils_len: usize,
            output: *mut u8,
            output_len: usize,
        ) -> modbus_done;
        pub fn modbus_call_feed(call: *mut modbus_call, piece: *const u8, piece_len: usize) -> usize;
        pub fn modbus_call_answer(
            call: *mut modbus_call,
            response: *mut modbus_response,
            words: *mut u16,
            words_len: usize,
            coils: *mut bool,
            coils_len: usize,
        ) -> modbus_done;
    }
}

/// What a call comes to where it has no response.
#[derive(Debug, PartialEq)]
enum CallError {
    /// The device answered by an exception of this code (AP 7).
    Exception(u8),
    /// The library told this status.
    Status(u32),
}

impl fmt::Display for CallError {
    fn fmt(&self, f: &mut fmt::Formatter<'_>) -> fmt::Result {
        match self {
            CallError::Exception(code) => write!(f, "exception {code}"),
            CallError::Status(status) => write!(f, "status {status} of modbus.h"),
        }
    }
}

impl Error for CallError {}

/// A call of a unit: what its reply has to be of. The library keeps nothing beside it.
struct Call(sys::modbus_call);

impl Call {
    /// Begins a call, whose ADU goes to the front of `output`; how many bytes it has.
    fn begin(
        transaction_id: u16,
        unit_id: u8,
        request: &sys::modbus_request,
        words: &[u16],
        coils: &[bool],
        output: &mut [u8],
    ) -> Result<(Call, usize), CallError> {
        let inbox = sys::modbus_inbox { len: 0, bytes: [0; 268] };
        let mut call = sys::modbus_call { tcp: true, transaction_id, slave: unit_id, request: *request, inbox };
        // SAFETY: each pointer comes from a slice or a reference, with the length of that slice, and those that are written overlap no other.
        let told = unsafe {
            sys::modbus_call_tcp(
                &mut call,
                transaction_id,
                unit_id,
                request,
                words.as_ptr(),
                words.len(),
                coils.as_ptr(),
                coils.len(),
                output.as_mut_ptr(),
                output.len(),
            )
        };
        match told.status {
            sys::DONE => Ok((Call(call), told.written)),
            status => Err(CallError::Status(status)),
        }
    }

    /// Takes the front of a piece; how many bytes it took.
    fn feed(&mut self, piece: &[u8]) -> usize {
        // SAFETY: as in `begin`.
        unsafe { sys::modbus_call_feed(&mut self.0, piece.as_ptr(), piece.len()) }
    }

    /// The response, as far as bytes were fed; `None` where more are wanted.
    fn answer(&mut self, words: &mut [u16], coils: &mut [bool]) -> Result<Option<sys::modbus_response>, CallError> {
        let mut response = sys::modbus_response::default();
        // SAFETY: as in `begin`.
        let told = unsafe {
            sys::modbus_call_answer(
                &mut self.0,
                &mut response,
                words.as_mut_ptr(),
                words.len(),
                coils.as_mut_ptr(),
                coils.len(),
            )
        };
        match told.status {
            sys::WAITING => Ok(None),
            sys::DONE if response.exception => Err(CallError::Exception(response.code)),
            sys::DONE => Ok(Some(response)),
            status => Err(CallError::Status(status)),
        }
    }
}

/// A client of unit 1 over a connection of its own.
struct Client {
    stream: TcpStream,
    transaction_id: u16,
    words: [u16; 125],
    coils: [bool; 2008],
}

impl Client {
    fn connect(port: u16) -> std::io::Result<Client> {
        let stream = TcpStream::connect(("127.0.0.1", port))?;
        stream.set_read_timeout(Some(Duration::from_secs(5)))?;
        stream.set_nodelay(true)?;
        Ok(Client { stream, transaction_id: 0, words: [0; 125], coils: [false; 2008] })
    }

    /// Sends a request, whose lists stand at the fronts of `words` and `coils`; those of the response stand there afterwards.
    fn ask(&mut self, request: sys::modbus_request) -> Result<sys::modbus_response, Box<dyn Error>> {
        let mut bytes = [0; 260];
        self.transaction_id = self.transaction_id.wrapping_add(1);
        let (mut call, len) = Call::begin(self.transaction_id, 1, &request, &self.words, &self.coils, &mut bytes)?;
        self.stream.write_all(&bytes[..len])?;
        loop {
            let got = self.stream.read(&mut bytes)?;
            if got == 0 {
                return Err("the device closed the connection".into());
            }
            let mut piece = &bytes[..got];
            while !piece.is_empty() {
                piece = &piece[call.feed(piece)..];
                if let Some(response) = call.answer(&mut self.words, &mut self.coils)? {
                    return Ok(response);
                }
            }
        }
    }

    fn write_registers(&mut self, address: u16, words: &[u16]) -> Result<(), Box<dyn Error>> {
        self.words[..words.len()].copy_from_slice(words);
        self.ask(sys::modbus_request { function: 0x10, address, count: words.len(), ..Default::default() })?;
        Ok(())
    }

    fn read_registers(&mut self, function: u8, address: u16, quantity: u16) -> Result<&[u16], Box<dyn Error>> {
        let response = self.ask(sys::modbus_request { function, address, quantity, ..Default::default() })?;
        Ok(&self.words[..response.count])
    }

    fn write_coils(&mut self, address: u16, coils: &[bool]) -> Result<(), Box<dyn Error>> {
        self.coils[..coils.len()].copy_from_slice(coils);
        self.ask(sys::modbus_request { function: 0x0F, address, count: coils.len(), ..Default::default() })?;
        Ok(())
    }

    fn read_bits(&mut self, function: u8, address: u16, quantity: u16) -> Result<&[bool], Box<dyn Error>> {
        let response = self.ask(sys::modbus_request { function, address, quantity, ..Default::default() })?;
        Ok(&self.coils[..response.count])
    }
}

fn want(holds: bool, what: &str) -> Result<(), Box<dyn Error>> {
    if holds { Ok(()) } else { Err(what.into()) }
}

/// Why a call has no response.
fn refusal<T>(answer: Result<T, Box<dyn Error>>) -> Option<CallError> {
    answer.err().and_then(|fault| fault.downcast::<CallError>().ok()).map(|fault| *fault)
}

fn run(port: u16) -> Result<(), Box<dyn Error>> {
    let mut device = Client::connect(port)?;
    device.write_registers(4, &[1000, 1001, 1002])?;
    want(device.read_registers(0x03, 4, 3)? == [1000, 1001, 1002], "registers read otherwise")?;
    device.write_coils(20, &[true, false, true])?;
    want(device.read_bits(0x01, 20, 3)? == [true, false, true], "coils read otherwise")?;
    want(device.read_bits(0x02, 0, 4)? == [false, true, false, true], "discrete inputs read otherwise")?;
    want(device.read_registers(0x04, 0, 2)? == [65535, 65534], "input registers read otherwise")?;
    let past = refusal(device.read_registers(0x04, 65535, 1).map(<[u16]>::len));
    want(past == Some(CallError::Exception(2)), "an address past the end was answered")?;
    want(refusal(device.write_registers(0, &[])) == Some(CallError::Status(3)), "a write of nothing was sent")
}

fn main() -> ExitCode {
    let Some(port) = std::env::args().nth(1).and_then(|word| word.parse().ok()) else {
        eprintln!("usage: poller PORT");
        return ExitCode::from(2);
    };
    match run(port) {
        Ok(()) => {
            println!("each answer was the one wanted");
            ExitCode::SUCCESS
        }
        Err(fault) => {
            eprintln!("poller: {fault}");
            ExitCode::FAILURE
        }
    }
}
