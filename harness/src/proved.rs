//! The proved library, linked from liblubdranit.a (build.rs).

use crate::exported::Calls;

// A byte slice goes over as its pointer and its length. The library does not keep them.
extern "C" {
    fn lub_client_open(
        end: *mut u8,
        bytes: usize,
        n: u8,
        line: u8,
        ranks: *const u8,
        ranks_bytes: usize,
        items: *const u8,
        items_bytes: usize,
    ) -> u64;
    fn lub_client_insert(end: *mut u8, bytes: usize, position: u16, item: u32) -> u64;
    fn lub_client_delete(end: *mut u8, bytes: usize, position: u16) -> u64;
    fn lub_client_take_back(end: *mut u8, bytes: usize) -> u64;
    fn lub_client_send(end: *const u8, bytes: usize, line: u8, number: u16, out: *mut u8, out_bytes: usize) -> u64;
    fn lub_client_acknowledge(end: *const u8, bytes: usize, line: u8, out: *mut u8, out_bytes: usize) -> u64;
    fn lub_client_take(end: *mut u8, bytes: usize, message: *const u8, message_bytes: usize) -> u64;
    fn lub_client_pack(end: *const u8, bytes: usize, line: u8, out: *mut u8, out_bytes: usize, offset: usize) -> u64;
    fn lub_client_take_packet(end: *mut u8, bytes: usize, packet: *const u8, packet_bytes: usize) -> u64;
    fn lub_client_take_at(end: *mut u8, bytes: usize, packet: *const u8, packet_bytes: usize, offset: usize) -> u64;
    fn lub_server_open(
        end: *mut u8,
        bytes: usize,
        n: u8,
        ranks: *const u8,
        ranks_bytes: usize,
        items: *const u8,
        items_bytes: usize,
    ) -> u64;
    fn lub_server_send(end: *const u8, bytes: usize, line: u8, number: u16, out: *mut u8, out_bytes: usize) -> u64;
    fn lub_server_acknowledge(end: *const u8, bytes: usize, line: u8, out: *mut u8, out_bytes: usize) -> u64;
    fn lub_server_take(end: *mut u8, bytes: usize, message: *const u8, message_bytes: usize) -> u64;
    fn lub_server_pack(end: *const u8, bytes: usize, line: u8, out: *mut u8, out_bytes: usize, offset: usize) -> u64;
    fn lub_server_take_packet(end: *mut u8, bytes: usize, packet: *const u8, packet_bytes: usize) -> u64;
    fn lub_server_take_at(end: *mut u8, bytes: usize, packet: *const u8, packet_bytes: usize, offset: usize) -> u64;
    fn lub_client_bytes() -> u64;
    fn lub_server_bytes() -> u64;
    fn lub_run(input: *const u8, input_bytes: usize, out: *mut u8, out_bytes: usize) -> u64;
}

pub struct Proved;

// SAFETY, of every call below: pointer and length are those of one slice, which outlives the call
impl Calls for Proved {
    fn name(&self) -> &'static str {
        "proved"
    }

    fn client_open(&self, end: &mut [u8], n: u8, line: u8, ranks: &[u8], items: &[u8]) -> u64 {
        unsafe { lub_client_open(end.as_mut_ptr(), end.len(), n, line, ranks.as_ptr(), ranks.len(), items.as_ptr(), items.len()) }
    }

    fn client_insert(&self, end: &mut [u8], position: u16, item: u32) -> u64 {
        unsafe { lub_client_insert(end.as_mut_ptr(), end.len(), position, item) }
    }

    fn client_delete(&self, end: &mut [u8], position: u16) -> u64 {
        unsafe { lub_client_delete(end.as_mut_ptr(), end.len(), position) }
    }

    fn client_take_back(&self, end: &mut [u8]) -> u64 {
        unsafe { lub_client_take_back(end.as_mut_ptr(), end.len()) }
    }

    fn client_send(&self, end: &[u8], line: u8, number: u16, out: &mut [u8]) -> u64 {
        unsafe { lub_client_send(end.as_ptr(), end.len(), line, number, out.as_mut_ptr(), out.len()) }
    }

    fn client_acknowledge(&self, end: &[u8], line: u8, out: &mut [u8]) -> u64 {
        unsafe { lub_client_acknowledge(end.as_ptr(), end.len(), line, out.as_mut_ptr(), out.len()) }
    }

    fn client_take(&self, end: &mut [u8], message: &[u8]) -> u64 {
        unsafe { lub_client_take(end.as_mut_ptr(), end.len(), message.as_ptr(), message.len()) }
    }

    fn client_pack(&self, end: &[u8], line: u8, out: &mut [u8], offset: usize) -> u64 {
        unsafe { lub_client_pack(end.as_ptr(), end.len(), line, out.as_mut_ptr(), out.len(), offset) }
    }

    fn client_take_packet(&self, end: &mut [u8], packet: &[u8]) -> u64 {
        unsafe { lub_client_take_packet(end.as_mut_ptr(), end.len(), packet.as_ptr(), packet.len()) }
    }

    fn client_take_at(&self, end: &mut [u8], packet: &[u8], offset: usize) -> u64 {
        unsafe { lub_client_take_at(end.as_mut_ptr(), end.len(), packet.as_ptr(), packet.len(), offset) }
    }

    fn server_open(&self, end: &mut [u8], n: u8, ranks: &[u8], items: &[u8]) -> u64 {
        unsafe { lub_server_open(end.as_mut_ptr(), end.len(), n, ranks.as_ptr(), ranks.len(), items.as_ptr(), items.len()) }
    }

    fn server_send(&self, end: &[u8], line: u8, number: u16, out: &mut [u8]) -> u64 {
        unsafe { lub_server_send(end.as_ptr(), end.len(), line, number, out.as_mut_ptr(), out.len()) }
    }

    fn server_acknowledge(&self, end: &[u8], line: u8, out: &mut [u8]) -> u64 {
        unsafe { lub_server_acknowledge(end.as_ptr(), end.len(), line, out.as_mut_ptr(), out.len()) }
    }

    fn server_take(&self, end: &mut [u8], message: &[u8]) -> u64 {
        unsafe { lub_server_take(end.as_mut_ptr(), end.len(), message.as_ptr(), message.len()) }
    }

    fn server_pack(&self, end: &[u8], line: u8, out: &mut [u8], offset: usize) -> u64 {
        unsafe { lub_server_pack(end.as_ptr(), end.len(), line, out.as_mut_ptr(), out.len(), offset) }
    }

    fn server_take_packet(&self, end: &mut [u8], packet: &[u8]) -> u64 {
        unsafe { lub_server_take_packet(end.as_mut_ptr(), end.len(), packet.as_ptr(), packet.len()) }
    }

    fn server_take_at(&self, end: &mut [u8], packet: &[u8], offset: usize) -> u64 {
        unsafe { lub_server_take_at(end.as_mut_ptr(), end.len(), packet.as_ptr(), packet.len(), offset) }
    }

    fn client_bytes(&self) -> u64 {
        unsafe { lub_client_bytes() }
    }

    fn server_bytes(&self) -> u64 {
        unsafe { lub_server_bytes() }
    }

    fn run(&self, input: &[u8], out: &mut [u8]) -> u64 {
        unsafe { lub_run(input.as_ptr(), input.len(), out.as_mut_ptr(), out.len()) }
    }
}
