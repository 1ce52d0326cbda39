//! The exported calls, as a trait: what can stand behind a list of calls. An end is its lent bytes. The explaining tool shares this file.

/// What the run program is lent for its output: more than it ever prints.
pub const RUN_OUT: usize = 262_144;

/// Each call but the last three answers one number: the refusal in bits 0 to 7, a count or a length in bits 8 to 23, the position that arrived
/// in bits 24 to 39, the position applied in bits 40 to 55, and in bits 56 to 63 how many bytes a message has that was taken at an offset of a
/// packet. Only taking one edit has positions.
pub trait Calls: Sync {
    fn name(&self) -> &'static str;
    fn client_open(&self, end: &mut [u8], n: u8, line: u8, ranks: &[u8], items: &[u8]) -> u64;
    fn client_insert(&self, end: &mut [u8], position: u16, item: u32) -> u64;
    fn client_delete(&self, end: &mut [u8], position: u16) -> u64;
    fn client_take_back(&self, end: &mut [u8]) -> u64;
    fn client_send(&self, end: &[u8], line: u8, number: u16, out: &mut [u8]) -> u64;
    fn client_acknowledge(&self, end: &[u8], line: u8, out: &mut [u8]) -> u64;
    fn client_take(&self, end: &mut [u8], message: &[u8]) -> u64;
    fn client_pack(&self, end: &[u8], line: u8, out: &mut [u8], offset: usize) -> u64;
    fn client_take_packet(&self, end: &mut [u8], packet: &[u8]) -> u64;
    fn client_take_at(&self, end: &mut [u8], packet: &[u8], offset: usize) -> u64;
    fn server_open(&self, end: &mut [u8], n: u8, ranks: &[u8], items: &[u8]) -> u64;
    fn server_send(&self, end: &[u8], line: u8, number: u16, out: &mut [u8]) -> u64;
    fn server_acknowledge(&self, end: &[u8], line: u8, out: &mut [u8]) -> u64;
    fn server_take(&self, end: &mut [u8], message: &[u8]) -> u64;
    fn server_pack(&self, end: &[u8], line: u8, out: &mut [u8], offset: usize) -> u64;
    fn server_take_packet(&self, end: &mut [u8], packet: &[u8]) -> u64;
    fn server_take_at(&self, end: &mut [u8], packet: &[u8], offset: usize) -> u64;
    /// The layout's length.
    fn client_bytes(&self) -> u64;
    fn server_bytes(&self) -> u64;
    /// The run program in memory: writes what fits and gives the number of bytes written.
    fn run(&self, input: &[u8], out: &mut [u8]) -> u64;
}
