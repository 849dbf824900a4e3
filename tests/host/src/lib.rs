//! The product paper, and the requests made after it, implemented a second time, from their sentences alone, and the proved archive beside it.
#![deny(unsafe_code)]

pub mod archive;
pub mod claims;
#[cfg(feature = "speed")]
pub mod clock;
pub mod generate;
pub mod paper;
pub mod random;

/// bytes as a report shows them
pub fn hex(bytes: &[u8]) -> String {
    bytes.iter().map(|byte| format!("{byte:02x}")).collect()
}

/// The twenty-one entries of include/gm.h, on slices. The paper's implementation and the archive each give them.
pub trait NodeEnd {
    fn begin(&self, n: u32, node: u32, founding: u64, state: &mut [u8]) -> u32;
    fn stop(&self, mode: u32, state: &mut [u8]) -> u32;
    fn start(&self, mode: u32, state: &mut [u8]) -> u32;
    #[allow(clippy::too_many_arguments)]
    fn state(
        &self,
        mode: u32,
        state: &[u8],
        kind: &mut u32,
        reason: &mut u32,
        node: &mut u32,
        n: &mut u32,
        number: &mut u32,
        set: &mut u64,
        base: &mut u64,
    ) -> u32;
    #[allow(clippy::too_many_arguments)]
    fn write_heartbeat(
        &self,
        n: u32,
        mode: u32,
        node: u32,
        join: u32,
        request: u32,
        sync: u32,
        startup: u32,
        cycle: u32,
        channel: u32,
        drive: &[u8],
        frame: &mut [u8],
    ) -> u32;
    #[allow(clippy::too_many_arguments)]
    fn send_heartbeat(
        &self,
        mode: u32,
        state: &[u8],
        sync: u32,
        startup: u32,
        cycle: u32,
        channel: u32,
        drive: &[u8],
        frame: &mut [u8],
        sent: &mut u32,
    ) -> u32;
    #[allow(clippy::too_many_arguments)]
    fn read_heartbeat(
        &self,
        n: u32,
        mode: u32,
        node: u32,
        cycle: u32,
        channel: u32,
        frame: &[u8],
        drive: &mut [u8],
        join: &mut u32,
        request: &mut u32,
        drive_bytes: &mut u32,
    ) -> u32;
    #[allow(clippy::too_many_arguments)]
    fn receive_heartbeat(
        &self,
        n: u32,
        mode: u32,
        node: u32,
        cycle: u32,
        a: &[u8],
        b: &[u8],
        drive: &mut [u8],
        heard: &mut u32,
        drive_bytes: &mut u32,
    ) -> u32;
    fn view(&self, mode: u32, state: &[u8], heard0: u64, heard1: u64, view: &mut u64) -> u32;
    #[allow(clippy::too_many_arguments)]
    fn write_vote(&self, n: u32, node: u32, number: u32, set: u64, base: u64, view: u64, cycle: u32, channel: u32, frame: &mut [u8]) -> u32;
    #[allow(clippy::too_many_arguments)]
    fn send_vote(
        &self,
        mode: u32,
        state: &[u8],
        heard0: u64,
        heard1: u64,
        requests: u64,
        cycle: u32,
        channel: u32,
        frame: &mut [u8],
        sent: &mut u32,
    ) -> u32;
    fn read_vote(&self, n: u32, node: u32, cycle: u32, channel: u32, frame: &[u8], vote: &mut [u8]) -> u32;
    #[allow(clippy::too_many_arguments)]
    fn receive_vote(&self, n: u32, node: u32, cycle: u32, a: &[u8], b: &[u8], votes: &mut [u8], arrived: &mut u64) -> u32;
    #[allow(clippy::too_many_arguments)]
    fn decide(&self, mode: u32, state: &mut [u8], heard0: u64, heard1: u64, requests: u64, votes: &[u8], arrived: u64) -> u32;
    fn cycle(&self, n: u32, mode: u32, row: &mut [u8], record: &[u8]) -> u32;
    fn run(&self, mode: u32, row: &mut [u8], table: &[u8]) -> u32;
    fn run_frames(&self, mode: u32, row: &mut [u8], table: &[u8], frames: &mut [u8]) -> u32;
    fn register_read(&self, mode: u32, block: &[u8], address: u32, value: &mut u32) -> u32;
    fn register_write(&self, mode: u32, block: &mut [u8], address: u32, value: u8) -> u32;
    #[allow(clippy::too_many_arguments)]
    fn register_cycle(&self, mode: u32, block: &mut [u8], heard0: u64, heard1: u64, requests: u64, votes: &[u8], arrived: u64) -> u32;
    #[allow(clippy::too_many_arguments)]
    fn register_write_cycle(
        &self,
        mode: u32,
        block: &mut [u8],
        address: u32,
        value: u8,
        heard0: u64,
        heard1: u64,
        requests: u64,
        votes: &[u8],
        arrived: u64,
    ) -> u32;
}
