//! The twenty-one entries of the archive, as include/gm.h declares them, on slices, and the same entries in plain C, to be timed beside them. A slice's
//! pointer is never null, and two slices of which one is mutable never overlap, which is all that the header asks.
#![allow(unsafe_code)]

use crate::NodeEnd;

/// a linked library that gives the entries under these names
macro_rules! linked {
    (
        $host:ident:
        $begin:ident $stop:ident $start:ident $state:ident $write_heartbeat:ident $send_heartbeat:ident $read_heartbeat:ident
        $receive_heartbeat:ident $view:ident $write_vote:ident $send_vote:ident $read_vote:ident
        $receive_vote:ident $decide:ident $cycle:ident $run:ident $run_frames:ident
        $register_read:ident $register_write:ident $register_cycle:ident $register_write_cycle:ident
    ) => {
        pub struct $host;

        extern "C" {
            fn $begin(n: u32, node: u32, founding: u64, state: *mut u8, state_len: usize) -> u32;
            fn $stop(mode: u32, state: *mut u8, state_len: usize) -> u32;
            fn $start(mode: u32, state: *mut u8, state_len: usize) -> u32;
            fn $state(
                mode: u32,
                state: *const u8,
                state_len: usize,
                kind: *mut u32,
                reason: *mut u32,
                node: *mut u32,
                n: *mut u32,
                number: *mut u32,
                set: *mut u64,
                base: *mut u64,
            ) -> u32;
            fn $write_heartbeat(
                n: u32,
                mode: u32,
                node: u32,
                join: u32,
                request: u32,
                sync: u32,
                startup: u32,
                cycle: u32,
                channel: u32,
                drive: *const u8,
                drive_len: usize,
                frame: *mut u8,
                frame_len: usize,
            ) -> u32;
            fn $send_heartbeat(
                mode: u32,
                state: *const u8,
                state_len: usize,
                sync: u32,
                startup: u32,
                cycle: u32,
                channel: u32,
                drive: *const u8,
                drive_len: usize,
                frame: *mut u8,
                frame_len: usize,
                sent: *mut u32,
            ) -> u32;
            fn $read_heartbeat(
                n: u32,
                mode: u32,
                node: u32,
                cycle: u32,
                channel: u32,
                frame: *const u8,
                frame_len: usize,
                drive: *mut u8,
                drive_len: usize,
                join: *mut u32,
                request: *mut u32,
                drive_bytes: *mut u32,
            ) -> u32;
            fn $receive_heartbeat(
                n: u32,
                mode: u32,
                node: u32,
                cycle: u32,
                a: *const u8,
                a_len: usize,
                b: *const u8,
                b_len: usize,
                drive: *mut u8,
                drive_len: usize,
                heard: *mut u32,
                drive_bytes: *mut u32,
            ) -> u32;
            fn $view(mode: u32, state: *const u8, state_len: usize, heard0: u64, heard1: u64, view: *mut u64) -> u32;
            fn $write_vote(
                n: u32,
                node: u32,
                number: u32,
                set: u64,
                base: u64,
                view: u64,
                cycle: u32,
                channel: u32,
                frame: *mut u8,
                frame_len: usize,
            ) -> u32;
            fn $send_vote(
                mode: u32,
                state: *const u8,
                state_len: usize,
                heard0: u64,
                heard1: u64,
                requests: u64,
                cycle: u32,
                channel: u32,
                frame: *mut u8,
                frame_len: usize,
                sent: *mut u32,
            ) -> u32;
            fn $read_vote(n: u32, node: u32, cycle: u32, channel: u32, frame: *const u8, frame_len: usize, vote: *mut u8, vote_len: usize) -> u32;
            fn $receive_vote(
                n: u32,
                node: u32,
                cycle: u32,
                a: *const u8,
                a_len: usize,
                b: *const u8,
                b_len: usize,
                votes: *mut u8,
                votes_len: usize,
                arrived: *mut u64,
            ) -> u32;
            fn $decide(
                mode: u32,
                state: *mut u8,
                state_len: usize,
                heard0: u64,
                heard1: u64,
                requests: u64,
                votes: *const u8,
                votes_len: usize,
                arrived: u64,
            ) -> u32;
            fn $cycle(n: u32, mode: u32, row: *mut u8, row_len: usize, record: *const u8, record_len: usize) -> u32;
            fn $run(mode: u32, row: *mut u8, row_len: usize, table: *const u8, table_len: usize) -> u32;
            fn $run_frames(mode: u32, row: *mut u8, row_len: usize, table: *const u8, table_len: usize, frames: *mut u8, frames_len: usize) -> u32;
            fn $register_read(mode: u32, block: *const u8, block_len: usize, address: u32, value: *mut u32) -> u32;
            fn $register_write(mode: u32, block: *mut u8, block_len: usize, address: u32, value: u8) -> u32;
            fn $register_cycle(
                mode: u32,
                block: *mut u8,
                block_len: usize,
                heard0: u64,
                heard1: u64,
                requests: u64,
                votes: *const u8,
                votes_len: usize,
                arrived: u64,
            ) -> u32;
            fn $register_write_cycle(
                mode: u32,
                block: *mut u8,
                block_len: usize,
                address: u32,
                value: u8,
                heard0: u64,
                heard1: u64,
                requests: u64,
                votes: *const u8,
                votes_len: usize,
                arrived: u64,
            ) -> u32;
        }

        // SAFETY, of every call below: the pointers and lengths are those of slices and references that live through the call and do not overlap.
        impl NodeEnd for $host {
            fn begin(&self, n: u32, node: u32, founding: u64, state: &mut [u8]) -> u32 {
                unsafe { $begin(n, node, founding, state.as_mut_ptr(), state.len()) }
            }

            fn stop(&self, mode: u32, state: &mut [u8]) -> u32 {
                unsafe { $stop(mode, state.as_mut_ptr(), state.len()) }
            }

            fn start(&self, mode: u32, state: &mut [u8]) -> u32 {
                unsafe { $start(mode, state.as_mut_ptr(), state.len()) }
            }

            fn state(
                &self,
                mode: u32,
                state: &[u8],
                kind: &mut u32,
                reason: &mut u32,
                node: &mut u32,
                n: &mut u32,
                number: &mut u32,
                set: &mut u64,
                base: &mut u64,
            ) -> u32 {
                unsafe { $state(mode, state.as_ptr(), state.len(), kind, reason, node, n, number, set, base) }
            }

            fn write_heartbeat(
                &self,
                n: u32,
                mode: u32,
                node: u32,
                join: u32,
                request: u32,
                sync: u32,
                startup: u32,
                cycle: u32,
                channel: u32,
                drive: &[u8],
                frame: &mut [u8],
            ) -> u32 {
                let (lent, len) = (frame.as_mut_ptr(), frame.len());
                unsafe { $write_heartbeat(n, mode, node, join, request, sync, startup, cycle, channel, drive.as_ptr(), drive.len(), lent, len) }
            }

            fn send_heartbeat(
                &self,
                mode: u32,
                state: &[u8],
                sync: u32,
                startup: u32,
                cycle: u32,
                channel: u32,
                drive: &[u8],
                frame: &mut [u8],
                sent: &mut u32,
            ) -> u32 {
                let (lent, len) = (frame.as_mut_ptr(), frame.len());
                let (state, state_len) = (state.as_ptr(), state.len());
                unsafe { $send_heartbeat(mode, state, state_len, sync, startup, cycle, channel, drive.as_ptr(), drive.len(), lent, len, sent) }
            }

            fn read_heartbeat(
                &self,
                n: u32,
                mode: u32,
                node: u32,
                cycle: u32,
                channel: u32,
                frame: &[u8],
                drive: &mut [u8],
                join: &mut u32,
                request: &mut u32,
                drive_bytes: &mut u32,
            ) -> u32 {
                let (lent, len) = (drive.as_mut_ptr(), drive.len());
                unsafe { $read_heartbeat(n, mode, node, cycle, channel, frame.as_ptr(), frame.len(), lent, len, join, request, drive_bytes) }
            }

            fn receive_heartbeat(
                &self,
                n: u32,
                mode: u32,
                node: u32,
                cycle: u32,
                a: &[u8],
                b: &[u8],
                drive: &mut [u8],
                heard: &mut u32,
                drive_bytes: &mut u32,
            ) -> u32 {
                let (lent, len) = (drive.as_mut_ptr(), drive.len());
                unsafe { $receive_heartbeat(n, mode, node, cycle, a.as_ptr(), a.len(), b.as_ptr(), b.len(), lent, len, heard, drive_bytes) }
            }

            fn view(&self, mode: u32, state: &[u8], heard0: u64, heard1: u64, view: &mut u64) -> u32 {
                unsafe { $view(mode, state.as_ptr(), state.len(), heard0, heard1, view) }
            }

            fn write_vote(&self, n: u32, node: u32, number: u32, set: u64, base: u64, view: u64, cycle: u32, channel: u32, frame: &mut [u8]) -> u32 {
                unsafe { $write_vote(n, node, number, set, base, view, cycle, channel, frame.as_mut_ptr(), frame.len()) }
            }

            fn send_vote(
                &self,
                mode: u32,
                state: &[u8],
                heard0: u64,
                heard1: u64,
                requests: u64,
                cycle: u32,
                channel: u32,
                frame: &mut [u8],
                sent: &mut u32,
            ) -> u32 {
                unsafe {
                    $send_vote(mode, state.as_ptr(), state.len(), heard0, heard1, requests, cycle, channel, frame.as_mut_ptr(), frame.len(), sent)
                }
            }

            fn read_vote(&self, n: u32, node: u32, cycle: u32, channel: u32, frame: &[u8], vote: &mut [u8]) -> u32 {
                unsafe { $read_vote(n, node, cycle, channel, frame.as_ptr(), frame.len(), vote.as_mut_ptr(), vote.len()) }
            }

            fn receive_vote(&self, n: u32, node: u32, cycle: u32, a: &[u8], b: &[u8], votes: &mut [u8], arrived: &mut u64) -> u32 {
                unsafe { $receive_vote(n, node, cycle, a.as_ptr(), a.len(), b.as_ptr(), b.len(), votes.as_mut_ptr(), votes.len(), arrived) }
            }

            fn decide(&self, mode: u32, state: &mut [u8], heard0: u64, heard1: u64, requests: u64, votes: &[u8], arrived: u64) -> u32 {
                unsafe { $decide(mode, state.as_mut_ptr(), state.len(), heard0, heard1, requests, votes.as_ptr(), votes.len(), arrived) }
            }

            fn cycle(&self, n: u32, mode: u32, row: &mut [u8], record: &[u8]) -> u32 {
                unsafe { $cycle(n, mode, row.as_mut_ptr(), row.len(), record.as_ptr(), record.len()) }
            }

            fn run(&self, mode: u32, row: &mut [u8], table: &[u8]) -> u32 {
                unsafe { $run(mode, row.as_mut_ptr(), row.len(), table.as_ptr(), table.len()) }
            }

            fn run_frames(&self, mode: u32, row: &mut [u8], table: &[u8], frames: &mut [u8]) -> u32 {
                unsafe { $run_frames(mode, row.as_mut_ptr(), row.len(), table.as_ptr(), table.len(), frames.as_mut_ptr(), frames.len()) }
            }

            fn register_read(&self, mode: u32, block: &[u8], address: u32, value: &mut u32) -> u32 {
                unsafe { $register_read(mode, block.as_ptr(), block.len(), address, value) }
            }

            fn register_write(&self, mode: u32, block: &mut [u8], address: u32, value: u8) -> u32 {
                unsafe { $register_write(mode, block.as_mut_ptr(), block.len(), address, value) }
            }

            fn register_cycle(&self, mode: u32, block: &mut [u8], heard0: u64, heard1: u64, requests: u64, votes: &[u8], arrived: u64) -> u32 {
                unsafe { $register_cycle(mode, block.as_mut_ptr(), block.len(), heard0, heard1, requests, votes.as_ptr(), votes.len(), arrived) }
            }

            fn register_write_cycle(
                &self,
                mode: u32,
                block: &mut [u8],
                address: u32,
                value: u8,
                heard0: u64,
                heard1: u64,
                requests: u64,
                votes: &[u8],
                arrived: u64,
            ) -> u32 {
                let (lent, len) = (block.as_mut_ptr(), block.len());
                unsafe { $register_write_cycle(mode, lent, len, address, value, heard0, heard1, requests, votes.as_ptr(), votes.len(), arrived) }
            }
        }
    };
}

linked! {
    Archive:
    gm_begin gm_stop gm_start gm_state gm_write_heartbeat gm_send_heartbeat gm_read_heartbeat
    gm_receive_heartbeat gm_view gm_write_vote gm_send_vote gm_read_vote
    gm_receive_vote gm_decide gm_cycle gm_run gm_run_frames
    gm_register_read gm_register_write gm_register_cycle gm_register_write_cycle
}

// bench/plain
#[cfg(feature = "speed")]
linked! {
    Plain:
    plain_begin plain_stop plain_start plain_state plain_write_heartbeat plain_send_heartbeat plain_read_heartbeat
    plain_receive_heartbeat plain_view plain_write_vote plain_send_vote plain_read_vote
    plain_receive_vote plain_decide plain_cycle plain_run plain_run_frames
    plain_register_read plain_register_write plain_register_cycle plain_register_write_cycle
}
