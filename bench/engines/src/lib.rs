//! Unproved engines with the interface of the service, to measure it beside. Each works on lent bytes as the service does. The seat of a write invalidate goes
//! nowhere, as the address leaves the table.
//!
//! `maps` and `array` make the service's refusals with an index of the block rows that they build in each call: a hash map of the standard library,
//! and an array made by hand. `persistent` refuses nothing and keeps its maps from call to call: it shows what the refusals and the lent tables cost.
//! `arc` has the calls on D-ARC boxes, with the map of `maps` as its index.
//! `scores` counts the lists of an exam question.
pub mod arc;
mod arc_checks;
mod arc_lists;
pub mod array;
mod checks;
mod engine;
mod image;
mod layout;
pub mod maps;
pub mod persistent;
pub mod scores;

/// The number of a refusal, 0 where there is none.
fn number_of(result: Result<(), u32>) -> u32 {
    result.err().unwrap_or(0)
}

/// The functions of an engine, as the service has them: all of its calls on slices, with the number of the refusal as result.
macro_rules! calls {
    ($index:ty) => {
        pub fn open(state: &mut [u8], label: &[u8], disk: &[u8], flash: &[u8], addresses: &mut [u8], blocks: &mut [u8]) -> u32 {
            crate::number_of(crate::engine::open(state, label, disk, flash, addresses, blocks))
        }
        #[allow(clippy::too_many_arguments)]
        pub fn read(
            state: &mut [u8],
            address: u32,
            disk: &mut [u8],
            flash: &mut [u8],
            addresses: &mut [u8],
            blocks: &mut [u8],
            block: &mut [u8],
            answer: &mut [u8],
        ) -> u32 {
            crate::number_of(crate::engine::read::<$index>(state, address, disk, flash, addresses, blocks, block, answer))
        }
        #[allow(clippy::too_many_arguments)]
        pub fn read_many(
            state: &mut [u8],
            asked: &[u32],
            disk: &mut [u8],
            flash: &mut [u8],
            addresses: &mut [u8],
            blocks: &mut [u8],
            buffer: &mut [u8],
            answer: &mut [u8],
        ) -> u32 {
            crate::number_of(crate::engine::read_many::<$index>(state, asked, disk, flash, addresses, blocks, buffer, answer))
        }
        #[allow(clippy::too_many_arguments)]
        pub fn write_through(
            state: &mut [u8],
            address: u32,
            seat: u16,
            disk: &mut [u8],
            flash: &mut [u8],
            addresses: &mut [u8],
            blocks: &mut [u8],
            block: &[u8],
            answer: &mut [u8],
        ) -> u32 {
            crate::number_of(crate::engine::write::<$index>(state, address, seat, disk, flash, addresses, blocks, block, answer, false))
        }
        #[allow(clippy::too_many_arguments)]
        pub fn write_back(
            state: &mut [u8],
            address: u32,
            seat: u16,
            disk: &mut [u8],
            flash: &mut [u8],
            addresses: &mut [u8],
            blocks: &mut [u8],
            block: &[u8],
            answer: &mut [u8],
        ) -> u32 {
            crate::number_of(crate::engine::write::<$index>(state, address, seat, disk, flash, addresses, blocks, block, answer, true))
        }
        #[allow(clippy::too_many_arguments)]
        pub fn write_invalidate(
            state: &mut [u8],
            address: u32,
            _seat: u16,
            disk: &mut [u8],
            flash: &[u8],
            addresses: &mut [u8],
            blocks: &mut [u8],
            block: &[u8],
            answer: &mut [u8],
        ) -> u32 {
            crate::number_of(crate::engine::write_invalidate::<$index>(state, address, disk, flash, addresses, blocks, block, answer))
        }
        pub fn flush(state: &mut [u8], disk: &mut [u8], flash: &[u8], addresses: &mut [u8], blocks: &[u8], answer: &mut [u8]) -> u32 {
            flush_some(state, usize::MAX, disk, flash, addresses, blocks, answer)
        }
        pub fn flush_some(state: &mut [u8], most: usize, disk: &mut [u8], flash: &[u8], addresses: &mut [u8], blocks: &[u8], answer: &mut [u8]) -> u32 {
            crate::number_of(crate::engine::flush::<$index>(state, most, disk, flash, addresses, blocks, answer))
        }
        pub fn look(state: &[u8], address: u32, disk: &[u8], flash: &[u8], addresses: &[u8], blocks: &[u8], answer: &mut [u8]) -> u32 {
            crate::number_of(crate::engine::look::<$index>(state, address, disk, flash, addresses, blocks, answer))
        }
        pub fn manager_report(state: &[u8], disk: &[u8], flash: &[u8], addresses: &[u8], blocks: &[u8], report: &mut [u8]) -> u32 {
            crate::number_of(crate::engine::report::<$index>(state, disk, flash, addresses, blocks, report, true))
        }
        pub fn desk_report(state: &[u8], disk: &[u8], flash: &[u8], addresses: &[u8], blocks: &[u8], report: &mut [u8]) -> u32 {
            crate::number_of(crate::engine::report::<$index>(state, disk, flash, addresses, blocks, report, false))
        }
        pub fn save(state: &mut [u8], disk: &mut [u8], flash: &[u8], addresses: &mut [u8], blocks: &[u8], area: &mut [u8], answer: &mut [u8]) -> u32 {
            crate::number_of(crate::image::save::<$index>(state, disk, flash, addresses, blocks, area, answer))
        }
        pub fn restore(state: &mut [u8], area: &mut [u8], addresses: &mut [u8], blocks: &mut [u8], lists: &[u8]) -> u32 {
            crate::number_of(crate::image::restore::<$index>(state, area, addresses, blocks, lists))
        }
    };
}
pub(crate) use calls;
