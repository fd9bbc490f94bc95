//! What lists ask of boxes that are run beside each other.
use crate::boxes::{any_seat, folder, folder_count, most, Contents, Shape};
use crate::calls::{call, call_many};
use common::Random;
use model::{Call, Folder, Lent};

/// What is asked of a box: a call with its address and the block lent to it, or a folder.
#[derive(Clone)]
pub enum Asked {
    One(Call, u32, Vec<u8>),
    Many(Folder),
}

/// Mostly served; an address or a length is wrong now and then.
pub fn ask(random: &mut Random, shape: Shape, contents: &Contents) -> Asked {
    let address = |random: &mut Random| if random.below(30) == 0 { shape.p } else { random.below(shape.p) } as u32;
    if random.below(6) == 0 {
        let some: Vec<u32> = (0..1 + random.below(6)).map(|_| address(random)).collect();
        let count = folder_count(random);
        return Asked::Many(folder(random, &some, shape.b, count));
    }
    let kind = match random.below(12) {
        0..=3 => Call::Read,
        4 | 5 => Call::Through(any_seat(random)),
        6 | 7 => Call::Back(any_seat(random)),
        8 => Call::Invalidate(any_seat(random)),
        9 => Call::FlushSome(most(random, shape.m)),
        10 => Call::Flush,
        _ => Call::Look,
    };
    let mut block = contents.one(random).clone();
    if random.below(40) == 0 {
        block.pop();
    }
    Asked::One(kind, address(random), block)
}

/// Asks it of a box. Gives the number, the answer, and the lent block or the folder's buffer.
pub fn answered(lent: &mut Lent, asked: &Asked) -> (u32, Vec<u8>, Vec<u8>) {
    match asked {
        Asked::One(kind, address, block) => {
            lent.block.clone_from(block);
            (call(*kind, *address, lent), lent.answer.clone(), lent.block.clone())
        }
        Asked::Many(folder) => {
            let mut folder = folder.clone();
            (call_many(lent, &mut folder), folder.answer, folder.buffer)
        }
    }
}
