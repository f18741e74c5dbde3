//! The layout of every raw struct, as `host/test/layout.c` has it of the C header's.

use cobnutter::raw::*;
use std::mem::{align_of, offset_of, size_of};

macro_rules! layout {
    ($type:ident, $size:expr, $($field:ident $at:expr),+) => {
        assert_eq!(size_of::<$type>(), $size, stringify!($type));
        $(assert_eq!(offset_of!($type, $field), $at, stringify!($type.$field));)+
    };
}

#[test]
fn sizes_and_offsets() {
    layout!(Channel, 24, state 0, held 1, next 8, left 16);
    layout!(Transfer, 2600, len 0, pairs 8, count 16, fault 24, on 32, heads 40, channels 1064);
    layout!(Started, 2608, transfer 0, refused 2600);
    layout!(Received, 2616, transfer 0, taken 2600, verdict 2608, refused 2609);
    layout!(Shown, 56, ended 0, count 8, fault 16, on 24, bytes 32, doubtful 40, verdict 48, refused 49);
    layout!(Written, 16, length 0, refused 8);
    layout!(Sender, 536, len 0, count 8, size 16, given 24);
    layout!(Begun, 544, sender 0, refused 536);
    layout!(Sent, 552, sender 0, length 536, refused 544);
    layout!(Fields, 24, length 0, third 8, descriptor 16, is_eodc 17, refused 18);
    layout!(Command, 24, from 0, to 8, verb 16, refused 17);
    layout!(Reply, 2, digit 0, refused 1);
    layout!(List, 16, count 0, refused 8);
    layout!(Found, 24, value 0, next 8, found 16);
    layout!(LoadedFor, 16, length 0, refused 8);
    layout!(Console, 3, mode_e 0, endpoint 1, running 2);
    layout!(ConsoleAnswer, 8, console 0, code 4, suspect 6);
    assert_eq!(align_of::<Transfer>(), 8);
    assert_eq!(align_of::<Sender>(), 8);
}
