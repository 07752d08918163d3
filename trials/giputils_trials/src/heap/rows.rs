//! Lists of calls of a heap. Each row has a call, its reply, and how often it may ask the comparer.

use crate::heap::calls::Asks::{AtMost, Exactly};
use crate::heap::calls::Call::{
    Clear, Contains, Down, IsEmpty, Len, Peek, Pop, Push, PushOrUpdate, Rebuild, Remove, Up, Update,
};
use crate::heap::calls::Reply::{Done, Flag, Key, Length};
use crate::heap::calls::{Call, Order, Row};

/// Lists with what each shows. The calls of a list are made on one heap, in parts that differ in their comparer.
pub(crate) const LISTS: &[(&str, &[(Order, &[Row])])] = &[
    (
        "the greatest key is popped first",
        &[(
            Order::Number,
            &[
                (Push(0), Done, AtMost(0)),
                (Push(1), Done, AtMost(1)),
                (Push(2), Done, AtMost(1)),
                (Push(3), Done, AtMost(2)),
                (Push(4), Done, AtMost(2)),
                (Push(5), Done, AtMost(2)),
                (Push(6), Done, AtMost(2)),
                (Push(7), Done, AtMost(3)),
                (Pop, Key(Some(7)), AtMost(6)),
                (Pop, Key(Some(6)), AtMost(4)),
                (Pop, Key(Some(5)), AtMost(4)),
                (Pop, Key(Some(4)), AtMost(4)),
                (Pop, Key(Some(3)), AtMost(4)),
                (Pop, Key(Some(2)), AtMost(2)),
                (Pop, Key(Some(1)), AtMost(2)),
                (Pop, Key(Some(0)), AtMost(0)),
                (Pop, Key(None), AtMost(0)),
            ],
        )],
    ),
    (
        "the smallest key is popped first under a reversed comparer",
        &[(
            Order::Reversed,
            &[
                (Push(3), Done, AtMost(0)),
                (Push(2), Done, AtMost(1)),
                (Push(4), Done, AtMost(1)),
                (Push(5), Done, AtMost(2)),
                (Push(1), Done, AtMost(2)),
                (Pop, Key(Some(1)), AtMost(4)),
                (Pop, Key(Some(2)), AtMost(4)),
                (Pop, Key(Some(3)), AtMost(2)),
                (Pop, Key(Some(4)), AtMost(2)),
                (Pop, Key(Some(5)), AtMost(0)),
                (Pop, Key(None), AtMost(0)),
            ],
        )],
    ),
    (
        "a key pushed after a clear is held",
        &[(
            Order::Number,
            &[
                (Push(7), Done, AtMost(0)),
                (Clear, Done, AtMost(0)),
                (IsEmpty, Flag(true), AtMost(0)),
                (Push(7), Done, AtMost(0)),
                (Pop, Key(Some(7)), AtMost(0)),
                (Pop, Key(None), AtMost(0)),
            ],
        )],
    ),
    (
        "a held key is pushed without asking",
        &[(
            Order::Number,
            &[
                (Push(3), Done, AtMost(0)),
                (Push(9), Done, AtMost(1)),
                (Push(6), Done, AtMost(1)),
                (Push(1), Done, AtMost(2)),
                (Push(8), Done, AtMost(2)),
                (Push(3), Done, AtMost(0)),
                (Push(9), Done, AtMost(0)),
                (Push(6), Done, AtMost(0)),
                (Push(1), Done, AtMost(0)),
                (Push(8), Done, AtMost(0)),
                (Len, Length(5), AtMost(0)),
            ],
        )],
    ),
    (
        "repairs ask within the bounds and leave order",
        &[(
            Order::Number,
            &[
                (Push(0), Done, AtMost(0)),
                (Push(1), Done, AtMost(1)),
                (Push(2), Done, AtMost(1)),
                (Push(3), Done, AtMost(2)),
                (Push(4), Done, AtMost(2)),
                (Push(5), Done, AtMost(2)),
                (Push(6), Done, AtMost(2)),
                (Push(7), Done, AtMost(3)),
                (Up(0), Done, AtMost(3)),
                (Down(0), Done, AtMost(6)),
                (Update(0), Done, AtMost(6)),
                (Rebuild, Done, AtMost(16)),
                (Up(1), Done, AtMost(3)),
                (Down(1), Done, AtMost(6)),
                (Update(1), Done, AtMost(6)),
                (Rebuild, Done, AtMost(16)),
                (Up(2), Done, AtMost(3)),
                (Down(2), Done, AtMost(6)),
                (Update(2), Done, AtMost(6)),
                (Rebuild, Done, AtMost(16)),
                (Up(3), Done, AtMost(3)),
                (Down(3), Done, AtMost(6)),
                (Update(3), Done, AtMost(6)),
                (Rebuild, Done, AtMost(16)),
                (Up(4), Done, AtMost(3)),
                (Down(4), Done, AtMost(6)),
                (Update(4), Done, AtMost(6)),
                (Rebuild, Done, AtMost(16)),
                (Up(5), Done, AtMost(3)),
                (Down(5), Done, AtMost(6)),
                (Update(5), Done, AtMost(6)),
                (Rebuild, Done, AtMost(16)),
                (Up(6), Done, AtMost(3)),
                (Down(6), Done, AtMost(6)),
                (Update(6), Done, AtMost(6)),
                (Rebuild, Done, AtMost(16)),
                (Up(7), Done, AtMost(3)),
                (Down(7), Done, AtMost(6)),
                (Update(7), Done, AtMost(6)),
                (Rebuild, Done, AtMost(16)),
                (Up(8), Done, AtMost(0)),
                (Down(8), Done, AtMost(0)),
                (Update(8), Done, AtMost(0)),
                (Rebuild, Done, AtMost(16)),
                (Pop, Key(Some(7)), AtMost(6)),
                (Pop, Key(Some(6)), AtMost(4)),
                (Pop, Key(Some(5)), AtMost(4)),
                (Pop, Key(Some(4)), AtMost(4)),
                (Pop, Key(Some(3)), AtMost(4)),
                (Pop, Key(Some(2)), AtMost(2)),
                (Pop, Key(Some(1)), AtMost(2)),
            ],
        )],
    ),
    (
        "plain removals ask as often as counted ones",
        &[(
            Order::Number,
            &[
                (Push(0), Done, AtMost(0)),
                (Push(1), Done, AtMost(1)),
                (Push(2), Done, AtMost(1)),
                (Push(3), Done, AtMost(2)),
                (Push(4), Done, AtMost(2)),
                (Push(5), Done, AtMost(2)),
                (Push(6), Done, AtMost(2)),
                (Push(7), Done, AtMost(3)),
                (Remove(7), Flag(true), AtMost(6)),
                (Remove(3), Flag(true), AtMost(4)),
                (Remove(0), Flag(true), AtMost(4)),
                (Remove(8), Flag(false), AtMost(0)),
                (Remove(1), Flag(true), AtMost(4)),
            ],
        )],
    ),
    (
        "the only key is removed without asking",
        &[(
            Order::Number,
            &[
                (Push(7), Done, AtMost(0)),
                (Remove(7), Flag(true), AtMost(0)),
                (Peek, Key(None), AtMost(0)),
                (Remove(7), Flag(false), AtMost(0)),
            ],
        )],
    ),
    (
        "a key goes down by way of a leaf",
        &[(
            Order::Number,
            &[
                (Push(14), Done, AtMost(0)),
                (Push(13), Done, AtMost(1)),
                (Push(12), Done, AtMost(1)),
                (Push(11), Done, AtMost(2)),
                (Push(10), Done, AtMost(2)),
                (Push(9), Done, AtMost(2)),
                (Push(8), Done, AtMost(2)),
                (Push(7), Done, AtMost(3)),
                (Push(6), Done, AtMost(3)),
                (Push(5), Done, AtMost(3)),
                (Push(4), Done, AtMost(3)),
                (Push(3), Done, AtMost(3)),
                (Push(2), Done, AtMost(3)),
                (Push(1), Done, AtMost(3)),
                (Push(0), Done, AtMost(3)),
                (Down(14), Done, Exactly(6)),
                (Pop, Key(Some(14)), Exactly(4)),
            ],
        )],
    ),
    (
        "a rebuild of few keys asks little",
        &[(
            Order::Number,
            &[
                (Rebuild, Done, AtMost(0)),
                (Push(7), Done, AtMost(0)),
                (Rebuild, Done, AtMost(2)),
                (Peek, Key(Some(7)), AtMost(0)),
            ],
        )],
    ),
    (
        "a popped key can be pushed again",
        &[(
            Order::Number,
            &[
                (Push(254), Done, AtMost(0)),
                (Push(0), Done, AtMost(1)),
                (Push(254), Done, AtMost(0)),
                (Push(200), Done, AtMost(1)),
                (Len, Length(3), AtMost(0)),
                (Peek, Key(Some(254)), AtMost(0)),
                (Pop, Key(Some(254)), AtMost(2)),
                (Contains(254), Flag(false), AtMost(0)),
                (Push(254), Done, AtMost(1)),
                (Pop, Key(Some(254)), AtMost(2)),
                (Pop, Key(Some(200)), AtMost(2)),
                (Pop, Key(Some(0)), AtMost(0)),
                (Pop, Key(None), AtMost(0)),
                (Pop, Key(None), AtMost(0)),
                (Pop, Key(None), AtMost(0)),
                (Pop, Key(None), AtMost(0)),
            ],
        )],
    ),
    (
        "a risen rank is put right by a way up",
        &[
            (
                Order::Ranks(&[5, 3, 4]),
                &[
                    (Push(0), Done, AtMost(0)),
                    (Push(1), Done, AtMost(1)),
                    (Push(2), Done, AtMost(1)),
                ],
            ),
            (
                Order::Ranks(&[5, 9, 4]),
                &[
                    (Up(1), Done, AtMost(1)),
                    (Pop, Key(Some(1)), AtMost(2)),
                    (Pop, Key(Some(0)), AtMost(2)),
                    (Pop, Key(Some(2)), AtMost(0)),
                    (Pop, Key(None), AtMost(0)),
                    (Pop, Key(None), AtMost(0)),
                    (Pop, Key(None), AtMost(0)),
                    (Pop, Key(None), AtMost(0)),
                ],
            ),
        ],
    ),
    (
        "a fallen rank is put right by a way down",
        &[
            (
                Order::Ranks(&[5, 3, 4]),
                &[
                    (Push(0), Done, AtMost(0)),
                    (Push(1), Done, AtMost(1)),
                    (Push(2), Done, AtMost(1)),
                ],
            ),
            (
                Order::Ranks(&[1, 3, 4]),
                &[
                    (Down(0), Done, AtMost(2)),
                    (Pop, Key(Some(2)), AtMost(2)),
                    (Pop, Key(Some(1)), AtMost(2)),
                    (Pop, Key(Some(0)), AtMost(0)),
                    (Pop, Key(None), AtMost(0)),
                    (Pop, Key(None), AtMost(0)),
                    (Pop, Key(None), AtMost(0)),
                    (Pop, Key(None), AtMost(0)),
                ],
            ),
        ],
    ),
    (
        "a fallen rank is put right by an update",
        &[
            (
                Order::Ranks(&[5, 3, 4]),
                &[
                    (Push(0), Done, AtMost(0)),
                    (Push(1), Done, AtMost(1)),
                    (Push(2), Done, AtMost(1)),
                ],
            ),
            (
                Order::Ranks(&[1, 3, 4]),
                &[
                    (Update(0), Done, AtMost(2)),
                    (Pop, Key(Some(2)), AtMost(2)),
                    (Pop, Key(Some(1)), AtMost(2)),
                    (Pop, Key(Some(0)), AtMost(0)),
                    (Pop, Key(None), AtMost(0)),
                    (Pop, Key(None), AtMost(0)),
                    (Pop, Key(None), AtMost(0)),
                    (Pop, Key(None), AtMost(0)),
                ],
            ),
        ],
    ),
    (
        "a risen rank is put right by an update",
        &[
            (
                Order::Ranks(&[5, 3, 4]),
                &[
                    (Push(0), Done, AtMost(0)),
                    (Push(1), Done, AtMost(1)),
                    (Push(2), Done, AtMost(1)),
                ],
            ),
            (
                Order::Ranks(&[5, 9, 4]),
                &[
                    (Update(1), Done, AtMost(2)),
                    (Pop, Key(Some(1)), AtMost(2)),
                    (Pop, Key(Some(0)), AtMost(2)),
                    (Pop, Key(Some(2)), AtMost(0)),
                    (Pop, Key(None), AtMost(0)),
                    (Pop, Key(None), AtMost(0)),
                    (Pop, Key(None), AtMost(0)),
                    (Pop, Key(None), AtMost(0)),
                ],
            ),
        ],
    ),
    (
        "changed ranks are put right by a rebuild",
        &[
            (
                Order::Ranks(&[5, 3, 4]),
                &[
                    (Push(0), Done, AtMost(0)),
                    (Push(1), Done, AtMost(1)),
                    (Push(2), Done, AtMost(1)),
                ],
            ),
            (
                Order::Ranks(&[4, 9, 5]),
                &[
                    (Rebuild, Done, AtMost(6)),
                    (Pop, Key(Some(1)), AtMost(2)),
                    (Pop, Key(Some(2)), AtMost(2)),
                    (Pop, Key(Some(0)), AtMost(0)),
                    (Pop, Key(None), AtMost(0)),
                    (Pop, Key(None), AtMost(0)),
                    (Pop, Key(None), AtMost(0)),
                    (Pop, Key(None), AtMost(0)),
                ],
            ),
        ],
    ),
    (
        "two changed ranks are put right by a rebuild",
        &[
            (
                Order::Ranks(&[10, 8, 2, 6]),
                &[
                    (Push(0), Done, AtMost(0)),
                    (Push(1), Done, AtMost(1)),
                    (Push(2), Done, AtMost(1)),
                    (Push(3), Done, AtMost(2)),
                ],
            ),
            (
                Order::Ranks(&[1, 0, 2, 6]),
                &[
                    (Rebuild, Done, AtMost(8)),
                    (Pop, Key(Some(3)), AtMost(4)),
                    (Pop, Key(Some(2)), AtMost(2)),
                    (Pop, Key(Some(0)), AtMost(2)),
                    (Pop, Key(Some(1)), AtMost(0)),
                    (Pop, Key(None), AtMost(0)),
                    (Pop, Key(None), AtMost(0)),
                    (Pop, Key(None), AtMost(0)),
                ],
            ),
        ],
    ),
    (
        "a key is pushed or moved",
        &[
            (
                Order::Ranks(&[5, 3, 4]),
                &[(Push(0), Done, AtMost(0)), (Push(1), Done, AtMost(1))],
            ),
            (
                Order::Ranks(&[1, 3, 4]),
                &[
                    (PushOrUpdate(0), Done, AtMost(2)),
                    (PushOrUpdate(2), Done, AtMost(2)),
                    (PushOrUpdate(1), Done, AtMost(2)),
                    (Pop, Key(Some(2)), AtMost(2)),
                    (Pop, Key(Some(1)), AtMost(2)),
                    (Pop, Key(Some(0)), AtMost(0)),
                    (Pop, Key(None), AtMost(0)),
                ],
            ),
        ],
    ),
    (
        "the root is removed, and the others come in order",
        &[
            (Order::Number, SEVEN),
            (
                Order::Number,
                &[
                    (Remove(9), Flag(true), AtMost(4)),
                    (Pop, Key(Some(8)), AtMost(4)),
                    (Pop, Key(Some(7)), AtMost(4)),
                    (Pop, Key(Some(6)), AtMost(4)),
                    (Pop, Key(Some(3)), AtMost(2)),
                    (Pop, Key(Some(2)), AtMost(2)),
                    (Pop, Key(Some(1)), AtMost(0)),
                    (Pop, Key(None), AtMost(0)),
                ],
            ),
        ],
    ),
    (
        "a key between is removed, and the others come in order",
        &[
            (Order::Number, SEVEN),
            (
                Order::Number,
                &[
                    (Remove(3), Flag(true), AtMost(4)),
                    (Pop, Key(Some(9)), AtMost(4)),
                    (Pop, Key(Some(8)), AtMost(4)),
                    (Pop, Key(Some(7)), AtMost(4)),
                    (Pop, Key(Some(6)), AtMost(2)),
                    (Pop, Key(Some(2)), AtMost(2)),
                    (Pop, Key(Some(1)), AtMost(0)),
                    (Pop, Key(None), AtMost(0)),
                ],
            ),
        ],
    ),
    (
        "another key between is removed, and the others come in order",
        &[
            (Order::Number, SEVEN),
            (
                Order::Number,
                &[
                    (Remove(8), Flag(true), AtMost(4)),
                    (Pop, Key(Some(9)), AtMost(4)),
                    (Pop, Key(Some(7)), AtMost(4)),
                    (Pop, Key(Some(6)), AtMost(4)),
                    (Pop, Key(Some(3)), AtMost(2)),
                    (Pop, Key(Some(2)), AtMost(2)),
                    (Pop, Key(Some(1)), AtMost(0)),
                    (Pop, Key(None), AtMost(0)),
                ],
            ),
        ],
    ),
    (
        "a leaf, whose place the last key leaves upward, is removed, and the others come in order",
        &[
            (Order::Number, SEVEN),
            (
                Order::Number,
                &[
                    (Remove(1), Flag(true), AtMost(4)),
                    (Pop, Key(Some(9)), AtMost(4)),
                    (Pop, Key(Some(8)), AtMost(4)),
                    (Pop, Key(Some(7)), AtMost(4)),
                    (Pop, Key(Some(6)), AtMost(2)),
                    (Pop, Key(Some(3)), AtMost(2)),
                    (Pop, Key(Some(2)), AtMost(0)),
                    (Pop, Key(None), AtMost(0)),
                ],
            ),
        ],
    ),
    (
        "a leaf is removed, and the others come in order",
        &[
            (Order::Number, SEVEN),
            (
                Order::Number,
                &[
                    (Remove(2), Flag(true), AtMost(4)),
                    (Pop, Key(Some(9)), AtMost(4)),
                    (Pop, Key(Some(8)), AtMost(4)),
                    (Pop, Key(Some(7)), AtMost(4)),
                    (Pop, Key(Some(6)), AtMost(2)),
                    (Pop, Key(Some(3)), AtMost(2)),
                    (Pop, Key(Some(1)), AtMost(0)),
                    (Pop, Key(None), AtMost(0)),
                ],
            ),
        ],
    ),
    (
        "another leaf is removed, and the others come in order",
        &[
            (Order::Number, SEVEN),
            (
                Order::Number,
                &[
                    (Remove(7), Flag(true), AtMost(4)),
                    (Pop, Key(Some(9)), AtMost(4)),
                    (Pop, Key(Some(8)), AtMost(4)),
                    (Pop, Key(Some(6)), AtMost(4)),
                    (Pop, Key(Some(3)), AtMost(2)),
                    (Pop, Key(Some(2)), AtMost(2)),
                    (Pop, Key(Some(1)), AtMost(0)),
                    (Pop, Key(None), AtMost(0)),
                ],
            ),
        ],
    ),
    (
        "the last key is removed, and the others come in order",
        &[
            (Order::Number, SEVEN),
            (
                Order::Number,
                &[
                    (Remove(6), Flag(true), AtMost(4)),
                    (Pop, Key(Some(9)), AtMost(4)),
                    (Pop, Key(Some(8)), AtMost(4)),
                    (Pop, Key(Some(7)), AtMost(4)),
                    (Pop, Key(Some(3)), AtMost(2)),
                    (Pop, Key(Some(2)), AtMost(2)),
                    (Pop, Key(Some(1)), AtMost(0)),
                    (Pop, Key(None), AtMost(0)),
                ],
            ),
        ],
    ),
    (
        "no held key is removed, and the others come in order",
        &[
            (Order::Number, SEVEN),
            (
                Order::Number,
                &[
                    (Remove(5), Flag(false), AtMost(0)),
                    (Pop, Key(Some(9)), AtMost(4)),
                    (Pop, Key(Some(8)), AtMost(4)),
                    (Pop, Key(Some(7)), AtMost(4)),
                    (Pop, Key(Some(6)), AtMost(4)),
                    (Pop, Key(Some(3)), AtMost(2)),
                    (Pop, Key(Some(2)), AtMost(2)),
                    (Pop, Key(Some(1)), AtMost(0)),
                ],
            ),
        ],
    ),
];

// The array of a heap is then as these keys are pushed. In the place of 1 the last key goes up.
const SEVEN: &[Row] = &[
    (Push(9), Done, AtMost(0)),
    (Push(3), Done, AtMost(1)),
    (Push(8), Done, AtMost(1)),
    (Push(1), Done, AtMost(2)),
    (Push(2), Done, AtMost(2)),
    (Push(7), Done, AtMost(2)),
    (Push(6), Done, AtMost(2)),
];

/// Calls under comparers without laws, each with the most that it may ask; and which of the keys below
/// seven come out.
pub(crate) const LAWLESS: &[(&[(Call, u64)], [bool; 7])] = &[
    (
        &[
            (Push(0), 0),
            (Push(1), 1),
            (Push(2), 1),
            (Update(1), 2),
            (Pop, 2),
            (Pop, 2),
            (Pop, 0),
            (Pop, 0),
        ],
        [true, true, true, false, false, false, false],
    ),
    (
        &[
            (Push(0), 0),
            (Push(1), 1),
            (Push(2), 1),
            (Rebuild, 6),
            (Down(2), 2),
            (Pop, 2),
            (Pop, 2),
            (Pop, 0),
            (Pop, 0),
        ],
        [true, true, true, false, false, false, false],
    ),
    (
        &[
            (Push(0), 0),
            (Push(1), 1),
            (Push(2), 1),
            (Push(3), 2),
            (Push(4), 2),
            (Push(5), 2),
            (Push(6), 2),
            (Update(3), 4),
            (Down(0), 4),
            (Up(6), 2),
            (Rebuild, 14),
            (Pop, 4),
            (Pop, 4),
            (Pop, 4),
            (Pop, 4),
            (Pop, 2),
            (Pop, 2),
            (Pop, 0),
        ],
        [true; 7],
    ),
];
