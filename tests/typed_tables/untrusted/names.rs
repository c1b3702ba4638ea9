//! Names of attributes that share a hash, as a stranger may choose them.
use std::alloc::{AllocError, Global};

// The hash of a map takes a name by blocks of 16 bytes. It multiplies the two halves of a block, each
// mixed with a number that is known, so there are two blocks of each place with the same product. These
// are such blocks, after one that all names share.
const FIRST: &str = "hapksvbnbydtsprq";

const BLOCKS: [[&str; 2]; 14] = [
    [
        "1,\u{aba}\u{4c2}Lme<[\u{7ba}\u{42a}",
        "v1\u{74e8}\u{191}V*x;b\u{32f}\u{f0}",
    ],
    [
        "\u{bd4b}\u{d287}Nd\u{8d4f}\u{ed02}Xf",
        "g\u{5d396}\u{6b8}<d\u{59368}\u{7ee}>",
    ],
    [
        "'G\u{d10})\u{110}OA\u{2d8}fm`x",
        "5\u{2347}*\u{d363}]\u{49ab}\u{729})K",
    ],
    [
        "@<d\u{2c6}TD8V8K\u{6bf}W9+",
        "&%~T\u{56a5b}0!QE\u{215}\u{508}",
    ],
    [
        "[L\u{3c2}\u{838e}TAfK\u{40d}1LJ",
        ".C\u{597}\u{714b}34iR\u{142}:I-",
    ],
    [
        "[M\u{40e}H\u{43b4}\u{674}_C.\u{5399}",
        "ke(-\u{480}'N\u{9727}\u{d01}'c",
    ],
    [
        "7>\u{2f7}2Dm0k@\u{55f}\u{103b80}",
        "= WV5{T#a^I~\u{fc5d3}",
    ],
    [
        "4} ?:@n+\u{2f41}\u{63e}=k#",
        "3_2=%;\u{7c6}\u{57d3}\u{6a1}F\u{68e}",
    ],
    [
        ".\u{7aae}]X.`7\u{68ac}Apx$",
        "\u{7fc}./uP=g\u{1bd}&-ixk#",
    ],
    [
        "&4u\u{474a}\u{540}\u{c7}0H\u{677}c(",
        "+<%\u{d38a}\u{21d}\u{38f}`A\u{2b7}~5",
    ],
    [
        "bl\u{b4}L\u{490}*Uxn2\u{79b}\u{14a}",
        "\u{9b49}e2\u{31b}%\u{7b9}%\u{3805}\u{385}",
    ],
    [
        "lptTmysCw\u{3ba4}\u{7696}{",
        "U\u{18f}+%$yfNUU\u{6ef}\u{1dc}^",
    ],
    [
        "z\u{88a9}l.o!u3H@\u{5fd}k0",
        "@\u{5098}g58gO>hq\u{726}<v",
    ],
    [
        "R*@ UP8&HU(,5\u{422f}",
        "63H$-_62,L (M\u{b1bb}",
    ],
];

/// Returns as many different names as two to this power, of 16 bytes and as many more as there are blocks,
/// that share a hash.
pub fn names(alloc: Global, power: u32) -> Result<Vec<String>, AllocError> {
    let mut names = Vec::new(alloc);
    for number in 0..1_u32 << power {
        let mut name = String::from_str(alloc, FIRST)?;
        let mut rest = number;
        for pair in &BLOCKS {
            name.push_str(pair[usize::from(rest % 2 == 1)])?;
            rest /= 2;
        }
        names.push(name)?;
    }
    Ok(names)
}
