//! Modules whose places are hard to come to, or can't be come to: loops
//! without end, code behind a Return or a Jump, back jumps, the most
//! instructions.

use crate::make::Bytes;
use crate::modules::{function, long, module_case, ModuleCase, Parts, RETURN};

const JUMP: u8 = 28;
const IF_FALSE: u8 = 29;
const IF_TRUE: u8 = 30;
const POP: u8 = 7;

/// The most instructions that a function has.
pub const MOST: usize = 65_535;

fn case(name: &str, code: &[Bytes]) -> ModuleCase {
    module_case(&format!("reach-{name}"), Parts::of(code).bytes())
}

/// Small functions, to be asked about each of their places.
pub fn small() -> Vec<ModuleCase> {
    let pop = || vec![POP];
    let mut cases = vec![
        case("nothing", &[]),
        case("straight", &[pop(), pop()]),
        case("spin", &[long(JUMP, -1)]),
        case(
            "spin-behind-a-question",
            &[long(IF_FALSE, 1), long(JUMP, -1), pop()],
        ),
        case("ring", &[long(JUMP, 1), long(JUMP, -2), long(JUMP, -2)]),
        case("busy", &[pop(), pop(), long(JUMP, -3), pop()]),
        case("behind-a-return", &[vec![RETURN], pop(), long(IF_TRUE, -2)]),
        case("over-a-place", &[long(JUMP, 1), pop(), pop()]),
        // 1 is reached from 3 alone
        case(
            "back-jump",
            &[long(JUMP, 2), pop(), long(JUMP, 1), long(JUMP, -3)],
        ),
        // 1 is reached from 3 alone, by a yes; by a no
        case(
            "back-yes",
            &[long(JUMP, 2), pop(), vec![RETURN], long(IF_TRUE, -3)],
        ),
        case(
            "back-no",
            &[long(JUMP, 2), pop(), vec![RETURN], long(IF_FALSE, -3)],
        ),
        // the loop ends only if the question at 0 is met again
        case(
            "twice",
            &[
                long(IF_FALSE, 2),
                long(JUMP, 0),
                long(JUMP, -3),
                long(IF_TRUE, -4),
            ],
        ),
        case("ask-again", &[long(IF_FALSE, -1), pop()]),
        case("ask-to-next", &[long(IF_TRUE, 0), long(IF_FALSE, 0), pop()]),
        case(
            "ask-round",
            &[long(IF_TRUE, 1), long(JUMP, -2), long(IF_FALSE, -3), pop()],
        ),
        case(
            "two-ways",
            &[long(IF_FALSE, 2), pop(), long(JUMP, 1), pop(), pop()],
        ),
        case("last-question", &[pop(), long(IF_TRUE, 0)]),
        case(
            "question-not-reached",
            &[vec![RETURN], long(IF_TRUE, -1), long(IF_FALSE, -3)],
        ),
    ];
    let second = Parts::with(&[
        function(0, &[vec![RETURN]]),
        function(0, &[long(IF_FALSE, 1), long(JUMP, -1), vec![RETURN]]),
        function(0, &[]),
    ]);
    cases.push(module_case("reach-refused-21", second.bytes()));
    let mut three = second;
    three.functions[2] = function(0, &[long(IF_TRUE, 0), vec![RETURN]]);
    cases.push(module_case("reach-three", three.bytes()));
    cases.push(module_case("reach-no-functions", Parts::with(&[]).bytes()));
    cases
}

/// Functions of the most instructions, to be asked about some of their places.
pub fn large() -> Vec<ModuleCase> {
    let last = MOST as i32 - 1;
    let of = |name: &str, instruction: &dyn Fn(i32) -> Bytes| {
        case(name, &(0..last).map(instruction).collect::<Vec<_>>())
    };
    vec![
        of("most-straight", &|_| vec![POP]),
        of("most-jumps", &|_| long(JUMP, 0)),
        of("most-questions", &|_| long(IF_FALSE, 0)),
        // each place needs a yes to each question before it: a no ends
        of("most-yes", &|place| long(IF_FALSE, last - place - 1)),
        of("most-no", &|place| long(IF_TRUE, last - place - 1)),
        // a wrong answer begins again
        of("most-again", &|place| long(IF_FALSE, -place - 1)),
        of("most-turns", &|place| match place % 2 {
            0 => long(IF_FALSE, -place - 1),
            _ => long(IF_TRUE, -place - 1),
        }),
        // 0, last - 1, 1, last - 2, ..: from one end to the other and back
        of("most-zigzag", &|place| {
            let mirrored = last - 1 - place;
            let next = if place < mirrored {
                mirrored
            } else {
                mirrored + 1
            };
            long(JUMP, next - place - 1)
        }),
        of("most-spin", &|place| long(JUMP, -1 - place)),
        of("most-back", &|place| match place {
            0 => long(JUMP, last - 2),
            1 => vec![RETURN],
            _ => long(JUMP, -2),
        }),
    ]
}
