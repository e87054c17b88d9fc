//! The examples of the pages, as a list of scripts and the answers that they must get.

use crate::script;

struct Example {
    name: &'static str,
    script: &'static str,
    answers: &'static [&'static str],
}

const EXAMPLES: [Example; 9] = [
    Example {
        name: "lines of words",
        script: "set-word 0 0x68C2003A\nset-word 1 0xE1C60004\nset-word 2 0x61885000\n\
                 set-word 3 0x1A4000D4\nset-word 4 0x0841FFFF\nset-word 5 0x60000001\nlist 0 6",
        answers: &[
            "ok",
            "ok",
            "ok",
            "ok",
            "ok",
            "ok",
            "0 0 68C2003A addi r3, r1, 58",
            "1 4 E1C60004 shl r7, r3, 4",
            "2 8 61885000 add r6, r4, r5",
            "3 12 1A4000D4 st r9, 212",
            "4 16 0841FFFF ld r1, -1",
            "5 20 60000001 word 60000001",
        ],
    },
    Example {
        name: "an image of two words",
        script: "image 68C2003AF8000000 0000000000000002 53524349 00000001 00000010\n\
                 start\nclock 1000000\nregister 3\nstate",
        answers: &[
            "ok",
            "ok",
            "spent 10 finished 2",
            "0000003A",
            "pc 00000008 step 0 run 0 clocks 10 waits 0 finished 2",
        ],
    },
    Example {
        name: "stray bits do not alter what a word does",
        script: "set-word 0 0x60000001\nset-register 0 21\nresume\nclock 6\nregister 0",
        answers: &["ok", "ok", "ok", "spent 6 finished 1", "0000002A"],
    },
    Example {
        name: "brl r5, r5, r0, 1 goes to the old R5",
        script: "set-word 0 0x494A0001\nline 0\nset-register 5 400\nresume\nclock 7\nregister 5\nstate",
        answers: &[
            "ok",
            "brl r5, r5, r0, 1",
            "ok",
            "ok",
            "spent 7 finished 1",
            "00000004",
            "pc 00000190 step 0 run 1 clocks 7 waits 0 finished 1",
        ],
    },
    Example {
        name: "a delay of d makes the first d clocks of the step waits",
        script: "slow 0 1 3\nstart\nclock 4\nstate\nclock 1\nstate",
        answers: &[
            "ok",
            "ok",
            "spent 4 finished 0",
            "pc 00000000 step 1 run 1 clocks 4 waits 3 finished 0",
            "spent 1 finished 0",
            "pc 00000004 step 2 run 1 clocks 5 waits 3 finished 0",
        ],
    },
    Example {
        name: "a reset in the middle of a store's wait does not write the word",
        script: "slow 2 1 9\nset-word 0 0x18400008\nset-register 1 5\nresume\nclock 16\nstate\nreset\n\
                 clock 1\nstate\nword 2\nclock 17\nword 2",
        answers: &[
            "ok",
            "ok",
            "ok",
            "ok",
            "spent 16 finished 0",
            "pc 00000004 step 7 run 1 clocks 16 waits 9 finished 0",
            "ok",
            "spent 1 finished 0",
            "pc 00000000 step 0 run 1 clocks 0 waits 0 finished 0",
            "00000000",
            "spent 17 finished 1",
            "00000005",
        ],
    },
    Example {
        name: "a fetch above the memory takes two clocks and keeps PC",
        script: "words 1\nstart\nclock 9\nstate",
        answers: &[
            "ok",
            "ok",
            "fault 19 (no word has that number) number 1 size 1 address 4 step 1 instruction 4 spent 6 finished 1",
            "pc 00000004 step 0 run 0 clocks 6 waits 0 finished 1",
        ],
    },
    Example {
        name: "an unassigned operation takes four clocks",
        script: "set-word 0 0x38000000\nstart\nclock 9\nresume",
        answers: &[
            "ok",
            "ok",
            "fault 17 (the operation's code is unassigned) address 0 step 3 instruction 0 spent 4 finished 0",
            "refused 2 (the fault mark is set)",
        ],
    },
    Example {
        name: "an address that is no multiple of four comes before one above the memory",
        script: "words 1\nset-word 0 0x1801FFFF\nline 0\nstart\nclock 9",
        answers: &[
            "ok",
            "ok",
            "st r0, -1",
            "ok",
            "fault 18 (the address is no multiple of four) address 4294967295 step 7 instruction 0 spent 8 finished 0",
        ],
    },
];

impl Example {
    fn holds(&self) -> Result<(), String> {
        let (printed, trouble) = script::run(self.script);
        if let Some(trouble) = trouble {
            return Err(trouble);
        }
        let printed: Vec<&str> = printed.lines().collect();
        if printed != self.answers {
            return Err(format!("printed {printed:#?} and not {:#?}", self.answers));
        }
        Ok(())
    }
}

/// Tells each example. True where all hold.
pub fn run() -> bool {
    let mut good = true;
    for example in &EXAMPLES {
        match example.holds() {
            Ok(()) => println!("good: {}", example.name),
            Err(why) => {
                good = false;
                println!("BAD: {}: {why}", example.name);
            }
        }
    }
    good
}

#[cfg(test)]
mod tests {
    use super::*;

    #[test]
    fn every_example_holds() {
        for example in &EXAMPLES {
            assert_eq!(example.holds(), Ok(()), "{}", example.name);
        }
    }
}
