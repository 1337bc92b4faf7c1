//! The definition's cards 1 to 13, worked by the model, and the words that are left above the depths.

use model::{Call, Engine, Lent, Model, State};

struct Desk {
    text: Vec<u8>,
    compiled: [u64; 4],
    state: State,
    operators: Vec<u32>,
    labels: Vec<u32>,
    operand_stack: Vec<u32>,
    call_stack: Vec<u32>,
    memory: Vec<u32>,
}

impl Desk {
    fn with_operands(text: impl AsRef<[u8]>, operands: usize) -> Desk {
        let text = text.as_ref().to_vec();
        let (mut operators, mut labels) = (vec![9; 64], vec![9; 30]);
        let compiled = Model.compile(&text, &mut operators, &mut labels);
        let mut memory = vec![9; 16];
        let state = State::from_words(Model.fresh(&mut memory));
        Desk { text, compiled, state, operators, labels, operand_stack: vec![9; operands], call_stack: vec![9; 8], memory }
    }

    fn new(text: impl AsRef<[u8]>) -> Desk {
        Desk::with_operands(text, 32)
    }

    fn call(&mut self, call: Call) -> [u64; 3] {
        let mut lent = Lent {
            state: self.state,
            operator_count: self.compiled[2] as usize,
            label_count: self.compiled[3] as usize,
            text: &self.text,
            operators: &self.operators,
            labels: &self.labels,
            operand_stack: &mut self.operand_stack,
            call_stack: &mut self.call_stack,
            memory: &mut self.memory,
        };
        let out = Model.call(call, &mut lent);
        self.state = State::answered(&out);
        [out[0], out[1], out[2]]
    }

    fn run(&mut self) -> [u64; 3] {
        self.call(Call::Run { budget: 1000 })
    }

    fn operands(&self) -> Vec<i32> {
        self.operand_stack[..self.state.operand_depth].iter().map(|&word| word as i32).collect()
    }

    fn ranges(&self) -> Vec<(u32, u32)> {
        self.operators.chunks(4).take(self.compiled[2] as usize).map(|record| (record[1], record[2])).collect()
    }
}

/// What is on the stack after a run to the end.
fn left(text: &str) -> Vec<i32> {
    let mut desk = Desk::new(text);
    assert_eq!(desk.run()[0], 8, "{text}");
    desk.operands()
}

#[test]
fn card_1_and_2() {
    assert_eq!(Desk::new("").call(Call::Run { budget: 1 }), [8, 0, 1]);
    let mut desk = Desk::new("1 2 +");
    assert_eq!(desk.run(), [8, 3, 4]);
    assert_eq!((desk.operands(), desk.ranges()), (vec![3], vec![(0, 1), (2, 3), (4, 5)]));
}

#[test]
fn card_3() {
    assert_eq!(left("0x80000000 0x-1 4294967295"), [-2147483648, -1, -1]);
    for identifier in ["0x", "0X1", "4294967296"] {
        assert_eq!(Desk::new(identifier).run(), [10, 0, 1]);
    }
}

#[test]
fn card_4_and_5() {
    for (text, name) in [("::", (0, 1)), ("@a:", (0, 2))] {
        let desk = Desk::new(text);
        assert_eq!((desk.compiled, desk.labels[0], desk.labels[1]), ([0, 0, 0, 1], name.0, name.1));
    }
    assert_eq!(left("@a a: 1 a: 2")[0], 1);
}

#[test]
fn card_6() {
    let mut desk = Desk::new("call");
    assert_eq!(desk.run(), [7, 0, 1]);
    assert_eq!((desk.state.call_depth, desk.call_stack[0]), (1, 1));
    assert_eq!(Model.call_stack(1, &desk.call_stack, 0), [0, 0, 0]);
}

#[test]
fn card_7_and_8() {
    assert_eq!(left("-7 2 /"), [-3, -1]);
    let mut desk = Desk::new("-2147483648 -1 /");
    assert_eq!((desk.run(), desk.state.operand_depth), ([3, 2, 3], 0));
    assert_eq!(left("1 32 shift_left"), [1]);
    assert_eq!(left("-1 -1 shift_right"), [-1]);
}

#[test]
fn card_9_and_10() {
    let mut desk = Desk::new("4294967295 jump");
    assert_eq!((desk.run(), desk.state.next_operator), ([8, 4294967295, 3], 0));
    let mut desk = Desk::new("yield 5");
    assert_eq!((desk.run(), desk.run(), desk.call(Call::Clear)), ([11, 0, 1], [11, 0, 1], [11, 0, 0]));
    assert_eq!(desk.run(), [8, 2, 1]);
}

#[test]
fn card_11_and_12() {
    let mut desk = Desk::new("1 1 copy");
    assert_eq!((desk.run(), desk.state.operand_depth), ([5, 2, 3], 1));
    assert_eq!(left("7 8 1 drop"), [8]);
    let mut desk = Desk::with_operands("1 2", 1);
    assert_eq!((desk.run(), desk.state.next_operator), ([27, 1, 1], 1));
    assert_eq!(Desk::with_operands("1 2", 2).run(), [8, 2, 3]);
}

#[test]
fn card_13() {
    assert_eq!(Desk::new(b"\x31\xC2\xA0\x32").ranges(), [(0, 1), (3, 4)]);
    assert_eq!(Desk::new(b"\xC2").compiled, [21, 0, 0, 0]);
}

/// Both buffers after a run, of nines at first: so many words of the operand stack, and two of the call stack.
fn stacks<const COUNT: usize>(text: &str) -> ([u32; COUNT], [u32; 2]) {
    let mut desk = Desk::new(text);
    desk.run();
    let (operands, calls) = (desk.operand_stack.first_chunk(), desk.call_stack.first_chunk());
    (*operands.expect("it is longer"), *calls.expect("it is longer"))
}

#[test]
fn a_released_word_becomes_zero() {
    assert_eq!(stacks("1 2 +"), ([3, 0, 9], [9, 9]));
    assert_eq!(stacks("1 +"), ([0, 9, 9], [9, 9]));
    assert_eq!(stacks("7 0 /"), ([0, 0, 9], [9, 9]));
    assert_eq!(stacks("7 8 6 2 drop"), ([8, 6, 0, 0, 9], [9, 9]));
    assert_eq!(stacks("7 8 0 drop"), ([7, 0, 0, 9], [9, 9]));
    assert_eq!(stacks("7 2 drop"), ([7, 0, 9], [9, 9]));
    assert_eq!(stacks("@a call yield a: return"), ([0, 9, 9], [0, 9]));
    assert_eq!(stacks("1 @a call_either a: 5"), ([0, 0, 9], [3, 9]));
    assert_eq!(stacks("1 @a @b call_either a: yield b: return"), ([0, 0, 0, 9], [4, 9]));
}

#[test]
fn a_word_that_the_host_pops_becomes_zero() {
    let mut desk = Desk::new("");
    assert_eq!((desk.call(Call::Push { word: 7 }), desk.call(Call::Pop)), ([0, 0, 0], [0, 7, 0]));
    assert_eq!((desk.call(Call::Pop), desk.call(Call::Clear)), ([30, 0, 0], [0, 0, 0]));
    assert_eq!(desk.operand_stack[..3], [0, 9, 9]);
}

#[test]
fn a_refused_run_has_made_its_steps_and_no_more() {
    let mut desk = Desk::with_operands("1 2 + 4 5 6", 3);
    assert_eq!((desk.run(), desk.operand_stack.as_slice()), ([27, 3, 5], &[3, 4, 5][..]));
    let mut desk = Desk::new("1 2 + @a call a: 5 @a call");
    let made = desk.call(Call::Run { budget: 3 });
    assert_eq!((made, &desk.operand_stack[..3]), ([29, 3, 3], &[3, 0, 9][..]));
}
