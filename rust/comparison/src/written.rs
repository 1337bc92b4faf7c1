//! A case as one line, to be read again by --replay.

use crate::case::{Action, Case, Place, Sizes};
use model::Call;
use std::fmt;

/// text=1%202 sizes=8,3,4,2,8 fill=1 do=step,run:5,write:0:7,next=3,operators.2=9
impl fmt::Display for Case {
    fn fmt(&self, f: &mut fmt::Formatter) -> fmt::Result {
        let Sizes { operators, labels, operand_stack, call_stack, memory } = self.sizes;
        write!(f, "text={} sizes={operators},{labels},{operand_stack},{call_stack},{memory} ", escaped(&self.text))?;
        let actions: Vec<String> = self.actions.iter().map(action).collect();
        write!(f, "fill={} do={}", self.fill, actions.join(","))
    }
}

/// A part that is repeated at least eight times is written once: {1000:ab}.
fn escaped(text: &[u8]) -> String {
    let mut line = String::new();
    let mut at = 0;
    while at < text.len() {
        let repeated = (1..=4).find_map(|width| {
            let unit = text.get(at..at + width)?;
            let times = text[at..].chunks_exact(width).take_while(|part| part == &unit).count();
            (times >= 8).then_some((unit, times))
        });
        let (unit, times) = repeated.unwrap_or((&text[at..at + 1], 1));
        let plain = unit.iter().map(|&byte| escaped_byte(byte)).collect::<String>();
        line.push_str(&if times > 1 { format!("{{{times}:{plain}}}") } else { plain });
        at += unit.len() * times;
    }
    line
}

fn escaped_byte(byte: u8) -> String {
    match byte {
        b'%' | b'\'' | b'"' | b'{' | b'}' | 0..=b' ' | 0x7F.. => format!("%{byte:02X}"),
        plain => char::from(plain).into(),
    }
}

fn action(action: &Action) -> String {
    match *action {
        Action::Call(Call::Step) => "step".into(),
        Action::Call(Call::Run { budget }) => format!("run:{budget}"),
        Action::Call(Call::Clear) => "clear".into(),
        Action::Call(Call::Push { word }) => format!("push:{word}"),
        Action::Call(Call::Pop) => "pop".into(),
        Action::Call(Call::Read { address }) => format!("read:{address}"),
        Action::Call(Call::Write { address, word }) => format!("write:{address}:{word}"),
        Action::Forge(place, value) => format!("{}={value}", place_name(place)),
    }
}

const NUMBERS: [(&str, Place); 8] = [
    ("next", Place::NextOperator),
    ("operand_depth", Place::OperandDepth),
    ("call_depth", Place::CallDepth),
    ("effect", Place::Effect),
    ("effect_operator", Place::EffectOperator),
    ("operator_count", Place::OperatorCount),
    ("label_count", Place::LabelCount),
    ("text_length", Place::TextLength),
];

type At = fn(usize) -> Place;

const WORDS: [(&str, At); 6] = [
    ("text", Place::TextByte),
    ("operators", Place::Operators),
    ("labels", Place::Labels),
    ("operand_stack", Place::OperandStack),
    ("call_stack", Place::CallStack),
    ("memory", Place::Memory),
];

fn place_name(place: Place) -> String {
    if let Some((name, _)) = NUMBERS.iter().find(|(_, number)| *number == place) {
        return name.to_string();
    }
    let at = match place {
        Place::TextByte(at) | Place::Operators(at) | Place::Labels(at) => at,
        Place::OperandStack(at) | Place::CallStack(at) | Place::Memory(at) => at,
        _ => unreachable!("the others are numbers"),
    };
    let (name, _) = WORDS.iter().find(|(_, word)| word(at) == place).expect("the table has all");
    format!("{name}.{at}")
}

/// A case that was printed, read again.
pub fn read(line: &str) -> Option<Case> {
    let field = |name: &str| line.split_whitespace().find_map(|part| part.strip_prefix(name)?.strip_prefix('='));
    let sizes: Vec<usize> = field("sizes")?.split(',').map(str::parse).collect::<Result<_, _>>().ok()?;
    let &[operators, labels, operand_stack, call_stack, memory] = &sizes[..] else { return None };
    Some(Case {
        text: unescaped(field("text")?)?,
        sizes: Sizes { operators, labels, operand_stack, call_stack, memory },
        fill: field("fill")?.parse().ok()?,
        actions: field("do")?.split(',').filter(|word| !word.is_empty()).map(read_action).collect::<Option<_>>()?,
    })
}

fn unescaped(line: &str) -> Option<Vec<u8>> {
    let mut text = Vec::new();
    for (place, part) in line.split(['{', '}']).enumerate() {
        let (times, bytes) = if place % 2 == 1 { part.split_once(':')? } else { ("1", part) };
        text.extend(unescaped_bytes(bytes)?.repeat(times.parse().ok()?));
    }
    Some(text)
}

fn unescaped_bytes(line: &str) -> Option<Vec<u8>> {
    let mut parts = line.split('%');
    let mut text = parts.next()?.as_bytes().to_vec();
    for part in parts {
        text.push(u8::from_str_radix(part.get(..2)?, 16).ok()?);
        text.extend_from_slice(&part.as_bytes()[2..]);
    }
    Some(text)
}

fn read_action(word: &str) -> Option<Action> {
    if let Some((place, value)) = word.split_once('=') {
        return Some(Action::Forge(read_place(place)?, value.parse().ok()?));
    }
    let mut words = word.split(':');
    let name = words.next()?;
    let mut operand = || words.next()?.parse().ok();
    Some(Action::Call(match name {
        "step" => Call::Step,
        "run" => Call::Run { budget: operand()? },
        "clear" => Call::Clear,
        "push" => Call::Push { word: operand()? },
        "pop" => Call::Pop,
        "read" => Call::Read { address: operand()? },
        "write" => Call::Write { address: operand()?, word: operand()? },
        _ => return None,
    }))
}

fn read_place(name: &str) -> Option<Place> {
    if let Some((_, place)) = NUMBERS.iter().find(|(number, _)| *number == name) {
        return Some(*place);
    }
    let (name, at) = name.split_once('.')?;
    let (_, place) = WORDS.iter().find(|(word, _)| *word == name)?;
    Some(place(at.parse().ok()?))
}

#[cfg(test)]
mod tests {
    use crate::kinds::KINDS;

    #[test]
    fn a_printed_case_is_read_again() {
        for kind in &KINDS {
            for number in 0..20 {
                let case = kind.case(7, number);
                assert_eq!(super::read(&case.to_string()), Some(case));
            }
        }
    }
}
