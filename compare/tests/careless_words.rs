//! Planner, acceptance and adds with words for records of use, each time with one mistake, that the
//! stored inputs for words have to tell from the plain ones; and without a mistake, which they must
//! not. Only refusals 6 to 13 and the choice of centrals are made here; inputs that the plain ones
//! refuse otherwise are left out.

use compare::catalogue::{stored_inputs, word_inputs};
use compare::comparison::answer_of;
use compare::inputs::Input;
use compare::plain::Plain;
use compare::stored_form::Stored;
use compare::Network;

#[derive(Clone, Copy, PartialEq, Eq, Debug)]
enum Mistake {
    None,
    /// Free centrals are not limited to those below m.
    NoMask,
    /// m + 1 centrals can be free.
    MaskTooWide,
    /// The highest central is never free.
    MaskTooNarrow,
    /// The mask is a 1 shifted by m, less 1, where a shift by 32 is one by 0.
    MaskCut,
    /// The highest common free central is taken.
    TakesHighest,
    /// A central in use at one of the two modules alone passes for free.
    TakesEither,
    /// A central's bit is that of the central by so many.
    CutsCentral(usize),
    /// The centrals from here on have no bit.
    LosesCentral(usize),
    /// Central m is let through, and its distance cut to 5 bits.
    LetsOneBeyond,
    /// The word of a module is that of the module by so many.
    CutsModule(usize),
    /// Bits of all modules in one row, so many to a module.
    RunsTogether(usize),
    /// Input modules and output modules have the same words.
    SharesSides,
    /// A new bit takes the place of those before.
    Overwrites,
    /// A channel's bit is that of the channel by so many.
    CutsChannel(usize),
    /// The last channel has no bit.
    LosesLastChannel,
    /// Bits of the channels of all modules in one row, 15 to a module.
    RunsChannelsTogether,
    /// The chain's last module keeps its word, wherever, at an input or at an output module.
    KeepsLast(Option<Side>),
    /// The word of the same number at the other side is exchanged.
    ExchangesOtherSide,
    /// The first module's word doesn't get the bit of b.
    KeepsFirst,
    /// The new call's bit isn't set at its input module, or at its output module.
    LosesNew(Side),
    /// The last module's word gets both bits.
    SetsBothAtLast,
}

const MISTAKES: [Mistake; 36] = [
    Mistake::NoMask,
    Mistake::MaskTooWide,
    Mistake::MaskTooNarrow,
    Mistake::MaskCut,
    Mistake::TakesHighest,
    Mistake::TakesEither,
    Mistake::CutsCentral(8),
    Mistake::CutsCentral(16),
    Mistake::CutsCentral(30),
    Mistake::CutsCentral(31),
    Mistake::LosesCentral(15),
    Mistake::LosesCentral(16),
    Mistake::LosesCentral(30),
    Mistake::LosesCentral(31),
    Mistake::LetsOneBeyond,
    Mistake::CutsModule(1),
    Mistake::CutsModule(2),
    Mistake::CutsModule(16),
    Mistake::CutsModule(32),
    Mistake::CutsModule(63),
    Mistake::RunsTogether(16),
    Mistake::RunsTogether(31),
    Mistake::SharesSides,
    Mistake::Overwrites,
    Mistake::CutsChannel(8),
    Mistake::CutsChannel(15),
    Mistake::LosesLastChannel,
    Mistake::RunsChannelsTogether,
    Mistake::KeepsLast(None),
    Mistake::KeepsLast(Some(Side::Input)),
    Mistake::KeepsLast(Some(Side::Output)),
    Mistake::ExchangesOtherSide,
    Mistake::KeepsFirst,
    Mistake::LosesNew(Side::Input),
    Mistake::LosesNew(Side::Output),
    Mistake::SetsBothAtLast,
];

/// A side, by the place of its module in a call row.
#[derive(Clone, Copy, PartialEq, Eq, Debug)]
enum Side {
    Input = 0,
    Output = 2,
}

/// The words of both sides.
struct Words {
    mistake: Mistake,
    sides: [[u32; 64]; 2],
}

impl Words {
    fn new(mistake: Mistake) -> Words {
        Words {
            mistake,
            sides: [[0; 64]; 2],
        }
    }

    /// The word at which a bit of a module stands, and the bit, which may be none.
    fn place(&self, side: Side, module: usize, bit: usize) -> (usize, usize, u32) {
        let side = match self.mistake {
            Mistake::SharesSides => 0,
            _ => side as usize / 2,
        };
        let (module, bit) = match self.mistake {
            Mistake::CutsModule(by) => (module % by, Some(bit)),
            Mistake::CutsCentral(by) => (module, Some(bit % by)),
            Mistake::LosesCentral(from) => (module, Some(bit).filter(|&bit| bit < from)),
            Mistake::RunsTogether(by) => {
                let at = by * module + bit;
                (at / 32, Some(at % 32))
            }
            _ => (module, Some(bit)),
        };
        (side, module, bit.map_or(0, |bit| 1 << (bit % 32)))
    }

    fn has(&self, side: Side, module: usize, bit: usize) -> bool {
        let (side, module, bit) = self.place(side, module, bit);
        self.sides[side][module] & bit != 0
    }

    fn set(&mut self, side: Side, module: usize, bit: usize) {
        let (side, module, bit) = self.place(side, module, bit);
        let word = &mut self.sides[side][module];
        *word = match self.mistake {
            Mistake::Overwrites => bit,
            _ => *word | bit,
        };
    }

    fn exchange(&mut self, side: Side, module: usize, [a, b]: [usize; 2]) {
        for central in [a, b] {
            let (side, module, bit) = self.place(side, module, central);
            match self.mistake {
                Mistake::SetsBothAtLast => self.sides[side][module] |= bit,
                _ => self.sides[side][module] ^= bit,
            }
        }
    }

    /// The centrals in use at a module, as they are found when they are sought.
    fn used(&self, net: Network, side: Side, module: usize) -> u32 {
        let found = (0..32).filter(|&bit| self.has(side, module, bit));
        let used = found.fold(0, |used, bit| used | 1 << bit);
        let m = net.m as u32;
        let below = |m: u32| 1u32.checked_shl(m).map_or(u32::MAX, |bit| bit - 1);
        let mask = match self.mistake {
            Mistake::NoMask => u32::MAX,
            Mistake::MaskTooWide => below(m + 1),
            Mistake::MaskTooNarrow => below(m - 1),
            Mistake::MaskCut => 1u32.wrapping_shl(m) - 1,
            _ => below(m),
        };
        used | !mask
    }
}

fn ends(call: &[u8], side: Side) -> [usize; 2] {
    [call[side as usize], call[side as usize + 1]].map(usize::from)
}

/// The first row with an end used before.
fn repeated_end(mistake: Mistake, calls: &[u8], side: Side) -> Option<usize> {
    let kept = match mistake {
        Mistake::Overwrites | Mistake::CutsModule(_) | Mistake::RunsTogether(16) => mistake,
        _ => Mistake::None,
    };
    let mut words = Words::new(kept);
    calls.chunks_exact(4).position(|call| {
        let [module, channel] = ends(call, side);
        let (module, channel) = match mistake {
            Mistake::CutsChannel(by) => (module, channel % by),
            Mistake::LosesLastChannel if channel == 15 => return false,
            Mistake::RunsChannelsTogether => {
                let at = 15 * module + channel;
                (at / 32, at % 32)
            }
            _ => (module, channel),
        };
        let is_used = words.has(side, module, channel);
        words.set(side, module, channel);
        is_used
    })
}

/// The first refusal of 6 and 7.
fn refused_ends(mistake: Mistake, calls: &[u8]) -> Option<[usize; 2]> {
    let inlet = repeated_end(mistake, calls, Side::Input).map(|row| [6, row]);
    inlet.or_else(|| repeated_end(mistake, calls, Side::Output).map(|row| [7, row]))
}

/// The first refusal of 9 to 13, or the words.
fn accepted(
    mistake: Mistake,
    net: Network,
    calls: &[u8],
    settings: &[u8],
) -> Result<Words, [usize; 2]> {
    let mut words = Words::new(mistake);
    let rows = calls.chunks_exact(4).zip(settings.chunks_exact(3));
    for (row, (call, setting)) in rows.enumerate() {
        let [input, output] = [call[0], call[2]].map(usize::from);
        let [x, central, y] = [setting[0], setting[1], setting[2]].map(usize::from);
        let m = match mistake {
            Mistake::LetsOneBeyond => net.m + 1,
            _ => net.m,
        };
        if x >= net.w || y >= net.w || central >= m {
            return Err([9, row]);
        }
        if (x + net.w - input) % net.w != central {
            return Err([10, row]);
        }
        if (y + net.w - central) % net.w != output {
            return Err([11, row]);
        }
        if words.has(Side::Input, input, central) {
            return Err([12, row]);
        }
        if words.has(Side::Output, output, central) {
            return Err([13, row]);
        }
        words.set(Side::Input, input, central);
        words.set(Side::Output, output, central);
    }
    Ok(words)
}

/// One step of the choice rule: how many calls moved.
fn place(net: Network, words: &mut Words, calls: &[u8], centrals: &mut Vec<usize>) -> usize {
    let mistake = words.mistake;
    let module = |row: usize, side: Side| usize::from(calls[4 * row + side as usize]);
    let new = centrals.len();
    let [input, output] = [Side::Input, Side::Output].map(|side| module(new, side));
    let at_input = words.used(net, Side::Input, input);
    let at_output = words.used(net, Side::Output, output);
    let common = match mistake {
        Mistake::TakesEither => !(at_input & at_output),
        _ => !(at_input | at_output),
    };
    if common != 0 {
        let central = match mistake {
            Mistake::TakesHighest => 31 - common.leading_zeros(),
            _ => common.trailing_zeros(),
        } as usize;
        centrals.push(central);
        set_new(words, [input, output], central);
        return 0;
    }
    let pair = [at_input, at_output].map(|used| used.trailing_ones() as usize);
    let [a, b] = pair;
    let mut chain: Vec<usize> = Vec::new();
    let mut last = (Side::Output, output);
    // Where a record is wrong a chain may have no end.
    while chain.len() <= new {
        let (side, at) = last;
        let on = if side == Side::Output { a } else { b };
        let next = (0..new).find(|&row| module(row, side) == at && centrals[row] == on);
        let row = match next {
            Some(row) => row,
            None => break,
        };
        let other = match side {
            Side::Output => Side::Input,
            Side::Input => Side::Output,
        };
        chain.push(row);
        last = (other, module(row, other));
    }
    for &row in &chain {
        centrals[row] = if centrals[row] == a { b } else { a };
    }
    if !chain.is_empty() {
        exchange_last(words, last, pair);
        if mistake != Mistake::KeepsFirst {
            words.set(Side::Output, output, b);
        }
    }
    centrals.push(a);
    set_new(words, [input, output], a);
    chain.len()
}

fn set_new(words: &mut Words, [input, output]: [usize; 2], central: usize) {
    if words.mistake != Mistake::LosesNew(Side::Input) {
        words.set(Side::Input, input, central);
    }
    if words.mistake != Mistake::LosesNew(Side::Output) {
        words.set(Side::Output, output, central);
    }
}

fn exchange_last(words: &mut Words, (side, module): (Side, usize), pair: [usize; 2]) {
    match (words.mistake, side) {
        (Mistake::KeepsLast(None), _) => {}
        (Mistake::KeepsLast(Some(kept)), _) if kept == side => {}
        (Mistake::ExchangesOtherSide, Side::Input) => words.exchange(Side::Output, module, pair),
        (Mistake::ExchangesOtherSide, Side::Output) => words.exchange(Side::Input, module, pair),
        _ => words.exchange(side, module, pair),
    }
}

/// The first row with which a module has more calls than there are centrals.
fn overfull(net: Network, calls: &[u8]) -> Option<usize> {
    (0..calls.len() / 4).find(|&row| {
        [0, 2].iter().any(|&side| {
            let same = |earlier: &usize| calls[4 * earlier + side] == calls[4 * row + side];
            (0..=row).filter(same).count() > net.m
        })
    })
}

/// The number, the row and how many calls moved, which is 0 for acceptance; and the centrals of all
/// rows that are written.
type Answer = (Vec<usize>, Vec<usize>);

fn refused([number, row]: [usize; 2]) -> Answer {
    (vec![number, row, 0], Vec::new())
}

fn centrals_of(settings: &[u8]) -> Vec<usize> {
    settings
        .chunks_exact(3)
        .map(|setting| usize::from(setting[1]))
        .collect()
}

/// What words answer to an input of planner, acceptance or add.
fn by_words(mistake: Mistake, input: &Input) -> Answer {
    match input {
        Input::Plan { net, calls, .. } => {
            if let Some(refusal) = refused_ends(mistake, calls) {
                return refused(refusal);
            }
            if let Some(row) = overfull(*net, calls) {
                return refused([8, row]);
            }
            let mut words = Words::new(mistake);
            let mut centrals = Vec::new();
            let mut moved = 0;
            while centrals.len() < calls.len() / 4 {
                moved += place(*net, &mut words, calls, &mut centrals);
            }
            (vec![0, centrals.len(), moved], centrals)
        }
        Input::Accept {
            net,
            calls,
            settings,
        } => {
            if let Some(refusal) = refused_ends(mistake, calls) {
                return refused(refusal);
            }
            match accepted(mistake, *net, calls, settings) {
                Ok(_) => (vec![0, calls.len() / 4, 0], Vec::new()),
                Err(refusal) => refused(refusal),
            }
        }
        Input::Add {
            net,
            calls,
            settings,
            call,
            ..
        } => {
            if let Some(refusal) = refused_ends(mistake, calls) {
                return refused(refusal);
            }
            let mut words = match accepted(mistake, *net, calls, settings) {
                Ok(words) => words,
                Err(refusal) => return refused(refusal),
            };
            let all = [&calls[..], call].concat();
            if let Some(refusal) = refused_ends(mistake, &all) {
                return refused(refusal);
            }
            if let Some(row) = overfull(*net, &all).filter(|&row| row == calls.len() / 4) {
                return refused([8, row]);
            }
            let mut centrals = centrals_of(settings);
            let moved = place(*net, &mut words, &all, &mut centrals);
            (vec![0, centrals.len(), moved], centrals)
        }
        _ => unreachable!("only planner, acceptance and adds are judged"),
    }
}

/// What the plain ones answer, where it is judged here.
fn by_plain(input: &Input) -> Option<Answer> {
    let settings_at = match input {
        Input::Plan { .. } | Input::Accept { .. } => 0,
        Input::Add { calls_after, .. } => calls_after.len(),
        _ => return None,
    };
    let (answer, rooms) = answer_of(&Plain, input);
    if (1..=5).contains(&answer.number()) {
        return None;
    }
    let mut numbers = answer.numbers();
    numbers.resize(3, 0);
    let centrals = if answer.number() == 0 && !rooms.is_empty() {
        centrals_of(&rooms[settings_at..settings_at + 3 * answer.row()])
    } else {
        Vec::new()
    };
    Some((numbers, centrals))
}

/// How many inputs words with this mistake answer otherwise.
fn told_apart(mistake: Mistake, inputs: &[Input]) -> usize {
    inputs
        .iter()
        .filter(|input| match by_plain(input) {
            Some(owed) => by_words(mistake, input) != owed,
            None => false,
        })
        .count()
}

#[test]
fn words_without_a_mistake_give_the_stored_answers() {
    let inputs: Vec<Input> = stored_inputs()
        .into_iter()
        .filter_map(|stored| match stored {
            Stored::Input(input) => Some(input),
            Stored::List { .. } => None,
        })
        .collect();
    assert_eq!(told_apart(Mistake::None, &inputs), 0);
}

#[test]
fn mistakes_with_words_are_told_apart() {
    let inputs = word_inputs();
    for mistake in MISTAKES {
        assert!(told_apart(mistake, &inputs) > 0, "{:?}", mistake);
    }
}
