//! The kinds of damage that are done to a valid book's words.

mod answers;
mod anywhere;
mod head;
mod keys;

use crate::book_words::Words;
use crate::scripts::Random;

#[derive(Clone, Copy, Debug, PartialEq, Eq, PartialOrd, Ord)]
pub enum Harm {
    None,
    SingleBit,
    SwappedWords,
    RandomWord,
    NumberOfSlots,
    SlotPastTheNumber,
    Registers,
    Extent,
    DuplicateKey,
    KeyOfNoRequest,
    KeyOfAnother,
    Kind,
    EventOrCase,
    AnyAddress,
    AddressOfNoFetch,
    FieldTooWide,
    CountOfPieces,
    PieceAtTheEnd,
    WordsNotLookedAt,
    Several,
    AllRandom,
    AllZero,
}

impl Harm {
    pub const ALL: [Harm; 22] = [
        Harm::None,
        Harm::SingleBit,
        Harm::SwappedWords,
        Harm::RandomWord,
        Harm::NumberOfSlots,
        Harm::SlotPastTheNumber,
        Harm::Registers,
        Harm::Extent,
        Harm::DuplicateKey,
        Harm::KeyOfNoRequest,
        Harm::KeyOfAnother,
        Harm::Kind,
        Harm::EventOrCase,
        Harm::AnyAddress,
        Harm::AddressOfNoFetch,
        Harm::FieldTooWide,
        Harm::CountOfPieces,
        Harm::PieceAtTheEnd,
        Harm::WordsNotLookedAt,
        Harm::Several,
        Harm::AllRandom,
        Harm::AllZero,
    ];

    pub fn name(self) -> &'static str {
        match self {
            Harm::None => "none",
            Harm::SingleBit => "a single bit",
            Harm::SwappedWords => "two words swapped",
            Harm::RandomWord => "a random word",
            Harm::NumberOfSlots => "another number of slots",
            Harm::SlotPastTheNumber => "a slot past the number",
            Harm::Registers => "a register",
            Harm::Extent => "base or length",
            Harm::DuplicateKey => "a key twice",
            Harm::KeyOfNoRequest => "a key of no request",
            Harm::KeyOfAnother => "a key of another request",
            Harm::Kind => "another kind",
            Harm::EventOrCase => "another event or case",
            Harm::AnyAddress => "any address of a fetch",
            Harm::AddressOfNoFetch => "an address of no fetch",
            Harm::FieldTooWide => "a field at its width",
            Harm::CountOfPieces => "another count of pieces",
            Harm::PieceAtTheEnd => "a piece at 2^52",
            Harm::WordsNotLookedAt => "words not looked at",
            Harm::Several => "several of these",
            Harm::AllRandom => "all words random",
            Harm::AllZero => "all words 0",
        }
    }

    /// Whether it leaves a valid book valid, whatever it does.
    pub fn is_never_refused(self) -> bool {
        matches!(
            self,
            Harm::None | Harm::AnyAddress | Harm::AddressOfNoFetch | Harm::WordsNotLookedAt
        )
    }

    /// Does it. Where the book holds nothing that it could be done to, the words stay.
    pub fn does(self, random: &mut Random, words: &mut Words) {
        let done = match self {
            Harm::None => Some(()),
            Harm::SingleBit => anywhere::single_bit(random, words),
            Harm::SwappedWords => anywhere::swapped(random, words),
            Harm::RandomWord => anywhere::random_word(random, words),
            Harm::NumberOfSlots => head::number_of_slots(random, words),
            Harm::SlotPastTheNumber => keys::past_the_number(random, words),
            Harm::Registers => head::register(random, words),
            Harm::Extent => head::extent(random, words),
            Harm::DuplicateKey => keys::duplicate_key(random, words),
            Harm::KeyOfNoRequest => keys::key_of_no_request(random, words),
            Harm::KeyOfAnother => keys::key_of_another(random, words),
            Harm::Kind => answers::kind(random, words),
            Harm::EventOrCase => answers::event_or_case(random, words),
            Harm::AnyAddress => answers::any_address(random, words),
            Harm::AddressOfNoFetch => answers::address_of_no_fetch(random, words),
            Harm::FieldTooWide => answers::field_at_its_width(random, words),
            Harm::CountOfPieces => answers::count_of_pieces(random, words),
            Harm::PieceAtTheEnd => answers::piece_at_the_end(random, words),
            Harm::WordsNotLookedAt => answers::not_looked_at(random, words),
            Harm::Several => several(random, words),
            Harm::AllRandom => anywhere::all_random(random, words),
            Harm::AllZero => anywhere::all_zero(words),
        };
        done.unwrap_or_default();
    }
}

fn several(random: &mut Random, words: &mut Words) -> Option<()> {
    for _ in 0..2 + random.below(4) {
        let harm = random.pick(&Harm::ALL[1..Harm::ALL.len() - 3]);
        harm.does(random, words);
    }
    Some(())
}
