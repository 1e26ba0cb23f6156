//! Every choice of addresses that a REQUEST could have been given, tried one by one: what W-214 claims of the grant rule
//! is looked for in small scopes.

use crate::book::{Book, Lease};
use crate::message::Kind;
use crate::releases::forget;
use crate::sound::sound;

/// A REQUEST at the grant rule: what it asks for, with its period as it would be recorded.
#[derive(Clone, Debug, PartialEq, Eq)]
pub struct Wish {
    pub house: u8,
    pub scope: u8,
    pub identifier: Vec<u8>,
    pub transaction: u32,
    pub start: u32,
    pub end: u32,
    pub least: u16,
    pub desired: u16,
}

impl Wish {
    /// The book with a choice "recorded as a grant is and with every other lease and hold unmoved".
    pub fn recorded(&self, book: &Book, choice: &[u8]) -> Book {
        let mut after = book.clone();
        forget(&mut after.releases, self.house, &self.identifier);
        after.insert(Lease {
            house: self.house,
            scope: self.scope,
            identifier: self.identifier.clone(),
            message_type: Kind::Request.number(),
            transaction: self.transaction,
            start: self.start,
            end: self.end,
            offsets: choice.to_vec(),
        });
        after
    }

    /// How many of these addresses are new: none of the house's live leases or holds has them.
    pub fn new_addresses(&self, book: &Book, choice: &[u8]) -> usize {
        let own = book.addresses_of(self.house, self.scope);
        choice.iter().filter(|offset| !own.contains(offset)).count()
    }
}

/// A sound choice that is better than what was given.
#[derive(Clone, Debug, PartialEq, Eq)]
pub enum Better {
    /// It has more addresses than the grant.
    More(Vec<u8>),
    /// It has as many, of which fewer are new.
    FewerNew(Vec<u8>),
    /// It has from least to desired, and there was no grant.
    Enough(Vec<u8>),
}

/// The first choice of addresses up to the desired number that leaves the book sound and is better than what was
/// given, the grant's addresses or error 0; none if nobody could have given more.
pub fn better_choice(book: &Book, wish: &Wish, given: Option<&[u8]>) -> Option<Better> {
    let is_sound = |choice: &Vec<u8>| sound(&wish.recorded(book, choice));
    let mut better = choices(book, wish).filter_map(|choice| as_better(book, wish, given, choice));
    better.find(|better| match better {
        Better::More(choice) | Better::FewerNew(choice) | Better::Enough(choice) => {
            is_sound(choice)
        }
    })
}

/// What a choice would be better by, were it sound.
fn as_better(book: &Book, wish: &Wish, given: Option<&[u8]>, choice: Vec<u8>) -> Option<Better> {
    let Some(given) = given else {
        return (choice.len() >= usize::from(wish.least)).then_some(Better::Enough(choice));
    };
    if choice.len() > given.len() {
        return Some(Better::More(choice));
    }
    let has_fewer_new = wish.new_addresses(book, &choice) < wish.new_addresses(book, given);
    (choice.len() == given.len() && has_fewer_new).then_some(Better::FewerNew(choice))
}

/// So many addresses have too many sets to try.
const MOST_TRIED: usize = 16;

/// Every set of one to the desired number of the scope's addresses, each rising.
fn choices<'a>(book: &Book, wish: &'a Wish) -> impl Iterator<Item = Vec<u8>> + 'a {
    let offsets: Vec<u8> = book.offsets(wish.scope).collect();
    assert!(offsets.len() < MOST_TRIED, "too many sets of addresses");
    let sets = 1_u32..1 << offsets.len();
    let set = move |bits: u32| -> Vec<u8> {
        let is_in = |offset: &u8| bits >> offset & 1 == 1;
        offsets.iter().copied().filter(is_in).collect()
    };
    let desired = usize::from(wish.desired);
    sets.map(set).filter(move |choice| choice.len() <= desired)
}
