//! Names of the scopes: which are good, how one is laid out, and which one is sent.

/// The two values of a name's flags: a plain name, and one that may serve as the default.
pub const PLAIN: u8 = 0;
pub const DEFAULT: u8 = 128;
/// Octets of a language tag and of a name's text, at most. Neither is ever empty.
pub const LONGEST_TAG: usize = 8;
pub const LONGEST_TEXT: usize = 32;
/// Names in a list, at most.
pub const MOST_NAMES: usize = 4;

/// A name. The octets of tag and text are opaque.
#[derive(Clone, Debug, PartialEq, Eq)]
pub struct Name {
    pub flags: u8,
    pub tag: Vec<u8>,
    pub text: Vec<u8>,
}

impl Name {
    /// Flags 0 or 128, a tag of 1 to 8 octets and a text of 1 to 32.
    pub fn is_good(&self) -> bool {
        [PLAIN, DEFAULT].contains(&self.flags)
            && (1..=LONGEST_TAG).contains(&self.tag.len())
            && (1..=LONGEST_TEXT).contains(&self.text.len())
    }

    /// As it stands in the campus file and in option 9: flags(1), tag length(1), tag, text length(1), text.
    /// The lengths of a good name fit one octet.
    pub fn octets(&self) -> Vec<u8> {
        let mut octets = vec![self.flags, self.tag.len() as u8];
        octets.extend(&self.tag);
        octets.push(self.text.len() as u8);
        octets.extend(&self.text);
        octets
    }
}

/// The names of a scope: the campus list, and each house's own in the order of the houses.
#[derive(Clone, Debug, PartialEq, Eq)]
pub struct ScopeNames {
    pub campus: Vec<Name>,
    pub houses: Vec<Vec<Name>>,
}

impl ScopeNames {
    /// A scope without names: every list is there and empty.
    pub fn none(houses: usize) -> ScopeNames {
        ScopeNames {
            campus: Vec::new(),
            houses: vec![Vec::new(); houses],
        }
    }

    /// The lists in the file's order: the campus list, then each house's own.
    pub fn lists(&self) -> impl Iterator<Item = &Vec<Name>> {
        std::iter::once(&self.campus).chain(&self.houses)
    }

    /// One list for each house; at most four names in every list, and all of them good.
    pub fn are_good(&self, houses: usize) -> bool {
        self.houses.len() == houses
            && self
                .lists()
                .all(|list| list.len() <= MOST_NAMES && list.iter().all(Name::is_good))
    }

    /// The name that a client of this house is sent, if any: the first in the language asked for in the
    /// house's own list, else the first such in the campus list, else the campus default.
    /// Where no language is asked for, nothing matches.
    pub fn sent(&self, house: u8, language: Option<&[u8]>) -> Option<&Name> {
        if let Some(tag) = language {
            for list in [self.own(house), &self.campus] {
                if let Some(name) = first_with(list, tag) {
                    return Some(name);
                }
            }
        }
        self.default()
    }

    /// A house's own list; houses count from 1.
    fn own(&self, house: u8) -> &[Name] {
        usize::from(house)
            .checked_sub(1)
            .and_then(|place| self.houses.get(place))
            .map_or(&[], Vec::as_slice)
    }

    /// The campus default: the first campus name flagged 128, else the first.
    fn default(&self) -> Option<&Name> {
        self.campus
            .iter()
            .find(|name| name.flags == DEFAULT)
            .or(self.campus.first())
    }
}

/// The first name of a list that has this tag, octet for octet.
fn first_with<'a>(list: &'a [Name], tag: &[u8]) -> Option<&'a Name> {
    list.iter().find(|name| name.tag == tag)
}
