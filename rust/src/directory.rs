//! Directories of entries.

use std::collections::BTreeMap;
use std::fmt;
use std::num::NonZeroU64;

use crate::decoder::ifd::Entry;
use crate::tags::{IfdPointer, Tag};

/// A directory: entries in the order of their tags, and the link to the next directory.
#[doc(alias = "IFD")]
pub struct Directory {
    entries: BTreeMap<u16, Entry>,
    next_ifd: Option<NonZeroU64>,
    /// Where the directory was read, if its entries are still those of the file.
    pub(crate) place: Option<IfdPointer>,
}

impl Directory {
    /// Returns a directory without entries and without a link.
    pub fn empty() -> Self {
        Directory {
            entries: BTreeMap::new(),
            next_ifd: None,
            place: None,
        }
    }

    /// Returns the entry of a tag.
    pub fn get(&self, tag: Tag) -> Option<&Entry> {
        self.entries.get(&tag.to_u16())
    }

    /// Tells whether there is an entry of a tag.
    pub fn contains(&self, tag: Tag) -> bool {
        self.entries.contains_key(&tag.to_u16())
    }

    /// Goes through the tags and their entries, in the order of the tags' numbers.
    pub fn iter(&self) -> impl Iterator<Item = (Tag, &Entry)> + '_ {
        self.entries
            .iter()
            .map(|(number, entry)| (Tag::from_u16_exhaustive(*number), entry))
    }

    /// Adds entries. An entry takes the place of one of the same tag.
    ///
    /// The values of a directory that was read can't be read by it any more then: they are read by
    /// the directory's place in the file.
    pub fn extend(&mut self, iter: impl IntoIterator<Item = (Tag, Entry)>) {
        self.place = None;
        self.entries
            .extend(iter.into_iter().map(|(tag, entry)| (tag.to_u16(), entry)));
    }

    /// Returns how many entries there are.
    pub fn len(&self) -> usize {
        self.entries.len()
    }

    /// Tells whether there are no entries.
    pub fn is_empty(&self) -> bool {
        self.entries.is_empty()
    }

    /// Returns the link to the next directory.
    pub fn next(&self) -> Option<IfdPointer> {
        self.next_ifd.map(|offset| IfdPointer(offset.get()))
    }

    /// Sets the link to the next directory. The offset 0 is no link.
    pub fn set_next(&mut self, next: Option<IfdPointer>) {
        self.next_ifd = next.and_then(|offset| NonZeroU64::new(offset.0));
    }
}

impl fmt::Debug for Directory {
    fn fmt(&self, f: &mut fmt::Formatter<'_>) -> fmt::Result {
        struct Entries<'a>(&'a Directory);

        impl fmt::Debug for Entries<'_> {
            fn fmt(&self, f: &mut fmt::Formatter<'_>) -> fmt::Result {
                f.debug_map().entries(self.0.iter()).finish()
            }
        }

        f.debug_struct("Directory")
            .field("entries", &Entries(self))
            .field("next_ifd", &self.next_ifd)
            .finish()
    }
}

impl FromIterator<(Tag, Entry)> for Directory {
    fn from_iter<T: IntoIterator<Item = (Tag, Entry)>>(iter: T) -> Self {
        let mut directory = Directory::empty();
        directory.extend(iter);
        directory
    }
}

#[cfg(test)]
mod tests {
    use super::*;
    use crate::tags::Type;

    #[test]
    fn entries_go_in_the_order_of_their_tags() {
        let entry = |count| Entry::new(Type::BYTE, count, [0; 4]);
        let tags = [
            Tag::Unknown(65000),
            Tag::ImageWidth,
            Tag::Artist,
            Tag::ImageWidth,
        ];
        let directory: Directory = tags.into_iter().zip([1, 2, 3, 4].map(entry)).collect();
        let seen: Vec<_> = directory
            .iter()
            .map(|(tag, entry)| (tag, entry.count()))
            .collect();
        assert_eq!(
            seen,
            [
                (Tag::ImageWidth, 4),
                (Tag::Artist, 3),
                (Tag::Unknown(65000), 1)
            ]
        );
        assert_eq!(directory.len(), 3);
        assert!(directory.contains(Tag::Artist) && !directory.contains(Tag::Model));
        assert!(directory.get(Tag::Model).is_none() && !directory.is_empty());
        assert!(Directory::empty().is_empty());
    }

    #[test]
    fn the_offset_0_is_no_link() {
        let mut directory = Directory::empty();
        directory.set_next(Some(IfdPointer(8)));
        assert_eq!(directory.next(), Some(IfdPointer(8)));
        directory.set_next(Some(IfdPointer(0)));
        assert_eq!(directory.next(), None);
    }
}
