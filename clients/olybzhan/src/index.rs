use crate::buffers::{Buffers, Header, Lent, Owned};
use crate::ffi::{OldReply, Scanned};
use crate::range::Range;
use crate::{ARENA_LIMIT, Error, FANOUTS, KEY_LIMIT, POOLS, calls};
use alloc::vec::Vec;
use core::fmt;
use core::ops::RangeBounds;

/// An ordered map from byte strings to byte strings, in buffers of fixed sizes.
///
/// Values are handed out as parts of the arena, so they are borrowed from the
/// index; keys are put together from two pieces, so they are `Vec`s.
#[derive(Clone)]
pub struct Index<B = Owned> {
    header: Header,
    buffers: B,
}

/// A key and its value.
pub type Pair<'a> = (Vec<u8>, &'a [u8]);

/// One leaf of the leaf list. Its keys `k` meet `low <= k < upper`.
#[derive(Clone, Copy, Debug, PartialEq, Eq)]
pub struct Leaf<'a> {
    /// The low key.
    pub low: &'a [u8],
    /// The upper key, which is the next leaf's low key; the last leaf has none.
    pub upper: Option<&'a [u8]>,
    /// How many leading bytes of its keys the leaf doesn't store.
    pub prefix_length: usize,
    /// How many pairs it holds.
    pub pairs: usize,
}

impl Index {
    /// An empty index with buffers of its own: at most `fanout - 1` pairs a leaf,
    /// at most `pool` leaves and `arena` bytes.
    ///
    /// Refused as [`Error::Shape`] outside [`FANOUTS`], [`POOLS`] and
    /// [`ARENA_LIMIT`].
    ///
    /// ```
    /// # use olybzhan::{Error, Index};
    /// assert!(Index::new(64, 4_096, 1_048_576).is_ok());
    /// assert_eq!(Index::new(65, 4_096, 1_048_576).unwrap_err(), Error::Shape);
    /// ```
    pub fn new(fanout: usize, pool: usize, arena: usize) -> Result<Index, Error> {
        // Before that much is allocated.
        if !FANOUTS.contains(&fanout) || !POOLS.contains(&pool) || arena > ARENA_LIMIT {
            return Err(Error::Shape);
        }
        Index::make(fanout, Owned::new(fanout, pool, arena))
    }
}

impl<'a> Index<Lent<'a>> {
    /// An empty index in lent buffers, whatever they held. The directory's length
    /// is the number of leaves, and the slots' is `fanout` times that.
    ///
    /// Refused as [`Error::Shape`] where the lengths are others, or outside
    /// [`FANOUTS`], [`POOLS`] and [`ARENA_LIMIT`].
    ///
    /// ```
    /// # use olybzhan::{Error, Index};
    /// let (mut dir, mut slots, mut arena) = ([0; 4], [0; 12], [0; 64]);
    /// let mut index = Index::over(3, &mut dir, &mut slots, &mut arena)?;
    /// index.insert(b"a", b"1")?;
    /// assert_eq!(index.len()?, 1);
    /// # Ok::<(), Error>(())
    /// ```
    pub fn over(
        fanout: usize,
        dir: &'a mut [u32],
        slots: &'a mut [u64],
        arena: &'a mut [u8],
    ) -> Result<Index<Lent<'a>>, Error> {
        Index::make(fanout, Lent { dir, slots, arena })
    }

    /// The index that lent buffers hold already, with the [header](Index::header)
    /// it was left with.
    ///
    /// Refused as [`Error::Damaged`] where they hold none with that header.
    ///
    /// ```
    /// # use olybzhan::{Error, Index};
    /// let (mut dir, mut slots, mut arena) = ([0; 4], [0; 12], [0; 64]);
    /// let mut index = Index::over(3, &mut dir, &mut slots, &mut arena)?;
    /// index.insert(b"a", b"1")?;
    /// let header = index.header();
    ///
    /// let index = Index::resume(header, &mut dir, &mut slots, &mut arena)?;
    /// assert_eq!(index.get(b"a")?, Some(&b"1"[..]));
    /// # Ok::<(), Error>(())
    /// ```
    pub fn resume(
        header: Header,
        dir: &'a mut [u32],
        slots: &'a mut [u64],
        arena: &'a mut [u8],
    ) -> Result<Index<Lent<'a>>, Error> {
        let buffers = Lent { dir, slots, arena };
        let index = Index { header, buffers };
        match index.holds_index() {
            true => Ok(index),
            false => Err(Error::Damaged),
        }
    }
}

impl<B: Buffers> Index<B> {
    fn make(fanout: usize, mut buffers: B) -> Result<Index<B>, Error> {
        let reply = calls::create(fanout, &mut buffers);
        Error::check(reply.refusal, reply.length)?;
        let header = reply.header;
        Ok(Index { header, buffers })
    }

    /// The header, to be kept with lent buffers for [`resume`](Index::resume).
    pub fn header(&self) -> Header {
        self.header
    }

    /// The number of pairs.
    pub fn len(&self) -> Result<usize, Error> {
        let told = calls::len(self.header, &self.buffers);
        Error::check(told.refusal, told.length)?;
        Ok(told.length)
    }

    /// Whether there is no pair.
    pub fn is_empty(&self) -> Result<bool, Error> {
        Ok(self.len()? == 0)
    }

    /// The key's value.
    ///
    /// Refused as [`Error::LongKey`].
    pub fn get(&self, key: &[u8]) -> Result<Option<&[u8]>, Error> {
        let place = calls::get(self.header, &self.buffers, key);
        Error::check(place.refusal, 0)?;
        Ok((place.found == 1).then(|| self.part(place.offset, place.length)))
    }

    /// Whether there is such a key.
    ///
    /// Refused as [`Error::LongKey`].
    pub fn contains_key(&self, key: &[u8]) -> Result<bool, Error> {
        let told = calls::contains_key(self.header, &self.buffers, key);
        Error::check(told.refusal, told.length)?;
        Ok(told.length == 1)
    }

    /// Gives the key this value, and gives back its old one.
    ///
    /// Refused as [`Error::LongKey`], [`Error::LongValue`], [`Error::NoLeaf`] or
    /// [`Error::NoRoom`]. A held value that isn't empty costs two calls, since the first has
    /// to ask for the length of the old value: see
    /// [`insert_into`](Index::insert_into).
    ///
    /// ```
    /// # use olybzhan::{Error, Index};
    /// let mut index = Index::new(3, 1, 6)?;
    /// assert_eq!(index.insert(b"a", b"1")?, None);
    /// assert_eq!(index.insert(b"a", b"22")?, Some(b"1".to_vec()));
    /// assert_eq!(index.insert(b"b", b"1234"), Err(Error::NoRoom));
    /// # Ok::<(), Error>(())
    /// ```
    pub fn insert(&mut self, key: &[u8], value: &[u8]) -> Result<Option<Vec<u8>>, Error> {
        with_room(|old| self.insert_into(key, value, old))
    }

    /// As [`insert`](Index::insert), with the old value written to the front of
    /// `old`. Gives its length; nothing is allocated.
    ///
    /// Refused as [`Error::ShortOutput`] where it doesn't fit.
    ///
    /// ```
    /// # use olybzhan::{Error, Index};
    /// let mut index = Index::new(3, 4, 64)?;
    /// assert_eq!(index.insert_into(b"a", b"12", &mut [])?, None);
    /// let short = Error::ShortOutput { needed: 2 };
    /// assert_eq!(index.insert_into(b"a", b"", &mut [0; 1]), Err(short));
    /// let mut old = [0; 4];
    /// assert_eq!(index.insert_into(b"a", b"", &mut old)?, Some(2));
    /// assert_eq!(old, *b"12\0\0");
    /// # Ok::<(), Error>(())
    /// ```
    pub fn insert_into(
        &mut self,
        key: &[u8],
        value: &[u8],
        old: &mut [u8],
    ) -> Result<Option<usize>, Error> {
        let reply = calls::insert(self.header, &mut self.buffers, key, value, old);
        self.changed(reply)
    }

    /// Takes a key's pair out, and gives back its value.
    ///
    /// Refused as [`Error::LongKey`]. A held value that isn't empty costs two calls, as with
    /// [`insert`](Index::insert).
    pub fn remove(&mut self, key: &[u8]) -> Result<Option<Vec<u8>>, Error> {
        with_room(|old| self.remove_into(key, old))
    }

    /// As [`remove`](Index::remove), with the value written to the front of `old`.
    /// Gives its length; nothing is allocated.
    ///
    /// Refused as [`Error::ShortOutput`] where it doesn't fit.
    pub fn remove_into(&mut self, key: &[u8], old: &mut [u8]) -> Result<Option<usize>, Error> {
        let reply = calls::remove(self.header, &mut self.buffers, key, old);
        self.changed(reply)
    }

    fn changed(&mut self, reply: OldReply) -> Result<Option<usize>, Error> {
        self.header = reply.header;
        Error::check(reply.refusal, reply.length)?;
        Ok((reply.found == 1).then_some(reply.length))
    }

    /// Removes all pairs.
    pub fn clear(&mut self) -> Result<(), Error> {
        let reply = calls::clear(self.header, &mut self.buffers);
        self.header = reply.header;
        Error::check(reply.refusal, reply.length)
    }

    /// The pair with the least key.
    pub fn first(&self) -> Result<Option<Pair<'_>>, Error> {
        self.scan(|out| calls::first(self.header, &self.buffers, out))
    }

    /// The first pair whose key is above this one.
    ///
    /// Refused as [`Error::LongKey`].
    pub fn get_gt(&self, key: &[u8]) -> Result<Option<Pair<'_>>, Error> {
        self.scan(|out| calls::get_gt(self.header, &self.buffers, key, out))
    }

    /// The pairs of a range, in key order. Each step asks the index for the first
    /// pair behind the last one.
    ///
    /// Refused as [`Error::LongKey`] or [`Error::InvertedRange`]: the only item is
    /// then the error. An open bound says nothing of the keys' type, so `..` is
    /// [`iter`](Index::iter), and a pair of bounds is written as for the standard
    /// map.
    ///
    /// ```
    /// # use olybzhan::{Error, Index};
    /// # use std::ops::Bound;
    /// # let mut index = Index::new(3, 4, 64)?;
    /// # for key in [b"a", b"b", b"c"] { index.insert(key, b"")?; }
    /// let bounds = (Bound::Excluded(&b"a"[..]), Bound::Unbounded);
    /// let keys = index.range::<[u8], _>(bounds).map(|pair| pair.map(|(key, _)| key));
    /// assert_eq!(keys.collect::<Result<Vec<_>, _>>()?, [b"b", b"c"]);
    /// assert_eq!(index.range("b"..="b").count(), 1);
    /// assert_eq!(index.range("b".."a").next(), Some(Err(Error::InvertedRange)));
    /// # Ok::<(), Error>(())
    /// ```
    pub fn range<K: AsRef<[u8]> + ?Sized, R: RangeBounds<K>>(&self, range: R) -> Range<'_, B> {
        Range::new(self, range)
    }

    /// The pairs whose keys begin with a prefix, in key order.
    ///
    /// Refused as [`Error::LongKey`]: the only item is then the error.
    ///
    /// ```
    /// # use olybzhan::{Error, Index};
    /// let mut index = Index::new(3, 4, 64)?;
    /// for key in ["arm", "arm/1", "arm/2", "axis"] {
    ///     index.insert(key.as_bytes(), b"")?;
    /// }
    /// assert_eq!(index.scan_prefix(b"arm/").count(), 2);
    /// # Ok::<(), Error>(())
    /// ```
    pub fn scan_prefix(&self, prefix: &[u8]) -> Range<'_, B> {
        Range::of_prefix(self, prefix)
    }

    /// All pairs, in key order.
    pub fn iter(&self) -> Range<'_, B> {
        self.range::<[u8], _>(..)
    }

    /// A leaf by its place in the leaf list, from 0.
    ///
    /// ```
    /// # use olybzhan::{Error, Index, Leaf};
    /// let index = Index::new(3, 4, 64)?;
    /// let fresh = Leaf { low: b"", upper: None, prefix_length: 0, pairs: 0 };
    /// assert_eq!(index.leaf_at(0)?, Some(fresh));
    /// assert_eq!(index.leaf_at(1)?, None);
    /// # Ok::<(), Error>(())
    /// ```
    pub fn leaf_at(&self, place: usize) -> Result<Option<Leaf<'_>>, Error> {
        let shown = calls::leaf_at(self.header, &self.buffers, place);
        Error::check(shown.refusal, 0)?;
        Ok((shown.found == 1).then(|| Leaf {
            low: self.part(shown.low_offset, shown.low_length),
            upper: (shown.has_upper == 1)
                .then(|| self.part(shown.upper_offset, shown.upper_length)),
            prefix_length: shown.prefix_length,
            pairs: shown.pairs,
        }))
    }

    /// Whether the buffers hold an index: the test that every other call begins
    /// with.
    pub fn holds_index(&self) -> bool {
        calls::holds_index(self.header, &self.buffers)
    }

    pub(crate) fn first_in_range(
        &self,
        start: (usize, &[u8]),
        end: (usize, &[u8]),
    ) -> Result<Option<Pair<'_>>, Error> {
        self.scan(|out| calls::first_in_range(self.header, &self.buffers, start, end, out))
    }

    /// The output has room for any key.
    fn scan(&self, call: impl FnOnce(&mut [u8]) -> Scanned) -> Result<Option<Pair<'_>>, Error> {
        let mut key = [0; KEY_LIMIT];
        let pair = call(&mut key);
        Error::check(pair.refusal, pair.length)?;
        Ok((pair.found == 1).then(|| {
            let value = self.part(pair.offset, pair.value);
            (key[..pair.key].to_vec(), value)
        }))
    }

    fn part(&self, offset: usize, length: usize) -> &[u8] {
        let (_, _, arena) = self.buffers.parts();
        &arena[offset..][..length]
    }
}

/// Makes the call without an output, and again where the old value needs one.
fn with_room(
    mut call: impl FnMut(&mut [u8]) -> Result<Option<usize>, Error>,
) -> Result<Option<Vec<u8>>, Error> {
    let mut old = Vec::new();
    let found = match call(&mut old) {
        Err(Error::ShortOutput { needed }) => {
            old.resize(needed, 0);
            call(&mut old)?
        }
        answer => answer?,
    };
    Ok(found.map(|_| old))
}

/// The pairs, as a map's; nothing of buffers that hold no index.
impl<B: Buffers> fmt::Debug for Index<B> {
    fn fmt(&self, f: &mut fmt::Formatter<'_>) -> fmt::Result {
        f.debug_map().entries(self.iter().flatten()).finish()
    }
}

impl<'a, B: Buffers> IntoIterator for &'a Index<B> {
    type Item = Result<Pair<'a>, Error>;
    type IntoIter = Range<'a, B>;

    fn into_iter(self) -> Range<'a, B> {
        self.iter()
    }
}
