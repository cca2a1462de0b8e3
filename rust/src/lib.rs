//! Exact search in collections of named texts, over the proved engine of `build/libix.a` (`make lib`).
//!
//! ```
//! use ix::{Collection, Index};
//!
//! let documents: Collection = [("one", "A red fox."), ("two", "The blue fox\nand a hound.")].into_iter().collect();
//! let mut index = Index::build(&documents)?;
//! let names = index.search("fox AND NOT red")?;
//! assert_eq!(names.iter().collect::<Vec<_>>(), ["two"]);
//! assert_eq!(index.search("red fox").unwrap_err().to_string(), "query 2: Unexpected(4)");
//! # Ok::<(), ix::Error>(())
//! ```
//!
//! What a call computes is proved; that this crate hands the calls what it says it does is not, but tested.

mod calls;
mod error;

use calls::{call, Call, Handle};
pub use error::{Area, Error};
use std::fmt;
use std::iter::FusedIterator;
use std::sync::Arc;

/// Documents: names and texts, in order. A name may come more than once.
#[derive(Clone, Debug, Default, PartialEq, Eq)]
pub struct Collection {
    text: String,
}

impl Collection {
    /// No documents.
    pub fn new() -> Collection {
        Collection::default()
    }

    /// Adds a document. A line end in the text becomes a space, which parts words as it does.
    ///
    /// # Panics
    /// Where the name has a TAB or a line end. A name that has not 1 to 255 bytes is refused where the collection is
    /// asked or built, with [`Area::Collection`].
    pub fn push(&mut self, name: &str, text: &str) {
        assert!(!name.contains(['\t', '\n']), "a name has a TAB or a line end: {name:?}");
        self.text.push_str(name);
        self.text.push('\t');
        self.text.extend(text.chars().map(|c| if c == '\n' { ' ' } else { c }));
        self.text.push('\n');
    }

    /// The collection text.
    pub fn as_str(&self) -> &str {
        &self.text
    }

    /// The names of exactly the documents that satisfy the query, by a look at each: no index is built.
    ///
    /// ```
    /// let documents: ix::Collection = [("a", "x y"), ("b", "y z")].into_iter().collect();
    /// assert_eq!(documents.ask("y AND NOT x", &[])?.iter().next(), Some("b"));
    /// # Ok::<(), ix::Error>(())
    /// ```
    pub fn ask(&self, query: &str, stop: &[&str]) -> Result<Names, Error> {
        let stop = stop_text(stop);
        let (names, count) = call(Call::Ask(self.text.as_bytes(), stop.as_bytes(), query.as_bytes()), 1 << 16)?;
        Ok(Names { text: lines(names), count })
    }
}

impl Collection {
    /// The run text of these documents as a part of a collection, for [`Index::merge`]. They are counted from `first`
    /// on, which is how many documents stand before the part.
    pub fn run(&self, first: u32, stop: &[&str]) -> Result<Vec<u8>, Error> {
        let stop = stop_text(stop);
        let room = 2 * self.text.len() + (1 << 12);
        Ok(call(Call::Run(self.text.as_bytes(), stop.as_bytes(), first), room)?.0)
    }
}

impl<'a> Extend<(&'a str, &'a str)> for Collection {
    fn extend<I: IntoIterator<Item = (&'a str, &'a str)>>(&mut self, documents: I) {
        for (name, text) in documents {
            self.push(name, text);
        }
    }
}

impl<'a> FromIterator<(&'a str, &'a str)> for Collection {
    fn from_iter<I: IntoIterator<Item = (&'a str, &'a str)>>(documents: I) -> Collection {
        let mut collection = Collection::new();
        collection.extend(documents);
        collection
    }
}

/// The index of a collection, opened once: its index text, and what is asked of it.
///
/// One thread asks it at a time, so that to ask is `&mut`. Threads that ask side by side open one each on one text, as
/// [`Index::again`] does.
pub struct Index {
    text: Arc<[u8]>,
    handle: Handle,
}

impl Index {
    /// The index of documents.
    pub fn build(documents: &Collection) -> Result<Index, Error> {
        Index::build_without(documents, &[])
    }

    /// The index of documents, without these stop words.
    pub fn build_without(documents: &Collection, stop: &[&str]) -> Result<Index, Error> {
        let stop = stop_text(stop);
        let room = 2 * documents.text.len() + (1 << 12);
        let (text, _) = call(Call::Build(documents.text.as_bytes(), stop.as_bytes()), room)?;
        Index::open(text)
    }

    /// The index of a collection from the run texts of its parts, as [`Collection::run`] or the program's `ix run` gives
    /// them: each part once, in any order. What are none is refused, with [`Area::Merge`].
    ///
    /// ```
    /// let part = |rows: &[(&'static str, &'static str)]| rows.iter().copied().collect::<ix::Collection>();
    /// let runs = [part(&[("b", "dog"), ("c", "fox")]).run(1, &[])?, part(&[("a", "fox")]).run(0, &[])?];
    /// assert_eq!(ix::Index::merge(&runs)?.search("fox")?.to_string(), "a\nc\n");
    /// assert_eq!(ix::Index::merge(&runs[..1]).unwrap_err().to_string(), "merge 1: Gap(0)");
    /// # Ok::<(), ix::Error>(())
    /// ```
    pub fn merge<R: AsRef<[u8]>>(runs: &[R]) -> Result<Index, Error> {
        let sizes: Vec<usize> = runs.iter().map(|run| run.as_ref().len()).collect();
        let whole: Vec<u8> = runs.iter().flat_map(|run| run.as_ref()).copied().collect();
        let (text, _) = call(Call::Merge(&whole, &sizes), 2 * whole.len() + (1 << 12))?;
        Index::open(text)
    }

    /// The index of an index text, as [`Index::as_bytes`] or the program's `ix build` gives it. What is none is refused,
    /// with [`Area::Index`].
    ///
    /// ```
    /// assert_eq!(ix::Index::open(b"no index".to_vec()).unwrap_err().area(), ix::Area::Index);
    /// ```
    pub fn open(text: impl Into<Arc<[u8]>>) -> Result<Index, Error> {
        let text = text.into();
        let handle = Handle::open(&text)?;
        Ok(Index { text, handle })
    }

    /// What [`Index::search`] gives of an index text, reading only what the query needs: a few pages of a file that is
    /// mapped into memory. The names, the terms that are asked about and their lists are checked; a fault elsewhere may not be
    /// noticed. For index texts that ix wrote and that are kept well.
    ///
    /// ```
    /// let documents: ix::Collection = [("a", "fox"), ("b", "dog")].into_iter().collect();
    /// let index = ix::Index::build(&documents)?;
    /// assert_eq!(ix::Index::search_trusting(index.as_bytes(), "fox OR wolf")?.to_string(), "a\n");
    /// # Ok::<(), ix::Error>(())
    /// ```
    pub fn search_trusting(text: &[u8], query: &str) -> Result<Names, Error> {
        let (names, count) = call(Call::SearchTrusting(text, query.as_bytes()), 1 << 16)?;
        Ok(Names { text: lines(names), count })
    }

    /// The same index opened once more, for another thread. The index text is shared.
    ///
    /// ```
    /// let documents: ix::Collection = [("a", "fox"), ("b", "dog")].into_iter().collect();
    /// let mut index = ix::Index::build(&documents)?;
    /// let mut other = index.again()?;
    /// let found = std::thread::spawn(move || other.search("fox"));
    /// assert_eq!(index.search("dog")?.to_string(), "b\n");
    /// assert_eq!(found.join().unwrap()?.to_string(), "a\n");
    /// # Ok::<(), ix::Error>(())
    /// ```
    pub fn again(&self) -> Result<Index, Error> {
        Index::open(Arc::clone(&self.text))
    }

    /// The index text.
    pub fn as_bytes(&self) -> &[u8] {
        &self.text
    }

    /// The names of exactly the documents that satisfy the query, in the order in which they were indexed.
    pub fn search(&mut self, query: &str) -> Result<Names, Error> {
        let (names, count) = call(Call::Search(&mut self.handle, query.as_bytes()), 1 << 16)?;
        Ok(Names { text: lines(names), count })
    }

    /// The names of all documents, in the order in which they were indexed.
    ///
    /// ```
    /// let documents: ix::Collection = [("b", "x"), ("a", ""), ("b", "y")].into_iter().collect();
    /// assert_eq!(ix::Index::build(&documents)?.names()?.iter().collect::<Vec<_>>(), ["b", "a", "b"]);
    /// # Ok::<(), ix::Error>(())
    /// ```
    pub fn names(&mut self) -> Result<Names, Error> {
        let (names, count) = call(Call::Names(&mut self.handle), 1 << 16)?;
        Ok(Names { text: lines(names), count })
    }

    /// Exactly the terms that match the pattern, in the order of their bytes.
    ///
    /// ```
    /// let documents: ix::Collection = [("a", "red rod"), ("b", "Red")].into_iter().collect();
    /// let terms = ix::Index::build(&documents)?.terms("r*d")?;
    /// assert_eq!(terms.iter().collect::<Vec<_>>(), [("red", 2), ("rod", 1)]);
    /// # Ok::<(), ix::Error>(())
    /// ```
    pub fn terms(&mut self, pattern: &str) -> Result<Terms, Error> {
        let (rows, count) = call(Call::Terms(&mut self.handle, pattern.as_bytes()), 1 << 16)?;
        Ok(Terms { text: lines(rows), count })
    }
}

impl fmt::Debug for Index {
    fn fmt(&self, f: &mut fmt::Formatter<'_>) -> fmt::Result {
        write!(f, "Index({} bytes)", self.text.len())
    }
}

/// The stop text of some words. A line end inside a word would make two of it, which no word has.
fn stop_text(words: &[&str]) -> String {
    words.iter().flat_map(|word| [*word, "\n"]).collect()
}

/// What the engine gives is UTF-8: names and terms, each with LF.
fn lines(bytes: Vec<u8>) -> String {
    String::from_utf8(bytes).expect("names and terms are UTF-8")
}

/// Names of documents.
#[derive(Clone, Debug, PartialEq, Eq)]
pub struct Names {
    text: String,
    count: usize,
}

impl Names {
    /// How many there are.
    pub fn len(&self) -> usize {
        self.count
    }

    /// Whether nothing was found.
    pub fn is_empty(&self) -> bool {
        self.count == 0
    }

    /// The names, in order.
    pub fn iter(&self) -> impl FusedIterator<Item = &str> + '_ {
        self.text.split_terminator('\n')
    }
}

/// Terms, and in how many documents each of them is.
#[derive(Clone, Debug, PartialEq, Eq)]
pub struct Terms {
    text: String,
    count: usize,
}

impl Terms {
    /// How many there are.
    pub fn len(&self) -> usize {
        self.count
    }

    /// Whether no term matches.
    pub fn is_empty(&self) -> bool {
        self.count == 0
    }

    /// The terms, in order, each with in how many documents it is.
    pub fn iter(&self) -> impl FusedIterator<Item = (&str, usize)> + '_ {
        self.text.split_terminator('\n').map(|row| {
            let (term, documents) = row.rsplit_once('\t').expect("a TAB stands behind the term");
            (term, documents.parse().expect("a number stands behind the TAB"))
        })
    }
}

impl fmt::Display for Names {
    fn fmt(&self, f: &mut fmt::Formatter<'_>) -> fmt::Result {
        f.write_str(&self.text)
    }
}

impl fmt::Display for Terms {
    fn fmt(&self, f: &mut fmt::Formatter<'_>) -> fmt::Result {
        f.write_str(&self.text)
    }
}

/// Each name as a `String` of its own.
impl IntoIterator for Names {
    type Item = String;
    type IntoIter = std::vec::IntoIter<String>;

    fn into_iter(self) -> Self::IntoIter {
        self.iter().map(str::to_owned).collect::<Vec<_>>().into_iter()
    }
}
