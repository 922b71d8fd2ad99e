//! What a file says, as written: names and lines, nothing looked up yet.

/// A scalar, its line and where it begins in the text.
#[derive(Clone, Copy, Debug, PartialEq, Eq)]
pub struct Word<'t> {
    pub line: u32,
    pub start: usize,
    pub bytes: &'t [u8],
}

/// A list and its line.
#[derive(Clone, Debug, PartialEq, Eq)]
pub struct List<'t> {
    pub line: u32,
    pub elements: Vec<Word<'t>>,
}

/// `all` (also when omitted) or a list (also when bare: then of none).
#[derive(Clone, Debug, PartialEq, Eq)]
pub enum Listed<'t> {
    All,
    Names(List<'t>),
}

/// A domain of either map: its name and its objects or subjects.
#[derive(Clone, Debug)]
pub struct Domain<'t> {
    pub name: Word<'t>,
    pub members: List<'t>,
}

/// An execution or object context; what is not written means `all`.
#[derive(Clone, Debug, Default)]
pub struct Context<'t> {
    pub call_context: Option<List<'t>>,
    pub uid: Option<Word<'t>>,
    pub gid: Option<Word<'t>>,
    pub namespace: Option<Word<'t>>,
}

/// An access descriptor that stands as an item.
#[derive(Clone, Debug)]
pub struct Item<'t> {
    pub objects: Listed<'t>,
    pub context: Context<'t>,
}

/// A `can_read` or `can_write`.
#[derive(Clone, Debug)]
pub enum Access<'t> {
    All,
    Items(Vec<Item<'t>>),
}

impl<'t> Access<'t> {
    /// The items that are written; none under `all`.
    pub fn items(&self) -> &[Item<'t>] {
        match self {
            Access::All => &[],
            Access::Items(items) => items,
        }
    }

    /// "A `can_read` or `can_write` that is `all` or omitted counts as one
    /// access descriptor."
    pub fn descriptors(&self) -> usize {
        match self {
            Access::All => 1,
            Access::Items(items) => items.len(),
        }
    }
}

/// An entry of `privileges`; its line is that of its `principal`.
#[derive(Clone, Debug)]
pub struct Entry<'t> {
    pub line: u32,
    pub subject: Word<'t>,
    pub context: Context<'t>,
    pub can_call: Listed<'t>,
    pub can_return: Listed<'t>,
    pub can_read: Access<'t>,
    pub can_write: Access<'t>,
}

impl<'t> Entry<'t> {
    /// The items of `can_read`, then those of `can_write`.
    pub fn items(&self) -> impl Iterator<Item = &Item<'t>> {
        self.can_read.items().iter().chain(self.can_write.items())
    }
}

/// A whole file whose page is in order.
#[derive(Clone, Debug)]
pub struct File<'t> {
    pub object_map: Vec<Domain<'t>>,
    pub subject_map: Vec<Domain<'t>>,
    pub privileges: Vec<Entry<'t>>,
}
