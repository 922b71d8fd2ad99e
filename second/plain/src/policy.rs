//! The meaning of an accepted file: numbers in place of names.

pub const DOMAINS: usize = 128;
pub const MEMBERS: usize = 1_024;
pub const ENTRIES: usize = 128;
pub const ELEMENTS: usize = 16;
pub const DESCRIPTORS: usize = 256;

/// An element of a pattern.
#[derive(Clone, Copy, Debug, PartialEq, Eq, PartialOrd, Ord, Hash)]
pub enum Element {
    All,
    Function(u16),
    /// A subject domain.
    Domain(u16),
}

impl Element {
    /// Whether the element meets one frame, by the domain of each function. A
    /// domain meets "any one frame whose function lies in that domain"; an
    /// unlisted frame lies in none.
    pub fn meets(self, functions: &[u16], frame: u16) -> bool {
        match self {
            Element::All => true,
            Element::Function(function) => function == frame,
            Element::Domain(domain) => functions.get(usize::from(frame)) == Some(&domain),
        }
    }
}

/// The sort of a uid.
#[derive(Clone, Copy, Debug, PartialEq, Eq, PartialOrd, Ord, Hash)]
pub enum Uid {
    All,
    Variable,
    Root,
    User,
}

/// The sort of a gid, and of a namespace: "same rules as gid".
#[derive(Clone, Copy, Debug, PartialEq, Eq, PartialOrd, Ord, Hash)]
pub enum Sort {
    All,
    Variable,
}

#[derive(Clone, Debug, PartialEq, Eq, PartialOrd, Ord, Hash)]
pub struct Context {
    pub pattern: Vec<Element>,
    pub uid: Uid,
    pub gid: Sort,
    pub namespace: Sort,
}

impl Context {
    /// "Omitted ones are `[all]`, `all`, `all`", and `all` again.
    pub fn all() -> Context {
        Context {
            pattern: vec![Element::All],
            uid: Uid::All,
            gid: Sort::All,
            namespace: Sort::All,
        }
    }
}

/// A set of domains: domain d is bit d.
#[derive(Clone, Copy, Debug, Default, PartialEq, Eq)]
pub struct DomainSet(u128);

impl DomainSet {
    pub fn insert(&mut self, domain: u16) {
        self.0 |= 1 << domain;
    }

    pub fn contains(self, domain: u16) -> bool {
        usize::from(domain) < DOMAINS && self.0 >> domain & 1 == 1
    }

    pub fn iter(self) -> impl Iterator<Item = u16> {
        (0..DOMAINS as u16).filter(move |&domain| self.contains(domain))
    }
}

impl FromIterator<u16> for DomainSet {
    fn from_iter<I: IntoIterator<Item = u16>>(domains: I) -> DomainSet {
        let mut set = DomainSet::default();
        domains.into_iter().for_each(|domain| set.insert(domain));
        set
    }
}

/// The domains that are granted.
#[derive(Clone, Debug, PartialEq, Eq)]
pub enum Grant {
    All,
    Domains(DomainSet),
}

impl Grant {
    pub fn holds(&self, domain: u16) -> bool {
        match self {
            Grant::All => true,
            Grant::Domains(domains) => domains.contains(domain),
        }
    }

    /// Whether every domain named is below the count.
    fn below(&self, count: u16) -> bool {
        match self {
            Grant::All => true,
            Grant::Domains(domains) => domains.iter().all(|domain| domain < count),
        }
    }
}

/// An access descriptor.
#[derive(Clone, Debug, PartialEq, Eq)]
pub struct Descriptor {
    pub objects: Grant,
    pub context: Context,
}

impl Descriptor {
    /// What `can_read: all` stands for.
    pub fn all() -> Descriptor {
        Descriptor {
            objects: Grant::All,
            context: Context::all(),
        }
    }
}

#[derive(Clone, Debug, PartialEq, Eq)]
pub struct Entry {
    pub subject: u16,
    pub context: Context,
    pub can_call: Grant,
    pub can_return: Grant,
    pub can_read: Vec<Descriptor>,
    pub can_write: Vec<Descriptor>,
}

impl Entry {
    /// The read descriptors, then the write descriptors.
    pub fn descriptors(&self) -> impl Iterator<Item = &Descriptor> {
        self.can_read.iter().chain(&self.can_write)
    }

    /// "Principals are the same when subject and pattern elements are equal
    /// and uid and gid are of the same sort"; the namespace likewise.
    pub fn same_principal(&self, other: &Entry) -> bool {
        self.subject == other.subject && self.context == other.context
    }

    /// "A variable in an object context has a variable at the same key of its
    /// entry" (point 21).
    fn binds(&self, context: &Context) -> bool {
        let binds = |bound, used| used != Sort::Variable || bound == Sort::Variable;
        (context.uid != Uid::Variable || self.context.uid == Uid::Variable)
            && binds(self.context.gid, context.gid)
            && binds(self.context.namespace, context.namespace)
    }
}

#[derive(Clone, Debug, PartialEq, Eq)]
pub struct Policy {
    pub object_domains: u16,
    pub subject_domains: u16,
    /// The domain of each object, and of each function.
    pub objects: Vec<u16>,
    pub functions: Vec<u16>,
    pub entries: Vec<Entry>,
}

impl Policy {
    /// What "well formed" asks of the numbers: counts within the limits,
    /// every number below its count, no two entries with one principal,
    /// object variables bound.
    pub fn is_sound(&self) -> bool {
        let descriptors: usize = self
            .entries
            .iter()
            .map(|entry| entry.can_read.len() + entry.can_write.len())
            .sum();
        usize::from(self.object_domains) <= DOMAINS
            && usize::from(self.subject_domains) <= DOMAINS
            && self.objects.len() <= MEMBERS
            && self.functions.len() <= MEMBERS
            && self.entries.len() <= ENTRIES
            && descriptors <= DESCRIPTORS
            && self.objects.iter().all(|&d| d < self.object_domains)
            && self.functions.iter().all(|&d| d < self.subject_domains)
            && self.entries.iter().all(|entry| self.sound_entry(entry))
            && first_repeat(&self.entries).is_none()
    }

    fn sound_entry(&self, entry: &Entry) -> bool {
        entry.subject < self.subject_domains
            && self.sound_context(&entry.context)
            && entry.can_call.below(self.subject_domains)
            && entry.can_return.below(self.subject_domains)
            && entry.descriptors().all(|descriptor| {
                self.sound_context(&descriptor.context)
                    && entry.binds(&descriptor.context)
                    && descriptor.objects.below(self.object_domains)
            })
    }

    fn sound_context(&self, context: &Context) -> bool {
        (1..=ELEMENTS).contains(&context.pattern.len())
            && context.pattern.iter().all(|element| match element {
                Element::All => true,
                Element::Function(function) => usize::from(*function) < self.functions.len(),
                Element::Domain(domain) => *domain < self.subject_domains,
            })
    }
}

/// The first entry whose principal an earlier entry has (11).
pub fn first_repeat(entries: &[Entry]) -> Option<usize> {
    (0..entries.len()).find(|&later| {
        entries[..later]
            .iter()
            .any(|earlier| earlier.same_principal(&entries[later]))
    })
}
