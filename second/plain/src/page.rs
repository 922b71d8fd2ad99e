//! Document 01, "The page": the first line with 4, 9 or 5.
//!
//! The page is read line by line. Each line is asked for 4, then 9, then 5,
//! and the first fault found ends the reading, so it is on the smallest line.

use crate::file::{Access, Context, Domain, Entry, File, Item, List, Listed, Word};
use crate::refusal::{Refusal, EMPTY, LAYOUT, SCALAR};
use crate::scalars;
use crate::text::{bytes_fault, lines, Line};

/// Whether some bytes are a well-made scalar of one sort.
type Scalar = fn(&[u8]) -> bool;

/// 2, 3, then the first line with 4, 9 or 5.
pub fn first_fault(text: &[u8]) -> Option<Refusal> {
    bytes_fault(text).or_else(|| page(text))
}

/// The first line with 4, 9 or 5, if any; the bytes are taken as they are.
pub fn page(text: &[u8]) -> Option<Refusal> {
    file(text).err()
}

/// What the text says, if its page is in order.
pub fn file(text: &[u8]) -> Result<File<'_>, Refusal> {
    let mut page = Page::new(text);
    let object_map = page.map("object_map", "objects", scalars::is_object_identifier)?;
    let subject_map = page.map("subject_map", "subjects", scalars::is_subject_identifier)?;
    let privileges = page.privileges()?;
    page.end()?;
    Ok(File {
        object_map,
        subject_map,
        privileges,
    })
}

/// A line that counts, cut at its key's colon.
struct Field<'t> {
    line: u32,
    column: usize,
    item: bool,
    key: &'t [u8],
    /// Nothing when the line ends at the colon.
    value: Option<Word<'t>>,
}

/// "Spaces, perhaps `- `, a key word, a colon, and then its end, or one space
/// and a value that neither begins nor ends with a space."
fn field<'t>(line: &Line<'t>) -> Option<Field<'t>> {
    let column = line.column();
    let item = line.stands_at(column, true);
    let key_start = if item { column + 2 } else { column };
    let rest = &line.bytes[key_start..];
    let colon = rest.iter().position(|&byte| byte == b':')?;
    let (key, after) = (&rest[..colon], &rest[colon + 1..]);
    let value = match after {
        [] => None,
        [b' ', value @ ..] => {
            let outer_space = value.first() == Some(&b' ') || value.last() == Some(&b' ');
            if value.is_empty() || outer_space {
                return None;
            }
            let start = line.start + key_start + colon + 2;
            Some(Word {
                line: line.number,
                start,
                bytes: value,
            })
        }
        _ => return None,
    };
    Some(Field {
        line: line.number,
        column,
        item,
        key,
        value,
    })
}

/// The elements of `[]` or `[a, b]`, "with one space after each comma and
/// none elsewhere"; the elements themselves are not judged here.
fn elements(list: Word<'_>) -> Option<Vec<Word<'_>>> {
    let between = list.bytes.strip_prefix(b"[")?.strip_suffix(b"]")?;
    if between.is_empty() {
        return Some(Vec::new());
    }
    let mut all = Vec::new();
    let mut start = list.start + 1;
    for (place, piece) in between.split(|&byte| byte == b',').enumerate() {
        let element = if place == 0 {
            piece
        } else {
            piece.strip_prefix(b" ")?
        };
        if element.contains(&b' ') {
            return None;
        }
        all.push(Word {
            line: list.line,
            start: start + piece.len() - element.len(),
            bytes: element,
        });
        start += piece.len() + 1;
    }
    Some(all)
}

impl<'t> Field<'t> {
    fn refused<T>(&self, number: u16) -> Result<T, Refusal> {
        Err(Refusal::at(number, self.line))
    }

    /// A field whose value is one scalar: 9 when bare, 5 when malformed.
    fn scalar(&self, good: Scalar) -> Result<Word<'t>, Refusal> {
        match self.value {
            None => self.refused(EMPTY),
            Some(word) if good(word.bytes) => Ok(word),
            Some(_) => self.refused(SCALAR),
        }
    }

    /// A field whose value is a list: 4 when it is none, 9 when bare, 5 when
    /// an element is malformed.
    fn list(&self, good: Scalar) -> Result<List<'t>, Refusal> {
        let Some(word) = self.value else {
            return self.refused(EMPTY);
        };
        let Some(elements) = elements(word) else {
            return self.refused(LAYOUT);
        };
        if !elements.iter().all(|element| good(element.bytes)) {
            return self.refused(SCALAR);
        }
        Ok(List {
            line: self.line,
            elements,
        })
    }

    /// A list of domain names or `all`; "a bare `can_` field, or bare
    /// `objects` in such an item, means `[]`".
    fn listed(&self) -> Result<Listed<'t>, Refusal> {
        match self.value {
            None => Ok(Listed::Names(List {
                line: self.line,
                elements: Vec::new(),
            })),
            Some(word) if word.bytes == b"all" => Ok(Listed::All),
            Some(_) => Ok(Listed::Names(self.list(scalars::is_domain_name)?)),
        }
    }

    /// A `call_context`: "and so is `call_context: []`" (9).
    fn pattern(&self) -> Result<List<'t>, Refusal> {
        let list = self.list(scalars::is_element)?;
        if list.elements.is_empty() {
            return self.refused(EMPTY);
        }
        Ok(list)
    }
}

/// The unskipped lines of a text and how far they are read.
struct Page<'t> {
    lines: Vec<Line<'t>>,
    next: usize,
    /// The line to blame where the text ends too early.
    past: u32,
    /// A skipped last line without LF: a fault of its own.
    unended: Option<u32>,
}

impl<'t> Page<'t> {
    fn new(text: &'t [u8]) -> Page<'t> {
        let all = lines(text);
        let last = all.last();
        let unended = last
            .filter(|line| line.is_skipped() && !line.ended)
            .map(|line| line.number);
        // "One past the last", unless the unended line is there to be blamed.
        let past = unended.unwrap_or(last.map_or(0, |line| line.number).saturating_add(1));
        let lines = all.into_iter().filter(|line| !line.is_skipped()).collect();
        Page {
            lines,
            next: 0,
            past,
            unended,
        }
    }

    /// 4 on "the line found in its place, or one past the last".
    fn misplaced<T>(&self) -> Result<T, Refusal> {
        let line = self
            .lines
            .get(self.next)
            .map_or(self.past, |line| line.number);
        Err(Refusal::at(LAYOUT, line))
    }

    /// Whether the next unskipped line is at a block's column.
    fn block(&self, column: usize, item: bool) -> bool {
        self.lines
            .get(self.next)
            .is_some_and(|line| line.stands_at(column, item))
    }

    /// The next line, if it is this key at this column.
    fn peek(&self, column: usize, item: bool, key: &str) -> Option<Field<'t>> {
        let field = field(self.lines.get(self.next)?)?;
        let same = field.column == column && field.item == item && field.key == key.as_bytes();
        same.then_some(field)
    }

    /// A required key.
    fn take(&mut self, column: usize, item: bool, key: &str) -> Result<Field<'t>, Refusal> {
        match self.peek(column, item, key) {
            // "Each line ended by LF": a line without is at fault itself.
            Some(field) if self.lines[self.next].ended => {
                self.next += 1;
                Ok(field)
            }
            _ => self.misplaced(),
        }
    }

    /// A key that may be omitted.
    fn take_if(&mut self, column: usize, key: &str) -> Result<Option<Field<'t>>, Refusal> {
        match self.peek(column, false, key) {
            Some(_) => self.take(column, false, key).map(Some),
            None => Ok(None),
        }
    }

    /// Nothing may follow the last entry.
    fn end(&self) -> Result<(), Refusal> {
        if self.next < self.lines.len() || self.unended.is_some() {
            return self.misplaced();
        }
        Ok(())
    }

    /// A top-level key: `[]` or items. Tells whether items follow.
    fn top(&mut self, key: &str) -> Result<bool, Refusal> {
        let field = self.take(0, false, key)?;
        match field.value {
            Some(word) if word.bytes == b"[]" => Ok(false),
            Some(_) => field.refused(LAYOUT),
            None if self.block(0, true) => Ok(true),
            None => field.refused(EMPTY),
        }
    }

    fn map(&mut self, key: &str, members: &str, good: Scalar) -> Result<Vec<Domain<'t>>, Refusal> {
        let mut domains = Vec::new();
        if self.top(key)? {
            while self.block(0, true) {
                let name = self
                    .take(0, true, "name")?
                    .scalar(scalars::is_domain_name)?;
                let members = self.take(2, false, members)?.list(good)?;
                domains.push(Domain { name, members });
            }
        }
        Ok(domains)
    }

    fn privileges(&mut self) -> Result<Vec<Entry<'t>>, Refusal> {
        let mut entries = Vec::new();
        if self.top("privileges")? {
            while self.block(0, true) {
                entries.push(self.entry()?);
            }
        }
        Ok(entries)
    }

    fn entry(&mut self) -> Result<Entry<'t>, Refusal> {
        let principal = self.take(0, true, "principal")?;
        if principal.value.is_some() {
            return principal.refused(LAYOUT);
        }
        if !self.block(4, false) {
            return principal.refused(EMPTY);
        }
        let subject = self
            .take(4, false, "subject")?
            .scalar(scalars::is_domain_name)?;
        Ok(Entry {
            line: principal.line,
            subject,
            context: self.context("execution_context")?,
            can_call: self.grant("can_call")?,
            can_return: self.grant("can_return")?,
            can_read: self.access("can_read")?,
            can_write: self.access("can_write")?,
        })
    }

    /// `can_call` or `can_return`; omitted means `all`.
    fn grant(&mut self, key: &str) -> Result<Listed<'t>, Refusal> {
        match self.take_if(2, key)? {
            None => Ok(Listed::All),
            Some(field) => field.listed(),
        }
    }

    /// `can_read` or `can_write`: "`all`, `[]`, or items"; omitted means
    /// `all`, bare means `[]`.
    fn access(&mut self, key: &str) -> Result<Access<'t>, Refusal> {
        let Some(field) = self.take_if(2, key)? else {
            return Ok(Access::All);
        };
        let mut items = Vec::new();
        match field.value.map(|word| word.bytes) {
            Some(b"all") => return Ok(Access::All),
            Some(b"[]") => {}
            Some(_) => return field.refused(LAYOUT),
            None => {
                while self.block(2, true) {
                    let objects = self.take(2, true, "objects")?.listed()?;
                    let context = self.context("object_context")?;
                    items.push(Item { objects, context });
                }
            }
        }
        Ok(Access::Items(items))
    }

    /// "`execution_context` and `object_context` are `all` or one or more of
    /// `call_context`, `uid`, `gid`", and `namespace` after these.
    fn context(&mut self, key: &str) -> Result<Context<'t>, Refusal> {
        let Some(field) = self.take_if(4, key)? else {
            return Ok(Context::default());
        };
        match field.value {
            Some(word) if word.bytes == b"all" => return Ok(Context::default()),
            Some(_) => return field.refused(LAYOUT),
            None if !self.block(6, false) => return field.refused(EMPTY),
            None => {}
        }
        let first = self.next;
        let call_context = match self.take_if(6, "call_context")? {
            None => None,
            Some(field) => Some(field.pattern()?),
        };
        let uid = self.scalar_if("uid", scalars::is_uid)?;
        let gid = self.scalar_if("gid", scalars::is_all_or_variable)?;
        let namespace = self.scalar_if("namespace", scalars::is_all_or_variable)?;
        if self.next == first {
            return self.misplaced();
        }
        Ok(Context {
            call_context,
            uid,
            gid,
            namespace,
        })
    }

    fn scalar_if(&mut self, key: &str, good: Scalar) -> Result<Option<Word<'t>>, Refusal> {
        match self.take_if(6, key)? {
            None => Ok(None),
            Some(field) => Ok(Some(field.scalar(good)?)),
        }
    }
}
