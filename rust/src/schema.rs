use std::ops::Range;
use std::sync::{Arc, Mutex, MutexGuard, PoisonError};

use crate::calls::*;
use crate::error::{Error, Result};
use crate::held::{copied, text_of, Held};
use crate::slice::Slice;

/// The types that a schema file defines. Threads may share one: calls wait for one another, unless each thread has its own by
/// [`share`](Schema::share).
pub struct Schema {
    held: Mutex<Held>,
    text: Arc<[u8]>,
}

impl Schema {
    /// The schema that the bytes of a schema file define.
    pub fn read(text: &[u8]) -> Result<Schema> {
        let read = |handle, fault| unsafe { ssz_schema_read(handle, text.as_ptr(), text.len(), fault) };
        let held = Held::begun(read, ssz_schema_free)?;
        Ok(Schema { held: Mutex::new(held), text: text.into() })
    }

    /// The same schema, whose calls do not wait for this one's. What was read stands in memory once.
    ///
    /// ```
    /// # fn main() -> ssz::Result<()> {
    /// let schema = ssz::Schema::read(br#"{"ssz":1,"types":[["P",{"container":[["a","uint64"]]}]]}"#)?;
    /// let other = schema.share()?;
    /// let root = std::thread::spawn(move || other.find("P")?.root(&[0; 8])).join().expect("it ends");
    /// assert_eq!(root, schema.find("P")?.root(&[0; 8]));
    /// # Ok(())
    /// # }
    /// ```
    pub fn share(&self) -> Result<Schema> {
        let share = |handle, schema, fault| unsafe { ssz_schema_share(handle, schema, fault) };
        Ok(Schema { held: Mutex::new(self.begin(share, ssz_schema_free)?), text: Arc::clone(&self.text) })
    }

    /// The bytes that it was read from.
    pub fn text(&self) -> &[u8] {
        &self.text
    }

    /// The type of a name.
    pub fn find(&self, name: &str) -> Result<Type<'_>> {
        let mut number = 0;
        self.call(|handle, fault| unsafe { ssz_type(handle, name.as_ptr(), name.len(), &mut number, fault) })?;
        Ok(Type { schema: self, number })
    }

    /// The names of all types in byte order, the built-in ones too.
    pub fn names(&self) -> Result<Vec<String>> {
        let names = self.text_by(|handle, room, room_len, len, fault| unsafe { ssz_names(handle, room, room_len, len, fault) })?;
        let mut names: Vec<String> = names.lines().map(str::to_owned).collect();
        names.shrink_to_fit();
        Ok(names)
    }

    /// The types that were asked for so far, in order: by name, or as part of another.
    pub fn types(&self) -> Result<Vec<Type<'_>>> {
        let mut count = 0;
        self.call(|handle, fault| unsafe { ssz_types(handle, &mut count, fault) })?;
        Ok((0..count).map(|number| Type { schema: self, number }).collect())
    }

    fn lock(&self) -> MutexGuard<'_, Held> {
        self.held.lock().unwrap_or_else(PoisonError::into_inner)
    }

    fn call(&self, call: impl FnOnce(*mut Handle, *mut Fault) -> u32) -> Result<()> {
        self.lock().call(call)
    }

    /// What is begun on this schema, and has a copy of it or shares it.
    pub(crate) fn begin(
        &self,
        begin: impl FnOnce(*mut Handle, *mut Handle, *mut Fault) -> u32,
        end: unsafe extern "C" fn(*mut Handle) -> u32,
    ) -> Result<Held> {
        let mut lent = self.lock();
        Held::begun(|handle, fault| begin(handle, lent.as_lent(), fault), end)
    }

    /// A text that a call copies.
    fn text_by(&self, call: impl Fn(*mut Handle, *mut u8, usize, *mut u64, *mut Fault) -> u32) -> Result<String> {
        self.lock().filled(call).map(text_of)
    }
}

/// The form of a type, with the types that it is made of.
#[derive(Clone)]
#[non_exhaustive]
pub enum Form<'s> {
    /// A truth value.
    Boolean,
    /// A number; the size of the type tells of how many bytes.
    Uint,
    /// Fields in order, each with its name.
    Container(Vec<(String, Type<'s>)>),
    /// So many values of a type.
    Vector(Type<'s>, u64),
    /// At most so many values of a type.
    List(Type<'s>, u64),
    /// So many bits.
    Bitvector(u64),
    /// At most so many bits.
    Bitlist(u64),
    /// Options in order, None as `None`.
    Union(Vec<Option<Type<'s>>>),
}

/// A type of a schema: what holds of the bytes of its values.
#[derive(Clone, Copy)]
pub struct Type<'s> {
    schema: &'s Schema,
    number: u64,
}

impl<'s> Type<'s> {
    /// The first of its names in byte order; `None` where it has none.
    pub fn name(&self) -> Result<Option<String>> {
        present(self.schema.text_by(|handle, room, room_len, len, fault| unsafe {
            ssz_type_name(handle, self.number, room, room_len, len, fault)
        }))
    }

    /// How many bytes each value has; `None` where they differ.
    pub fn size(&self) -> Result<Option<u64>> {
        let size = self.number_of(ssz_size)?;
        Ok(Some(size).filter(|size| *size > 0))
    }

    /// What the type is.
    pub fn form(&self) -> Result<Form<'s>> {
        let mut form = 0;
        self.schema.call(|handle, fault| unsafe { ssz_form(handle, self.number, &mut form, fault) })?;
        Ok(match form {
            1 => Form::Boolean,
            2 => Form::Uint,
            3 => Form::Container(self.fields()?),
            4 => Form::Vector(self.part_type(0)?, self.number_of(ssz_limit)?),
            5 => Form::List(self.part_type(0)?, self.number_of(ssz_limit)?),
            6 => Form::Bitvector(self.number_of(ssz_limit)?),
            7 => Form::Bitlist(self.number_of(ssz_limit)?),
            8 => Form::Union((0..self.number_of(ssz_parts)?).map(|place| present(self.part_type(place))).collect::<Result<_>>()?),
            form => return Err(Error::Other { status: form }),
        })
    }

    fn fields(&self) -> Result<Vec<(String, Type<'s>)>> {
        let name = |place| {
            self.schema.text_by(|handle, room, room_len, len, fault| unsafe {
                ssz_field(handle, self.number, place, room, room_len, len, fault)
            })
        };
        (0..self.number_of(ssz_fields)?).map(|place| Ok((name(place)?, self.part_type(place)?))).collect()
    }

    /// The type at a place of those that this one is made of.
    fn part_type(&self, place: u64) -> Result<Type<'s>> {
        let mut number = 0;
        self.schema.call(|handle, fault| unsafe { ssz_part_type(handle, self.number, place, &mut number, fault) })?;
        Ok(Type { schema: self.schema, number })
    }

    fn number_of(&self, call: unsafe extern "C" fn(*mut Handle, u64, *mut u64, *mut Fault) -> u32) -> Result<u64> {
        let mut found = 0;
        self.schema.call(|handle, fault| unsafe { call(handle, self.number, &mut found, fault) })?;
        Ok(found)
    }

    /// Whether the bytes encode a value: the first fault where they do not.
    pub fn check(&self, data: &[u8]) -> Result<()> {
        self.schema.call(|handle, fault| unsafe { ssz_check(handle, self.number, data.as_ptr(), data.len(), fault) })
    }

    /// The bytes, checked once, to ask for many parts: the first fault where they encode no value.
    pub fn open(&self, data: &[u8]) -> Result<Slice> {
        let open = |handle, schema, fault| unsafe { ssz_slice_open(handle, schema, self.number, data.as_ptr(), data.len(), fault) };
        Ok(Slice::of(self.schema.begin(open, ssz_slice_close)?))
    }

    /// The hash_tree_root of the value that the bytes encode.
    pub fn root(&self, data: &[u8]) -> Result<[u8; 32]> {
        let mut root = [0; 32];
        self.schema.call(|handle, fault| unsafe { ssz_root(handle, self.number, data.as_ptr(), data.len(), &mut root, fault) })?;
        Ok(root)
    }

    /// The generalized index of the part at a path.
    pub fn gindex(&self, path: &str) -> Result<u128> {
        let mut index = Index::default();
        self.schema.call(|handle, fault| unsafe { ssz_gindex(handle, self.number, path.as_ptr(), path.len(), &mut index, fault) })?;
        Ok(index.number())
    }

    /// The encoding of the part at a path of the value that the bytes encode, all of which are checked: for many parts see
    /// [`Type::open`]. A bit is one byte, a length (`/list/#len`) eight.
    pub fn part(&self, data: &[u8], path: &str) -> Result<Vec<u8>> {
        match self.place(data, path) {
            Err(Error::NoPlace) => self.part_without_place(data, path),
            place => copied(data.get(place?).ok_or(Error::Absent)?),
        }
    }

    fn place(&self, data: &[u8], path: &str) -> Result<Range<usize>> {
        let mut place = Stretch::default();
        self.schema.call(|handle, fault| unsafe {
            ssz_place(handle, self.number, data.as_ptr(), data.len(), path.as_ptr(), path.len(), &mut place, fault)
        })?;
        Ok(place.range())
    }

    /// A bit, or a length.
    fn part_without_place(&self, data: &[u8], path: &str) -> Result<Vec<u8>> {
        self.schema.lock().filled(|handle, room, room_len, len, fault| unsafe {
            ssz_part(handle, self.number, data.as_ptr(), data.len(), path.as_ptr(), path.len(), room, room_len, len, fault)
        })
    }
}

/// What there is, where it is not absent.
fn present<T>(found: Result<T>) -> Result<Option<T>> {
    match found {
        Err(Error::Absent) => Ok(None),
        found => found.map(Some),
    }
}
