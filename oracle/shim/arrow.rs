//! Shim for the `arrow` crate: just enough of its names for the unmodified
//! dfschema.rs, column.rs and error.rs of datafusion-common to compile.
//!
//! Written for the oracle; not arrow's code. Of the data types the oracle uses
//! only `Int64` (number) and `Utf8` (code).

pub mod datatypes {
    use std::collections::HashMap;
    use std::fmt::{self, Display, Formatter};
    use std::hash::{Hash, Hasher};
    use std::ops::Deref;
    use std::sync::Arc;

    pub type FieldRef = Arc<Field>;
    pub type SchemaRef = Arc<Schema>;

    #[derive(Debug, Clone, Copy, PartialEq, Eq, Hash)]
    pub enum TimeUnit {
        Second,
        Millisecond,
        Microsecond,
        Nanosecond,
    }

    #[derive(Debug, Clone, Copy, PartialEq, Eq, Hash)]
    pub enum IntervalUnit {
        YearMonth,
        DayTime,
        MonthDayNano,
    }

    #[derive(Debug, Clone, Copy, PartialEq, Eq, Hash)]
    pub enum UnionMode {
        Sparse,
        Dense,
    }

    #[derive(Debug, Clone, PartialEq, Eq, Hash)]
    pub enum DataType {
        Null,
        Boolean,
        Int8,
        Int16,
        Int32,
        Int64,
        UInt8,
        UInt16,
        UInt32,
        UInt64,
        Float16,
        Float32,
        Float64,
        Timestamp(TimeUnit, Option<Arc<str>>),
        Date32,
        Date64,
        Time32(TimeUnit),
        Time64(TimeUnit),
        Interval(IntervalUnit),
        Binary,
        FixedSizeBinary(i32),
        LargeBinary,
        Utf8,
        LargeUtf8,
        Utf8View,
        List(FieldRef),
        ListView(FieldRef),
        FixedSizeList(FieldRef, i32),
        LargeList(FieldRef),
        LargeListView(FieldRef),
        Struct(Fields),
        Union(UnionFields, UnionMode),
        Dictionary(Box<DataType>, Box<DataType>),
        Decimal32(u8, i8),
        Decimal64(u8, i8),
        Decimal128(u8, i8),
        Decimal256(u8, i8),
        Map(FieldRef, bool),
        RunEndEncoded(FieldRef, FieldRef),
    }

    impl Display for DataType {
        fn fmt(&self, f: &mut Formatter<'_>) -> fmt::Result {
            write!(f, "{self:?}")
        }
    }

    /// A field. As in arrow, equality and hash take in every part.
    #[derive(Debug, Clone, PartialEq, Eq)]
    pub struct Field {
        name: String,
        data_type: DataType,
        nullable: bool,
        metadata: HashMap<String, String>,
    }

    impl Hash for Field {
        fn hash<H: Hasher>(&self, state: &mut H) {
            self.name.hash(state);
            self.data_type.hash(state);
            self.nullable.hash(state);
            let mut entries: Vec<_> = self.metadata.iter().collect();
            entries.sort();
            entries.hash(state);
        }
    }

    impl Field {
        pub fn new(name: impl Into<String>, data_type: DataType, nullable: bool) -> Self {
            Self {
                name: name.into(),
                data_type,
                nullable,
                metadata: HashMap::new(),
            }
        }

        pub fn name(&self) -> &String {
            &self.name
        }

        pub fn data_type(&self) -> &DataType {
            &self.data_type
        }

        pub fn is_nullable(&self) -> bool {
            self.nullable
        }

        pub fn metadata(&self) -> &HashMap<String, String> {
            &self.metadata
        }
    }

    #[derive(Debug, Clone, PartialEq, Eq, Hash)]
    pub struct Fields(Arc<[FieldRef]>);

    impl Deref for Fields {
        type Target = [FieldRef];

        fn deref(&self) -> &Self::Target {
            &self.0
        }
    }

    impl<'a> IntoIterator for &'a Fields {
        type Item = &'a FieldRef;
        type IntoIter = std::slice::Iter<'a, FieldRef>;

        fn into_iter(self) -> Self::IntoIter {
            self.0.iter()
        }
    }

    impl From<Vec<Field>> for Fields {
        fn from(fields: Vec<Field>) -> Self {
            Self(fields.into_iter().map(Arc::new).collect())
        }
    }

    impl From<Vec<FieldRef>> for Fields {
        fn from(fields: Vec<FieldRef>) -> Self {
            Self(fields.into())
        }
    }

    impl<const N: usize> From<[FieldRef; N]> for Fields {
        fn from(fields: [FieldRef; N]) -> Self {
            Self(Arc::new(fields))
        }
    }

    #[derive(Debug, Clone, PartialEq, Eq, Hash)]
    pub struct UnionFields(Vec<(i8, FieldRef)>);

    impl UnionFields {
        pub fn len(&self) -> usize {
            self.0.len()
        }

        pub fn is_empty(&self) -> bool {
            self.0.is_empty()
        }

        pub fn iter(&self) -> impl Iterator<Item = (i8, &FieldRef)> {
            self.0.iter().map(|(id, field)| (*id, field))
        }
    }

    #[derive(Debug, Clone, PartialEq, Eq)]
    pub struct Schema {
        pub fields: Fields,
        pub metadata: HashMap<String, String>,
    }

    impl Schema {
        pub fn new(fields: impl Into<Fields>) -> Self {
            Self::new_with_metadata(fields, HashMap::new())
        }

        pub fn new_with_metadata(
            fields: impl Into<Fields>,
            metadata: HashMap<String, String>,
        ) -> Self {
            Self {
                fields: fields.into(),
                metadata,
            }
        }

        pub fn with_metadata(mut self, metadata: HashMap<String, String>) -> Self {
            self.metadata = metadata;
            self
        }

        pub fn fields(&self) -> &Fields {
            &self.fields
        }
    }

    /// Appends fields one by one; nothing is dropped or merged.
    #[derive(Debug, Default)]
    pub struct SchemaBuilder {
        fields: Vec<FieldRef>,
    }

    impl SchemaBuilder {
        pub fn new() -> Self {
            Self::default()
        }

        pub fn push(&mut self, field: impl Into<FieldRef>) {
            self.fields.push(field.into());
        }

        pub fn finish(self) -> Schema {
            Schema::new(self.fields)
        }
    }

    impl From<Fields> for SchemaBuilder {
        fn from(fields: Fields) -> Self {
            Self {
                fields: fields.to_vec(),
            }
        }
    }

    impl Extend<FieldRef> for SchemaBuilder {
        fn extend<I: IntoIterator<Item = FieldRef>>(&mut self, fields: I) {
            self.fields.extend(fields);
        }
    }
}

pub mod compute {
    use crate::datatypes::DataType;

    /// Reached only from `logically_equivalent_names_and_types`, which the
    /// oracle never calls.
    pub fn can_cast_types(_from: &DataType, _to: &DataType) -> bool {
        unimplemented!("shim: casts are not carried")
    }
}

pub mod error {
    use std::error::Error;
    use std::fmt::{self, Display, Formatter};

    /// Only the variant that error.rs names.
    #[derive(Debug)]
    pub enum ArrowError {
        ExternalError(Box<dyn Error + Send + Sync>),
    }

    impl Display for ArrowError {
        fn fmt(&self, f: &mut Formatter<'_>) -> fmt::Result {
            write!(f, "{self:?}")
        }
    }

    impl Error for ArrowError {}
}
