use crate::datatypes::DataType;
use crate::utils::PlHashMap;
use polars_utils::pl_str::PlSmallStr;
use std::cell::OnceCell;
use std::hash::Hash;

/// Where keys stand: a few are scanned, many are hashed once the first is looked for.
#[derive(Clone, Debug)]
struct Index<K>(OnceCell<PlHashMap<K, usize>>);

impl<K: Clone + Eq + Hash> Index<K> {
    const FEW: usize = 8;

    fn new() -> Self {
        Index(OnceCell::new())
    }

    fn position<'a, C>(
        &self,
        columns: &'a [C],
        key: &K,
        of: impl Fn(&'a C) -> &'a K,
    ) -> Option<usize>
    where
        K: 'a,
    {
        if columns.len() <= Self::FEW {
            return columns.iter().position(|column| of(column) == key);
        }
        let fill = || {
            let each = columns.iter().enumerate();
            each.map(|(at, column)| (of(column).clone(), at)).collect()
        };
        self.0.get_or_init(fill).get(key).copied()
    }
}

/// Columns in order, no two of one name.
#[derive(Clone, Debug)]
pub struct Schema {
    columns: Vec<(PlSmallStr, DataType)>,
    index: Index<PlSmallStr>,
}

impl Schema {
    pub fn new(columns: Vec<(PlSmallStr, DataType)>) -> Self {
        let index = Index::new();
        Self { columns, index }
    }

    pub fn iter(&self) -> impl Iterator<Item = (&PlSmallStr, &DataType)> {
        self.columns.iter().map(|(name, dtype)| (name, dtype))
    }

    pub fn get_full(&self, name: &PlSmallStr) -> Option<(usize, &PlSmallStr, &DataType)> {
        let index = self
            .index
            .position(&self.columns, name, |column| &column.0)?;
        let (name, dtype) = &self.columns[index];
        Some((index, name, dtype))
    }
}

pub mod iceberg {
    use super::Index;
    use crate::datatypes::{DataType, Field};
    use polars_utils::pl_str::PlSmallStr;

    pub const LIST_ELEMENT_DEFAULT_ID: u32 = u32::MAX;

    #[derive(Clone, Debug)]
    pub struct IcebergColumn {
        pub name: PlSmallStr,
        pub physical_id: u32,
        pub type_: IcebergColumnType,
    }

    #[derive(Clone, Debug)]
    pub enum IcebergColumnType {
        Primitive { dtype: DataType },
        List(Box<IcebergColumn>),
        FixedSizeList(Box<IcebergColumn>, usize),
        Struct(IcebergSchema),
    }

    impl IcebergColumnType {
        /// The type without ids and without element names.
        pub fn to_polars_dtype(&self) -> DataType {
            match self {
                Self::Primitive { dtype } => dtype.clone(),
                Self::List(inner) => DataType::List(Box::new(inner.type_.to_polars_dtype())),
                Self::FixedSizeList(inner, width) => {
                    DataType::Array(Box::new(inner.type_.to_polars_dtype()), *width)
                }
                Self::Struct(fields) => {
                    let field = |column: &IcebergColumn| Field {
                        name: column.name.clone(),
                        dtype: column.type_.to_polars_dtype(),
                    };
                    DataType::Struct(fields.values().map(field).collect())
                }
            }
        }
    }

    /// Columns in order, no two of one id.
    #[derive(Clone, Debug)]
    pub struct IcebergSchema {
        columns: Vec<IcebergColumn>,
        index: Index<u32>,
    }

    #[allow(clippy::len_without_is_empty)]
    impl IcebergSchema {
        pub fn new(columns: Vec<IcebergColumn>) -> Self {
            let index = Index::new();
            Self { columns, index }
        }

        pub fn len(&self) -> usize {
            self.columns.len()
        }

        pub fn values(&self) -> impl Iterator<Item = &IcebergColumn> {
            self.columns.iter()
        }

        pub fn iter(&self) -> impl Iterator<Item = (&u32, &IcebergColumn)> {
            self.columns
                .iter()
                .map(|column| (&column.physical_id, column))
        }

        pub fn contains_key(&self, id: &u32) -> bool {
            self.get_full(id).is_some()
        }

        pub fn get_full(&self, id: &u32) -> Option<(usize, &u32, &IcebergColumn)> {
            let index = self
                .index
                .position(&self.columns, id, |column| &column.physical_id)?;
            Some((
                index,
                &self.columns[index].physical_id,
                &self.columns[index],
            ))
        }
    }
}
