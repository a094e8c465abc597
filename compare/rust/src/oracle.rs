//! What the original answers to a case: its arguments turned into the original's types, its selectors into plan bytes,
//! its errors into numbers.

use crate::decimals;
use crate::nodes::io_sources::multi_scan::components::column_selector::ColumnSelector;
use crate::nodes::io_sources::multi_scan::components::column_selector::builder::ColumnSelectorBuilder;
use crate::nodes::io_sources::multi_scan::components::column_selector::transform::ColumnTransform;
use crate::nodes::io_sources::multi_scan::components::default_field_values::IcebergDefaultValueProviderRef;
use plain::call::Refusal;
use plain::case::Case;
use plain::form::{self, Column, Default, Entry, Layout, Leaf, LeafValue, Type};
use plain::nullness::has_required;
use plain::policy;
use polars_core::chunked_array::cast::CastOptions;
use polars_core::prelude::{DataType, Field, TimeUnit, TimeZone, Value};
use polars_core::scalar::{self, Scalar};
use polars_core::schema::Schema;
use polars_core::schema::iceberg::{IcebergColumn, IcebergColumnType, IcebergSchema};
use polars_error::{PolarsError, PolarsResult};
use polars_plan::dsl::default_values::IcebergDefaultFieldValues;
use polars_plan::dsl::{CastColumnsPolicy, ExtraColumnsPolicy, MissingColumnsPolicy};
use polars_utils::pl_str::PlSmallStr;

#[derive(Clone, Debug, PartialEq, Eq)]
pub enum Answer {
    Plan(Vec<u8>),
    Refused { number: u32, place: u32 },
}

/// Why a case is no part of the comparison.
#[derive(Clone, Copy, Debug, PartialEq, Eq, PartialOrd, Ord)]
pub enum Aside {
    /// A layout or the table can't be read.
    Unreadable { number: u32, place: u32 },
    /// A layout is of a version that the build does not take.
    Version,
    /// A layout has a required field, which the original does not know.
    Required,
    /// A name or zone is not UTF-8.
    Text,
    /// By number, a top column is missing.
    MissingTop,
    /// By number, a field is missing in a struct whose default is a value or an error.
    StructDefault,
    /// Decimals stand in both layouts, and the flag for their widening is on.
    Widening,
    /// Extra top columns are refused, which the original ignores.
    ExtraColumns,
    /// The plan is longer than the buffer or the limit.
    Space,
}

/// The answer that the comparison takes, or why it takes none. A plan has space when it is within the limit.
pub fn answer(case: &Case) -> Result<Answer, Aside> {
    let taken = scalar::taken();
    let answer = original(case)?;
    let failed = matches!(answer, Answer::Refused { number: 26, .. });
    if failed || scalar::taken() != taken {
        return Err(Aside::StructDefault);
    }
    match answer {
        Answer::Plan(plan) if plan.len() > form::PLAN_LIMIT => Err(Aside::Space),
        answer => Ok(answer),
    }
}

/// The original's answer, also where a struct's default is a value or an error.
pub fn original(case: &Case) -> Result<Answer, Aside> {
    let unreadable = |place: u32| {
        move |number: u32| {
            let Refusal { number, place } = Refusal::of_input(place)(number);
            Aside::Unreadable { number, place }
        }
    };
    let incoming = form::read_layout(&case.incoming).map_err(unreadable(1))?;
    let target = form::read_layout(&case.target).map_err(unreadable(2))?;
    let taken = |layout: &Layout| (layout.version == 1) == case.number.is_none();
    if !taken(&incoming) || !taken(&target) {
        return Err(Aside::Version);
    }
    if has_required(&incoming.columns) || has_required(&target.columns) {
        return Err(Aside::Required);
    }
    if case.policy & policy::EXTRA_COLUMNS == 0 {
        return Err(Aside::ExtraColumns);
    }
    if case.policy & policy::DECIMAL_WIDENING != 0 && decimals::in_both(&incoming, &target) {
        return Err(Aside::Widening);
    }
    match &case.number {
        None => by_name(case.policy, &incoming, &target),
        Some(number) => {
            let entries =
                form::read_defaults(&number.defaults, number.owner).map_err(unreadable(3))?;
            let defaults = defaults(&entries)?;
            let provider =
                IcebergDefaultValueProviderRef::new(&defaults, number.source_index as usize);
            by_number(case.policy, &incoming, &target, provider)
        }
    }
}

fn schema(layout: &Layout) -> Result<Schema, Aside> {
    let column = |column: &Column| Ok((text(&column.name)?, dtype(&column.type_)?));
    let columns: Result<_, _> = layout.columns.iter().map(column).collect();
    Ok(Schema::new(columns?))
}

fn by_name(policy: u32, incoming: &Layout, target: &Layout) -> Result<Answer, Aside> {
    let (incoming, target) = (schema(incoming)?, schema(target)?);
    let builder = builder(policy);
    let mut selectors = Vec::new();
    for (place, (name, dtype)) in target.iter().enumerate() {
        match builder.build_column_selector(&incoming, name, dtype) {
            Ok(selector) => selectors.push(selector),
            Err(error) => return Ok(refused(error, place)),
        }
    }
    Ok(Answer::Plan(plan(&selectors)))
}

fn by_number(
    policy: u32,
    incoming: &Layout,
    target: &Layout,
    provider: IcebergDefaultValueProviderRef,
) -> Result<Answer, Aside> {
    let (incoming, target) = (
        iceberg_schema(&incoming.columns)?,
        iceberg_schema(&target.columns)?,
    );
    let builder = builder(policy);
    let mut selectors = Vec::new();
    for (place, (id, column)) in target.iter().enumerate() {
        let Some((index, _, counterpart)) = incoming.get_full(id) else {
            return Err(Aside::MissingTop);
        };
        let input = ColumnSelector::Position(index);
        let built: PolarsResult<_> =
            builder.attach_iceberg_transforms(input, counterpart, column, Some(provider));
        match built {
            Ok(selector) => selectors.push(selector),
            Err(error) => return Ok(refused(error, place)),
        }
    }
    Ok(Answer::Plan(plan(&selectors)))
}

fn builder(policy: u32) -> ColumnSelectorBuilder {
    let on = |bit: u32| policy & bit != 0;
    let missing = |insert: bool| match insert {
        true => MissingColumnsPolicy::Insert,
        false => MissingColumnsPolicy::Raise,
    };
    ColumnSelectorBuilder {
        cast_columns_policy: CastColumnsPolicy {
            null_upcast: on(policy::NULL_UPCAST),
            integer_upcast: on(policy::INTEGER_UPCAST),
            float_upcast: on(policy::FLOAT_UPCAST),
            float_downcast: on(policy::FLOAT_DOWNCAST),
            integer_to_float_cast: on(policy::INTEGER_TO_FLOAT_CAST),
            datetime_convert_timezone: on(policy::DATETIME_CONVERT_TIMEZONE),
            datetime_nanoseconds_downcast: on(policy::DATETIME_NANOSECONDS_DOWNCAST),
            datetime_microseconds_downcast: on(policy::DATETIME_MICROSECONDS_DOWNCAST),
            datetime_microseconds_upcast: on(policy::DATETIME_MICROSECONDS_UPCAST),
            datetime_milliseconds_upcast: on(policy::DATETIME_MILLISECONDS_UPCAST),
            categorical_to_string: on(policy::CATEGORICAL_TO_STRING),
            missing_struct_fields: missing(on(policy::MISSING_STRUCT_FIELDS)),
            extra_struct_fields: match on(policy::EXTRA_STRUCT_FIELDS) {
                true => ExtraColumnsPolicy::Ignore,
                false => ExtraColumnsPolicy::Raise,
            },
        },
        missing_columns_policy: missing(on(policy::MISSING_COLUMNS)),
    }
}

// Arguments.

fn text(bytes: &[u8]) -> Result<PlSmallStr, Aside> {
    match std::str::from_utf8(bytes) {
        Ok(text) => Ok(PlSmallStr::from(text)),
        Err(_) => Err(Aside::Text),
    }
}

fn leaf_dtype(leaf: &Leaf) -> Result<DataType, Aside> {
    Ok(match leaf {
        Leaf::Plain(code) => match code {
            0 => DataType::Null,
            1 => DataType::Boolean,
            2 => DataType::Int8,
            3 => DataType::Int16,
            4 => DataType::Int32,
            5 => DataType::Int64,
            6 => DataType::UInt8,
            7 => DataType::UInt16,
            8 => DataType::UInt32,
            9 => DataType::UInt64,
            10 => DataType::Float16,
            11 => DataType::Float32,
            12 => DataType::Float64,
            13 => DataType::Date,
            15 => DataType::String,
            16 => DataType::Binary,
            17 => DataType::Categorical,
            code => unreachable!("leaf code {code}"),
        },
        Leaf::Datetime { unit, zone } => {
            let unit = match unit {
                0 => TimeUnit::Nanoseconds,
                1 => TimeUnit::Microseconds,
                _ => TimeUnit::Milliseconds,
            };
            let zone = match zone.as_slice() {
                [] => None,
                zone => Some(TimeZone(text(zone)?)),
            };
            DataType::Datetime(unit, zone)
        }
        Leaf::Decimal { precision, scale } => {
            DataType::Decimal((*precision).into(), (*scale).into())
        }
    })
}

fn dtype(type_: &Type) -> Result<DataType, Aside> {
    Ok(match type_ {
        Type::Leaf(leaf) => leaf_dtype(leaf)?,
        Type::Struct(columns) => {
            let field = |column: &Column| {
                Ok(Field {
                    name: text(&column.name)?,
                    dtype: dtype(&column.type_)?,
                })
            };
            let fields: Result<_, _> = columns.iter().map(field).collect();
            DataType::Struct(fields?)
        }
        Type::List(element) => DataType::List(Box::new(dtype(&element.type_)?)),
        Type::Array(width, element) => {
            DataType::Array(Box::new(dtype(&element.type_)?), *width as usize)
        }
    })
}

fn iceberg_schema(columns: &[Column]) -> Result<IcebergSchema, Aside> {
    let columns: Result<_, _> = columns.iter().map(iceberg_column).collect();
    Ok(IcebergSchema::new(columns?))
}

fn iceberg_column(column: &Column) -> Result<IcebergColumn, Aside> {
    Ok(IcebergColumn {
        name: text(&column.name)?,
        physical_id: column.id,
        type_: match &column.type_ {
            Type::Leaf(leaf) => IcebergColumnType::Primitive {
                dtype: leaf_dtype(leaf)?,
            },
            Type::Struct(columns) => IcebergColumnType::Struct(iceberg_schema(columns)?),
            Type::List(element) => IcebergColumnType::List(Box::new(iceberg_column(element)?)),
            Type::Array(width, element) => IcebergColumnType::FixedSizeList(
                Box::new(iceberg_column(element)?),
                *width as usize,
            ),
        },
    })
}

fn defaults(entries: &[Entry]) -> Result<IcebergDefaultFieldValues, Aside> {
    let value = |value: &LeafValue| match value {
        None => Value::Null,
        Some(bytes) => Value::Leaf(bytes.clone()),
    };
    let mut defaults = IcebergDefaultFieldValues::default();
    let partitions = &mut defaults.identity_transformed_partition_fields;
    for entry in entries {
        match &entry.default {
            Default::Initial(leaf, initial) => {
                let scalar = Scalar::initial(leaf_dtype(leaf)?, value(initial));
                defaults.initial_defaults.insert(entry.id, scalar);
            }
            Default::Failed => {
                partitions.insert(entry.id, Err("failed".to_owned()));
            }
            Default::Loaded(leaf, values) => {
                let column = polars_core::prelude::Column {
                    name: PlSmallStr::EMPTY,
                    dtype: leaf_dtype(leaf)?,
                    values: values.iter().map(value).collect(),
                };
                partitions.insert(entry.id, Ok(column));
            }
        }
    }
    Ok(defaults)
}

// Answers.

fn refused(error: PolarsError, place: usize) -> Answer {
    let number = number(&error).unwrap_or_else(|| panic!("an error without a number: {error}"));
    let place = if number == 51 { 0 } else { place as u32 };
    Answer::Refused { number, place }
}

/// The ends of the texts of a mismatch. A mismatch that says no more ends with a type, which none of these does.
const HINTS: [(&str, u32); 16] = [
    ("(extra_struct_fields='ignore')", 13),
    ("(missing_struct_fields='insert')", 14),
    ("unimplemented: 'null-upcast' in scan cast options", 15),
    ("(integer_cast='upcast')", 16),
    ("incoming dtype cannot safely cast to target dtype", 17),
    ("(float_cast='upcast')", 18),
    ("(float_cast='downcast')", 19),
    ("(integer_cast='allow-float')", 20),
    ("(datetime_cast='convert-timezone')", 21),
    ("(datetime_cast='nanosecond-downcast')", 22),
    ("(datetime_cast='microsecond-downcast')", 22),
    ("(datetime_cast='microsecond-upcast')", 22),
    ("(datetime_cast='millisecond-upcast')", 22),
    ("(categorical_to_string='allow')", 23),
    ("physical ID mismatch for list values column", 25),
    ("physical ID mismatch for fixed size list values column", 25),
];

/// Precision and scale of a decimal, as a text has its type.
fn decimal(text: &str) -> Option<(u8, u8)> {
    let numbers = text.strip_prefix("Decimal(")?.strip_suffix(")")?;
    let (precision, scale) = numbers.split_once(", ")?;
    Some((precision.parse().ok()?, scale.parse().ok()?))
}

/// A mismatch that says no more: 24, and 51 where its two types are decimals that the flag, which the original lacks,
/// would widen.
fn plain_mismatch(text: &str) -> u32 {
    let types = || {
        let (rest, target) = text.rsplit_once(" != target: ")?;
        let (_, incoming) = rest.rsplit_once(": incoming: ")?;
        Some((decimal(incoming)?, decimal(target)?))
    };
    match types() {
        Some(((precision, scale), (wider, same))) if precision < wider && scale == same => 51,
        _ => 24,
    }
}

/// The number of an error by documents 01 and 02, from its kind and text.
fn number(error: &PolarsError) -> Option<u32> {
    match error {
        PolarsError::ColumnNotFound(_) => Some(11),
        PolarsError::ComputeError(text) if text.starts_with("duplicate struct field") => Some(12),
        PolarsError::ComputeError(text)
            if text.starts_with("error loading identity transform value") =>
        {
            Some(26)
        }
        PolarsError::ComputeError(_) => None,
        PolarsError::SchemaMismatch(text) => {
            let hint = HINTS.iter().find(|(hint, _)| text.ends_with(hint));
            Some(hint.map_or_else(|| plain_mismatch(text), |(_, number)| *number))
        }
    }
}

fn plan(selectors: &[ColumnSelector]) -> Vec<u8> {
    let mut bytes = b"PLN\x01\x00".to_vec();
    write_selectors(&mut bytes, selectors);
    bytes
}

fn write_selectors(bytes: &mut Vec<u8>, selectors: &[ColumnSelector]) {
    bytes.extend((selectors.len() as u16).to_le_bytes());
    for selector in selectors {
        write_selector(bytes, selector);
    }
}

fn write_selector(bytes: &mut Vec<u8>, selector: &ColumnSelector) {
    match selector {
        ColumnSelector::Position(index) => {
            bytes.push(0);
            bytes.extend((*index as u16).to_le_bytes());
        }
        ColumnSelector::Constant(constant) => {
            let (name, scalar) = constant.as_ref();
            let value = scalar.as_any_value();
            bytes.push(1);
            form::write_text(bytes, name.as_bytes());
            write_dtype(bytes, &value.dtype());
            write_value(bytes, value.value());
        }
        ColumnSelector::Transformed(transformed) => {
            let (input, transform) = transformed.as_ref();
            bytes.push(match transform {
                ColumnTransform::Cast { .. } => 2,
                ColumnTransform::Rename { .. } => 3,
                ColumnTransform::StructFieldsMapping { .. } => 4,
                ColumnTransform::ListValuesMapping { .. } => 5,
                ColumnTransform::FixedSizeListValuesMapping { .. } => 6,
            });
            write_selector(bytes, input);
            write_transform(bytes, transform);
        }
    }
}

/// What follows the input.
fn write_transform(bytes: &mut Vec<u8>, transform: &ColumnTransform) {
    match transform {
        ColumnTransform::Cast { dtype, options } => {
            write_dtype(bytes, dtype);
            bytes.push(match options {
                CastOptions::NonStrict => 0,
                CastOptions::Strict => 1,
                CastOptions::Overflowing => 2,
            });
        }
        ColumnTransform::Rename { name } => form::write_text(bytes, name.as_bytes()),
        ColumnTransform::StructFieldsMapping { field_selectors } => {
            write_selectors(bytes, field_selectors);
        }
        ColumnTransform::ListValuesMapping { values_selector }
        | ColumnTransform::FixedSizeListValuesMapping { values_selector } => {
            write_selector(bytes, values_selector);
        }
    }
}

/// The version 1 form of a type.
fn write_dtype(bytes: &mut Vec<u8>, dtype: &DataType) {
    bytes.push(match dtype {
        DataType::Null => 0,
        DataType::Boolean => 1,
        DataType::Int8 => 2,
        DataType::Int16 => 3,
        DataType::Int32 => 4,
        DataType::Int64 => 5,
        DataType::UInt8 => 6,
        DataType::UInt16 => 7,
        DataType::UInt32 => 8,
        DataType::UInt64 => 9,
        DataType::Float16 => 10,
        DataType::Float32 => 11,
        DataType::Float64 => 12,
        DataType::Date => 13,
        DataType::Datetime(..) => 14,
        DataType::String => 15,
        DataType::Binary => 16,
        DataType::Categorical => 17,
        DataType::Struct(_) => 18,
        DataType::List(_) => 19,
        DataType::Array(..) => 20,
        DataType::Decimal(..) => 21,
    });
    match dtype {
        DataType::Decimal(precision, scale) => bytes.extend([*precision as u8, *scale as u8]),
        DataType::Datetime(unit, zone) => {
            bytes.push(match unit {
                TimeUnit::Nanoseconds => 0,
                TimeUnit::Microseconds => 1,
                TimeUnit::Milliseconds => 2,
            });
            let zone = zone.as_ref().map_or("", |zone| zone.0.as_str());
            form::write_text(bytes, zone.as_bytes());
        }
        DataType::Struct(fields) => {
            bytes.extend((fields.len() as u16).to_le_bytes());
            for field in fields {
                form::write_text(bytes, field.name().as_bytes());
                write_dtype(bytes, field.dtype());
            }
        }
        DataType::List(inner) => write_dtype(bytes, inner),
        DataType::Array(inner, width) => {
            bytes.extend((*width as u32).to_le_bytes());
            write_dtype(bytes, inner);
        }
        _ => (),
    }
}

fn write_value(bytes: &mut Vec<u8>, value: &Value) {
    bytes.push((*value != Value::Null) as u8);
    match value {
        Value::Null => (),
        Value::Leaf(leaf) => bytes.extend(leaf),
        Value::Struct(values) => {
            for value in values {
                write_value(bytes, value);
            }
        }
    }
}
