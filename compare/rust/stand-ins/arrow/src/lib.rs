//! Stand-in for the crate `arrow`: what transform.rs needs to be compiled. Nothing here is run, for Arrow columns are
//! left out.

pub mod array {
    use crate::datatypes::ArrowDataType;
    use polars_utils::pl_str::PlSmallStr;

    pub const LIST_VALUES_NAME: PlSmallStr = PlSmallStr::EMPTY;

    pub trait Array {
        fn dtype(&self) -> &ArrowDataType {
            unreachable!()
        }
    }

    impl Clone for Box<dyn Array> {
        fn clone(&self) -> Self {
            unreachable!()
        }
    }

    /// Where the values of a list array begin and end.
    #[derive(Clone)]
    pub struct Offsets;

    /// Which values are present.
    #[derive(Clone)]
    pub struct Bitmap;

    pub struct LargeListArray;

    impl Array for LargeListArray {}

    #[allow(clippy::borrowed_box)]
    impl LargeListArray {
        pub fn new(
            _: ArrowDataType,
            _: Offsets,
            _: Box<dyn Array>,
            _: Option<Bitmap>,
        ) -> LargeListArray {
            unreachable!()
        }

        pub fn values(&self) -> &Box<dyn Array> {
            unreachable!()
        }

        pub fn offsets(&self) -> &Offsets {
            unreachable!()
        }

        pub fn validity(&self) -> Option<&Bitmap> {
            unreachable!()
        }

        pub fn boxed(self) -> Box<dyn Array> {
            unreachable!()
        }
    }

    pub struct FixedSizeListArray;

    impl Array for FixedSizeListArray {}

    #[allow(clippy::borrowed_box, clippy::len_without_is_empty)]
    impl FixedSizeListArray {
        pub fn new(
            _: ArrowDataType,
            _: usize,
            _: Box<dyn Array>,
            _: Option<Bitmap>,
        ) -> FixedSizeListArray {
            unreachable!()
        }

        pub fn values(&self) -> &Box<dyn Array> {
            unreachable!()
        }

        pub fn validity(&self) -> Option<&Bitmap> {
            unreachable!()
        }

        pub fn size(&self) -> usize {
            unreachable!()
        }

        pub fn len(&self) -> usize {
            unreachable!()
        }

        pub fn boxed(self) -> Box<dyn Array> {
            unreachable!()
        }
    }
}

pub mod datatypes {
    use polars_utils::pl_str::PlSmallStr;

    #[derive(Clone)]
    pub enum ArrowDataType {
        LargeList(Box<Field>),
        FixedSizeList(Box<Field>, usize),
    }

    #[derive(Clone)]
    pub struct Field;

    impl Field {
        pub fn new(_: PlSmallStr, _: ArrowDataType, _: bool) -> Self {
            unreachable!()
        }
    }
}
