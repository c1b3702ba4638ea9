//! Types that make one call of the serializer each.

use dynamo_ser::{
    Error, Serialize, SerializeStruct, SerializeStructVariant, SerializeTupleStruct,
    SerializeTupleVariant, Serializer,
};

/// `struct Nothing;`.
#[derive(Clone, Copy, Debug, PartialEq, Eq, Hash, PartialOrd, Ord)]
pub struct Nothing;

impl Serialize for Nothing {
    ghost tells = { ? };

    fn serialize<S: Serializer>(&self, serializer: S) -> Result<S::Ok, S::Error> {
        serializer.serialize_unit_struct("Nothing")
    }
}

/// `Unit` of an enum.
#[derive(Clone, Copy, Debug, PartialEq, Eq, Hash, PartialOrd, Ord)]
pub struct Unit;

impl Serialize for Unit {
    ghost tells = { ? };

    fn serialize<S: Serializer>(&self, serializer: S) -> Result<S::Ok, S::Error> {
        serializer.serialize_unit_variant("Event", 0, "Unit")
    }
}

/// `struct Wrapped(T)`.
#[derive(Clone, Copy, Debug, Drop, PartialEq, Eq, Hash, PartialOrd, Ord)]
pub struct Wrapped<T>(pub T);

impl<T: Serialize> Serialize for Wrapped<T> {
    ghost tells = { ? };

    ghost wants = { ? };

    fn serialize<S: Serializer>(&self, serializer: S) -> Result<S::Ok, S::Error> {
        serializer.serialize_newtype_struct("Wrapped", &self.0)
    }
}

/// `Newtype(T)` of an enum.
#[derive(Clone, Copy, Debug, Drop, PartialEq, Eq, Hash, PartialOrd, Ord)]
pub struct Newtype<T>(pub T);

impl<T: Serialize> Serialize for Newtype<T> {
    ghost tells = { ? };

    ghost wants = { ? };

    fn serialize<S: Serializer>(&self, serializer: S) -> Result<S::Ok, S::Error> {
        serializer.serialize_newtype_variant("Event", 1, "Newtype", &self.0)
    }
}

/// `struct Both(T, U)`.
#[derive(Drop)]
pub struct Both<T, U>(pub T, pub U);

impl<T: Serialize, U: Serialize> Serialize for Both<T, U> {
    ghost tells = { ? };

    fn serialize<S: Serializer>(&self, serializer: S) -> Result<S::Ok, S::Error> {
        let mut both = serializer.serialize_tuple_struct("Both", 2)?;
        both.serialize_field(&self.0)?;
        both.serialize_field(&self.1)?;
        both.end()
    }
}

/// `Tuple(T, U)` of an enum.
#[derive(Drop)]
pub struct Tuple<T, U>(pub T, pub U);

impl<T: Serialize, U: Serialize> Serialize for Tuple<T, U> {
    ghost tells = { ? };

    fn serialize<S: Serializer>(&self, serializer: S) -> Result<S::Ok, S::Error> {
        let mut tuple = serializer.serialize_tuple_variant("Event", 2, "Tuple", 2)?;
        tuple.serialize_field(&self.0)?;
        tuple.serialize_field(&self.1)?;
        tuple.end()
    }
}

/// A struct of two fields under these names, in this order.
#[derive(Drop)]
pub struct Fields<T, U> {
    pub names: (&'static str, &'static str),
    pub first: T,
    pub second: U,
}

impl<T: Serialize, U: Serialize> Serialize for Fields<T, U> {
    ghost tells = { ? };

    fn serialize<S: Serializer>(&self, serializer: S) -> Result<S::Ok, S::Error> {
        let mut fields = serializer.serialize_struct("Fields", 2)?;
        fields.serialize_field(self.names.0, &self.first)?;
        fields.serialize_field(self.names.1, &self.second)?;
        fields.end()
    }
}

/// `Structy { one: T, two: U }` of an enum.
#[derive(Drop)]
pub struct Structy<T, U> {
    pub one: T,
    pub two: U,
}

impl<T: Serialize, U: Serialize> Serialize for Structy<T, U> {
    ghost tells = { ? };

    fn serialize<S: Serializer>(&self, serializer: S) -> Result<S::Ok, S::Error> {
        let mut structy = serializer.serialize_struct_variant("Event", 3, "Structy", 2)?;
        structy.serialize_field("one", &self.one)?;
        structy.serialize_field("two", &self.two)?;
        structy.end()
    }
}

/// A value that refuses to be written, by the text `no`.
#[derive(Clone, Copy, Debug, PartialEq, Eq, Hash, PartialOrd, Ord)]
pub struct Refuses;

impl Serialize for Refuses {
    ghost tells = { ? };

    ghost wants = { ? };

    fn serialize<S: Serializer>(&self, serializer: S) -> Result<S::Ok, S::Error> {
        Err(Error::custom(serializer.alloc(), "no"))
    }
}
