//! Types that are written by each call of the serializer which has parts inside.
use dynamo_ser::{
    Error, Serialize, SerializeMap, SerializeSeq, SerializeStruct, SerializeStructVariant,
    SerializeTupleStruct, SerializeTupleVariant, Serializer,
};
use dynamo_value::Text;

/// A struct of two fields.
#[derive(Drop)]
pub struct Pair<T> {
    pub first: u8,
    pub second: T,
}

impl<T: Serialize> Serialize for Pair<T> {
    ghost tells = { ? };

    fn serialize<S: Serializer>(&self, serializer: S) -> Result<S::Ok, S::Error> {
        let mut fields = serializer.serialize_struct("Pair", 2)?;
        fields.serialize_field("first", &self.first)?;
        fields.serialize_field("second", &self.second)?;
        fields.end()
    }
}

/// A tuple struct, or a newtype struct where there is one field.
#[derive(Drop)]
pub enum Tupled<T> {
    One(T),
    Two(u8, T),
}

impl<T: Serialize> Serialize for Tupled<T> {
    ghost tells = { ? };

    fn serialize<S: Serializer>(&self, serializer: S) -> Result<S::Ok, S::Error> {
        match self {
            Tupled::One(content) => serializer.serialize_newtype_struct("Tupled", content),
            Tupled::Two(first, second) => {
                let mut fields = serializer.serialize_tuple_struct("Tupled", 2)?;
                fields.serialize_field(first)?;
                fields.serialize_field(second)?;
                fields.end()
            }
        }
    }
}

/// An enum with a variant of each kind that has content.
#[derive(Drop)]
pub enum Event<T> {
    Newtype(T),
    Tuple(u8, T),
    Structy { one: u8, two: T },
}

impl<T: Serialize> Serialize for Event<T> {
    ghost tells = { ? };

    fn serialize<S: Serializer>(&self, serializer: S) -> Result<S::Ok, S::Error> {
        match self {
            Event::Newtype(content) => {
                serializer.serialize_newtype_variant("Event", 0, "Newtype", content)
            }
            Event::Tuple(first, second) => {
                let mut fields = serializer.serialize_tuple_variant("Event", 1, "Tuple", 2)?;
                fields.serialize_field(first)?;
                fields.serialize_field(second)?;
                fields.end()
            }
            Event::Structy { one, two } => {
                let mut fields = serializer.serialize_struct_variant("Event", 2, "Structy", 2)?;
                fields.serialize_field("one", one)?;
                fields.serialize_field("two", two)?;
                fields.end()
            }
        }
    }
}

/// A value that refuses to be written, by the text `no`.
#[derive(Drop)]
pub struct Refuses;

impl Serialize for Refuses {
    ghost tells = { ? };

    fn serialize<S: Serializer>(&self, serializer: S) -> Result<S::Ok, S::Error> {
        Err(Error::custom(serializer.alloc(), "no"))
    }
}

/// A map that is written key by key, with so many keys in a row before the second value.
#[derive(Drop)]
pub struct KeyByKey<T> {
    pub value: T,
    pub keys: usize,
}

impl<T: Serialize> Serialize for KeyByKey<T> {
    ghost tells = { ? };

    fn serialize<S: Serializer>(&self, serializer: S) -> Result<S::Ok, S::Error> {
        let mut map = serializer.serialize_map(None)?;
        map.serialize_key(&Text::new("one"))?;
        map.serialize_value(&1u8)?;
        for _ in 0..self.keys {
            map.serialize_key(&Text::new("two"))?;
        }
        map.serialize_value(&self.value)?;
        map.end()
    }
}

/// A map whose second key is `()`.
#[derive(Drop)]
pub struct UnitKey;

impl Serialize for UnitKey {
    ghost tells = { ? };

    fn serialize<S: Serializer>(&self, serializer: S) -> Result<S::Ok, S::Error> {
        let mut map = serializer.serialize_map(None)?;
        map.serialize_entry(&Text::new("one"), &Event::Newtype(1u8))?;
        map.serialize_entry(&(), &2u8)?;
        map.end()
    }
}

/// A list that leaves out what is refused.
#[derive(Drop)]
pub struct Lenient<T> {
    pub first: T,
    pub second: T,
    pub is_refused: bool,
}

impl<T: Serialize> Serialize for Lenient<T> {
    ghost tells = { ? };

    fn serialize<S: Serializer>(&self, serializer: S) -> Result<S::Ok, S::Error> {
        let mut list = serializer.serialize_seq(None)?;
        let _ = list.serialize_element(&self.first);
        list.serialize_element(&1u8)?;
        if self.is_refused {
            list.serialize_element(&self.second)?;
        }
        list.end()
    }
}
