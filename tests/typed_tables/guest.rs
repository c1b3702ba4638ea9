//! A guest: a type that is described.
ghost use Rattle.std.specs.Prelude.{[], ◌∷◌, codes, refl};
ghost use Rattle.dynamo_record.specs.Records.{record_of, record_tells, record_reads, about_record};

use dynamo_record::{Field, FieldList, Record, read_record, record_conforms, write_record};
use serde_dynamo::Shaped;
use serde_dynamo::de::{Deserialize, Deserializer, Error};
use serde_dynamo::ser::{Serialize, Serializer};
use std::alloc::{AllocError, Global};
use table_memory::{KeyAttribute, KeyKind, KeySchema};
use table_typed::Keyed;

#[derive(Debug, Drop, PartialEq, Eq)]
pub struct Guest {
    pub id: String,
    pub name: String,
    pub visits: u32,
}

impl Guest {
    pub fn new(alloc: Global, id: &str, name: &str, visits: u32) -> Result<Guest, AllocError> {
        Ok(Guest {
            id: String::from_str(alloc, id)?,
            name: String::from_str(alloc, name)?,
            visits,
        })
    }
}

impl Keyed for Guest {
    fn key_schema(alloc: Global) -> Result<KeySchema, AllocError> {
        Ok(KeySchema {
            partition: KeyAttribute {
                name: String::from_str(alloc, "id")?,
                kind: KeyKind::S,
            },
            sort: None,
        })
    }
}

type GuestFields = ((Field<String>, Field<String>), Field<u32>);

impl Record for Guest {
    type Fields = GuestFields;

    ghost about = { record_of (codes "Guest") (codes "id" ∷ codes "name" ∷ codes "visits" ∷ []) (λ s. ((record { 0 = s.id }, record { 0 = s.name }), record { 0 = s.visits })) ⟦<GuestFields as FieldList>⟧.about };

    ghost named = { (refl, refl) };

    fn name() -> &'static str {
        "Guest"
    }

    fn expecting() -> &'static str {
        "struct Guest"
    }

    fn names() -> &'static [&'static str] {
        &["id", "name", "visits"]
    }

    fn make(fields: GuestFields) -> Guest {
        let ((Field(id), Field(name)), Field(visits)) = fields;
        Guest { id, name, visits }
    }
}

impl Serialize for Guest {
    ghost tells = { record_tells ⟦<Guest as Record>⟧.about };

    fn serialize<S: Serializer>(&self, serializer: S) -> Result<S::Ok, S::Error> {
        write_record::<Guest, _, S>(serializer, &((&self.id, &self.name), &self.visits))
    }
}

impl Deserialize for Guest {
    ghost reads = { record_reads ⟦<Guest as Record>⟧.about };

    fn deserialize<D: Deserializer>(alloc: Global, deserializer: D) -> Result<Guest, D::Error> {
        read_record(alloc, deserializer)
    }
}

impl Shaped for Guest {
    ghost about = { about_record ⟦<Guest as Record>⟧.about (refl, refl) };

    ghost as_told = { refl };

    ghost reads_by_shape = { λ _ _ h. h };

    fn absent<E: Error>(_alloc: Global) -> Result<Option<Guest>, E> {
        Ok(None)
    }

    fn conforms(&self) {
        record_conforms::<Guest, _>(&((&self.id, &self.name), &self.visits))
    }
}
