ghost use Rattle.std.specs.Prelude.{[], ◌∷◌, codes, refl};
ghost use Rattle.dynamo_record.specs.Records.{record_of, record_tells, record_reads, about_record};

use dynamo_record::{Field, FieldList, Record, read_record, record_conforms, write_record};
use serde_dynamo::Shaped;
use serde_dynamo::de::{Deserialize, Deserializer, Error};
use serde_dynamo::ser::{Serialize, Serializer};
use std::alloc::Global;

/// A member of a club.
#[derive(Debug, Drop)]
pub struct Member {
    /// The number on the card.
    pub id: String,

    /// The name.
    pub name: String,

    /// The age in years.
    pub age: u8,
}

type MemberFields = ((Field<String>, Field<String>), Field<u8>);

impl Record for Member {
    type Fields = MemberFields;

    ghost about = { record_of (codes "Member") (codes "id" ∷ codes "name" ∷ codes "age" ∷ []) (λ s. ((record { 0 = s.id }, record { 0 = s.name }), record { 0 = s.age })) ⟦<MemberFields as FieldList>⟧.about };

    ghost named = { (refl, refl) };

    fn name() -> &'static str {
        "Member"
    }

    fn expecting() -> &'static str {
        "struct Member"
    }

    fn names() -> &'static [&'static str] {
        &["id", "name", "age"]
    }

    fn make(fields: MemberFields) -> Member {
        let ((Field(id), Field(name)), Field(age)) = fields;
        Member { id, name, age }
    }
}

impl Serialize for Member {
    ghost tells = { record_tells ⟦<Member as Record>⟧.about };

    fn serialize<S: Serializer>(&self, serializer: S) -> Result<S::Ok, S::Error> {
        write_record::<Member, _, S>(serializer, &((&self.id, &self.name), &self.age))
    }
}

impl Deserialize for Member {
    ghost reads = { record_reads ⟦<Member as Record>⟧.about };

    fn deserialize<D: Deserializer>(alloc: Global, deserializer: D) -> Result<Member, D::Error> {
        read_record(alloc, deserializer)
    }
}

impl Shaped for Member {
    ghost about = { about_record ⟦<Member as Record>⟧.about (refl, refl) };

    ghost as_told = { refl };

    ghost reads_by_shape = { λ _ _ h. h };

    fn absent<E: Error>(_alloc: Global) -> Result<Option<Member>, E> {
        Ok(None)
    }

    fn conforms(&self) {
        record_conforms::<Member, _>(&((&self.id, &self.name), &self.age))
    }
}
