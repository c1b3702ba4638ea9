//! A described type, as `./dynamo_derive` prints it. What was stored of it is proved to read back: the contract of `reread_station`.
//! In crates.txt: `described_type: dynamo_record dynamo_value serde_dynamo serde_json anyhow`
#![tactic(auto)]

ghost use Rattle.std.specs.Prelude.{[], ◌∷◌, ◌≡◌, MatchResult, codes, refl, string_bytes};
ghost use Rattle.dynamo_value.specs.Fault.{out_of_memory};
ghost use Rattle.dynamo_value.specs.Kind.{fault_of};
ghost use Rattle.dynamo_record.specs.Records.{record_of, record_tells, record_reads, about_record};

use dynamo_record::{Field, FieldList, Record, read_record, record_conforms, write_record};
use serde_dynamo::de::{Deserialize, Deserializer, Error};
use serde_dynamo::ser::{Serialize, Serializer};
use serde_dynamo::{AttributeValue, DynamoJson, Shaped, reread};
use serde_json::Value;
use std::alloc::Global;

#[derive(Debug, Drop)]
pub struct Station {
    pub id: String,
    pub reading: u8,
}

type StationFields = (Field<String>, Field<u8>);

impl Record for Station {
    type Fields = StationFields;

    ghost about = { record_of (codes "Station") (codes "id" ∷ codes "reading" ∷ []) (λ s. (record { 0 = s.id }, record { 0 = s.reading })) ⟦<StationFields as FieldList>⟧.about };

    ghost named = { (refl, refl) };

    fn name() -> &'static str {
        "Station"
    }

    fn expecting() -> &'static str {
        "struct Station"
    }

    fn names() -> &'static [&'static str] {
        &["id", "reading"]
    }

    fn make(fields: StationFields) -> Station {
        let (Field(id), Field(reading)) = fields;
        Station { id, reading }
    }
}

impl Serialize for Station {
    ghost tells = { record_tells ⟦<Station as Record>⟧.about };

    fn serialize<S: Serializer>(&self, serializer: S) -> Result<S::Ok, S::Error> {
        write_record::<Station, _, S>(serializer, &(&self.id, &self.reading))
    }
}

impl Deserialize for Station {
    ghost reads = { record_reads ⟦<Station as Record>⟧.about };

    fn deserialize<D: Deserializer>(alloc: Global, deserializer: D) -> Result<Station, D::Error> {
        read_record(alloc, deserializer)
    }
}

impl Shaped for Station {
    ghost about = { about_record ⟦<Station as Record>⟧.about (refl, refl) };

    ghost as_told = { refl };

    ghost reads_by_shape = { λ _ _ h. h };

    fn absent<E: Error>(_alloc: Global) -> Result<Option<Station>, E> {
        Ok(None)
    }

    fn conforms(&self) {
        record_conforms::<Station, _>(&(&self.id, &self.reading))
    }
}

/// Returns what was stored of a station: its attribute value, its DynamoDB JSON, and the station that was read from it.
pub fn reread_station(
    alloc: Global,
    station: &Station,
) -> serde_dynamo::Result<(AttributeValue, Value, Station)>
    ensures id { MatchResult result (λ parts. string_bytes station.now.id ≡ string_bytes parts.2.id) (λ e. fault_of e ≡ out_of_memory) }
    ensures reading { MatchResult result (λ parts. station.now.reading ≡ parts.2.reading) (λ e. fault_of e ≡ out_of_memory) }
{
    reread(alloc, station)
}

fn main(rt: HostRuntime) -> anyhow::Result<()> {
    let id = String::from_str(rt.alloc(), "north")?;
    let (value, _, read) = reread_station(rt.alloc(), &Station { id, reading: 7 })?;
    println!(rt; "{}", value.to_json_text(rt.alloc())?)?;
    println!(rt; "{read:?}")?;
    Ok(())
}
