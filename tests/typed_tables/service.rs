//! A service of one file: the rooms of hotels, which are described, and the bookings of them, which derive serde's traits.
//!
//! Each table has the values of one type. Errors go through `?` into `anyhow`: the service has no error type of its own, and no
//! `From`.
ghost use Rattle.std.specs.Prelude.{[], ◌∷◌, codes, refl};
ghost use Rattle.dynamo_record.specs.Records.{record_of, record_tells, record_reads, about_record};

use booking::Booking;
use room::Room;
use serde_dynamo::{from_item, to_item};
use sqlite::{Connection, MemStore};
use std::alloc::{AllocError, Global};
use std::process::Abort;
use std::test::Fail;
use table_keys::{Condition, Key, KeyAttribute, KeyKind, KeySchema, KeyValue, Query, SortCondition};
use table_typed::TypedTable;
use table_typed_store::TypedStore;

mod room {
    use dynamo_record::{
        Field, FieldList, InStringSet, Record, WithDefault, read_record, record_conforms, write_record,
    };
    use serde_dynamo::de::{Deserialize, Deserializer, Error};
    use serde_dynamo::ser::{Serialize, Serializer};
    use serde_dynamo::{Shaped, StringSet};
    use std::alloc::{AllocError, Global};
    use table_keys::KeySchema;
    use table_typed::Keyed;

    /// A room of a hotel.
    #[derive(Debug, Drop)]
    pub struct Room {
        pub hotel: String,
        pub number: u16,
        pub beds: u8,
        pub extras: Vec<String>,
    }

    type RoomFields = (
        Field<String>,
        Field<u16>,
        Field<u8>,
        Field<WithDefault<InStringSet<String>>>,
    );

    impl Record for Room {
        type Fields = RoomFields;

        ghost about = { record_of (codes "Room") (codes "hotel" ∷ codes "number" ∷ codes "beds" ∷ codes "extras" ∷ []) (λ s. (record { 0 = s.hotel }, record { 0 = s.number }, record { 0 = s.beds }, record { 0 = s.extras })) ⟦<RoomFields as FieldList>⟧.about };

        ghost named = { (refl, refl) };

        fn name() -> &'static str {
            "Room"
        }

        fn expecting() -> &'static str {
            "struct Room"
        }

        fn names() -> &'static [&'static str] {
            &["hotel", "number", "beds", "extras"]
        }

        fn make(fields: RoomFields) -> Room {
            let (Field(hotel), Field(number), Field(beds), Field(extras)) = fields;
            Room {
                hotel,
                number,
                beds,
                extras,
            }
        }
    }

    impl Serialize for Room {
        ghost tells = { record_tells ⟦<Room as Record>⟧.about };

        fn serialize<S: Serializer>(&self, serializer: S) -> Result<S::Ok, S::Error> {
            write_record::<Room, _, S>(
                serializer,
                &(
                    &self.hotel,
                    &self.number,
                    &self.beds,
                    StringSet(&self.extras),
                ),
            )
        }
    }

    impl Deserialize for Room {
        ghost reads = { record_reads ⟦<Room as Record>⟧.about };

        fn deserialize<D: Deserializer>(alloc: Global, deserializer: D) -> Result<Room, D::Error> {
            read_record(alloc, deserializer)
        }
    }

    impl Shaped for Room {
        ghost about = { about_record ⟦<Room as Record>⟧.about (refl, refl) };

        ghost as_told = { refl };

        ghost reads_by_shape = { λ _ _ h. h };

        fn absent<E: Error>(_alloc: Global) -> Result<Option<Room>, E> {
            Ok(None)
        }

        fn conforms(&self) {
            record_conforms::<Room, _>(&(
                &self.hotel,
                &self.number,
                &self.beds,
                StringSet(&self.extras),
            ))
        }
    }


    impl Keyed for Room {
        fn key_schema(alloc: Global) -> Result<KeySchema, AllocError> {
            crate::service::schema(alloc, "hotel", "number")
        }
    }
}

mod booking {
    use dynamo_value::{Item, Result};
    use serde::{Deserialize, Serialize};
    use std::alloc::{AllocError, Global};
    use table_keys::KeySchema;
    use table_typed::{AsItem, Keyed};

    /// A booking of a room of a hotel.
    #[derive(Drop, Serialize, Deserialize)]
    #[serde(rename_all = "camelCase")]
    pub struct Booking {
        pub guest_name: String,
        pub night: u32,
        pub room: u16,
        #[serde(skip_serializing_if = "Option::is_none")]
        pub note: Option<String>,
    }

    impl AsItem for Booking {
        fn to_item(&self, alloc: Global) -> Result<Item> {
            dynamo_serde::to_item(alloc, self)
        }

        fn read_item(alloc: Global, item: &Item) -> Result<Booking> {
            dynamo_serde::read_item(alloc, item)
        }
    }

    impl Keyed for Booking {
        fn key_schema(alloc: Global) -> std::result::Result<KeySchema, AllocError> {
            crate::service::schema(alloc, "guestName", "night")
        }
    }
}

// The keys of a table: a partition key that is a string, and a sort key that is a number.
fn schema(alloc: Global, partition: &str, sort: &str) -> Result<KeySchema, AllocError> {
    Ok(KeySchema {
        partition: KeyAttribute {
            name: String::from_str(alloc, partition)?,
            kind: KeyKind::S,
        },
        sort: Some(KeyAttribute {
            name: String::from_str(alloc, sort)?,
            kind: KeyKind::N,
        }),
    })
}

/// The service: its rooms lie in a table in memory, and its bookings in a database.
#[derive(Drop)]
struct Hotels {
    alloc: Global,
    rooms: TypedTable<Room>,
    bookings: TypedStore<Booking, MemStore>,
}

impl Hotels {
    fn open(alloc: Global) -> anyhow::Result<Hotels> {
        let conn = Connection::open_in_memory(alloc)?;
        Ok(Hotels {
            alloc,
            rooms: TypedTable::new(alloc)?,
            bookings: TypedStore::create(alloc, conn, "bookings")?,
        })
    }

    // Adds a room that isn't there yet.
    fn add_room(&mut self, hotel: &str, number: u16, beds: u8) -> anyhow::Result<Key> {
        let room = Room {
            hotel: String::from_str(self.alloc, hotel)?,
            number,
            beds,
            extras: Vec::new(self.alloc),
        };
        Ok(self.rooms.put_if(Condition::NotExists, &room)?)
    }

    // Adds an extra to a room that has at most two.
    fn equip(&mut self, room: &Key, extra: &str) -> anyhow::Result<()> {
        let extra = String::from_str(self.alloc, extra)?;
        self.rooms.update(room, move |mut room| {
            anyhow::ensure!(room.extras.len() < 2, "the room is full");
            room.extras.push(extra)?;
            Ok(room)
        })
    }

    // Books a room for a night in which the guest has none.
    fn book(&mut self, guest: &str, night: u32, room: u16) -> anyhow::Result<Key> {
        let booking = Booking {
            guest_name: String::from_str(self.alloc, guest)?,
            night,
            room,
            note: None,
        };
        let (key, _) = self.bookings.put_if(Condition::NotExists, &booking)?;
        Ok(key)
    }

    // Moves a booking to another room.
    fn rebook(&mut self, booking: &Key, room: u16) -> anyhow::Result<()> {
        self.bookings.update(booking, |mut booking| {
            anyhow::ensure!(booking.room != room, "it is that room");
            booking.room = room;
            Ok(booking)
        })
    }

    // The rooms of a hotel from a number on, as their items and back.
    fn rooms_from(&self, hotel: &str, number: &str) -> anyhow::Result<Vec<Room>> {
        let first = self.rooms.key_from(hotel, Some(number))?;
        let mut query = Query::of(&first.partition);
        if let Some(number) = &first.sort {
            query.sort = SortCondition::GreaterOrEqual(number);
        }
        let mut rooms = Vec::new(self.alloc);
        for room in self.rooms.query(&query)? {
            rooms.push(from_item(self.alloc, to_item(self.alloc, &room)?)?)?;
        }
        Ok(rooms)
    }

    // The nights that a guest has booked, the last first.
    fn nights(&mut self, guest: &str) -> anyhow::Result<Vec<u32>> {
        let partition = KeyValue::S(String::from_str(self.alloc, guest)?);
        let mut query = Query::of(&partition);
        query.backward = true;
        let mut nights = Vec::new(self.alloc);
        for booking in self.bookings.query(&query)? {
            nights.push(booking.night)?;
        }
        Ok(nights)
    }
}

// The text of the error.
fn refused<T: Drop>(alloc: Global, done: anyhow::Result<T>) -> anyhow::Result<String> {
    match done {
        Ok(_) => Ok(String::from_str(alloc, "done")?),
        Err(error) => Ok(error.to_string(alloc)?),
    }
}

fn serve(rt: &impl Abort, alloc: Global) -> anyhow::Result<()> {
    let mut hotels = Hotels::open(alloc)?;
    let first = hotels.add_room("Sea", 101, 2)?;
    hotels.add_room("Sea", 102, 1)?;
    hotels.add_room("Hill", 7, 3)?;
    let again = hotels.add_room("Sea", 101, 4);
    assert_eq!(rt; refused(alloc, again)?.as_str(), "the condition does not hold");
    hotels.equip(&first, "sauna")?;
    hotels.equip(&first, "desk")?;
    assert_eq!(rt; refused(alloc, hotels.equip(&first, "bath"))?.as_str(), "the room is full");
    let rooms = hotels.rooms_from("Sea", "102")?;
    assert!(rt; matches!(rooms.as_slice(), [room] if room.number == 102 && room.beds == 1));
    let all = hotels.rooms.scan_all()?;
    assert!(rt; matches!(all.as_slice(), [a, b, c] if a.number == 7 && b.extras.len() == 2 && c.beds == 1));

    let late = hotels.book("Arthur", 12, 101)?;
    hotels.book("Arthur", 9, 102)?;
    hotels.book("Ford", 9, 101)?;
    let twice = hotels.book("Arthur", 12, 102);
    assert_eq!(rt; refused(alloc, twice)?.as_str(), "the condition does not hold");
    hotels.rebook(&late, 102)?;
    assert_eq!(rt; refused(alloc, hotels.rebook(&late, 102))?.as_str(), "it is that room");
    let nights = hotels.nights("Arthur")?;
    assert_eq!(rt; nights.as_slice(), [12, 9].as_slice());
    let page = hotels.bookings.scan(2, Some(&late))?;
    assert!(rt; matches!(page.as_slice(), [ford] if ford.night == 9 && ford.room == 101));
    assert!(rt; hotels.bookings.delete_if(Condition::Exists, &late)?);
    assert!(rt; hotels.bookings.get(&late)?.is_none());
    let gone = refused(alloc, hotels.rebook(&late, 101))?;
    assert_eq!(rt; gone.as_str(), "no item has the key");
    Ok(())
}

#[test]
fn the_service_serves(rt: HostRuntime) -> Result<(), Fail> {
    let alloc = rt.alloc();
    assert!(&rt; serve(&rt, alloc).is_ok());
    Ok(())
}
