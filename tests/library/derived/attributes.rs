// Attributes on types and on fields.
use crate::derived::rows::{reads, text, writes};
use serde::{Deserialize, Deserializer, Format, Serialize, Serializer};
use std::alloc::Global;
use std::collections::BTreeMap;
use std::test::Fail;

#[derive(Drop, Serialize, Deserialize)]
struct Page {
    total: u32,
    #[serde(flatten)]
    cursor: Cursor,
}

#[derive(Drop, Serialize, Deserialize)]
struct Cursor {
    at: u8,
    #[serde(flatten)]
    deeper: Deeper,
}

#[derive(Drop, Serialize, Deserialize)]
struct Deeper {
    below: Vec<u8>,
}

// `Deserialize` takes no flattened `Option` and no flattened map.
#[derive(Drop, Serialize)]
struct Note {
    #[serde(flatten)]
    extra: Option<Deeper>,
    #[serde(flatten)]
    counts: BTreeMap<String, u8>,
}

#[derive(Drop, Serialize, Deserialize)]
#[serde(deny_unknown_fields)]
struct Strict {
    #[serde(rename = "Name", alias = "label")]
    name: String,
    #[serde(skip)]
    cache: u8,
    #[serde(default = "eighty")]
    width: u8,
}

fn eighty() -> u8 {
    80
}

#[derive(Drop, Default, Serialize, Deserialize)]
#[serde(default, rename = "Tuning", expecting = "a tuning")]
struct Tuned {
    #[serde(rename(serialize = "out", deserialize = "in"))]
    level: u8,
    #[serde(skip_serializing)]
    secret: u8,
    #[serde(skip_deserializing)]
    answer: u8,
    #[serde(serialize_with = "add_one", deserialize_with = "less_one")]
    shifted: u8,
}

fn add_one<S: Serializer>(n: &u8, out: &mut S) -> Result<(), S::Error> {
    out.u64(u64::from(*n).saturating_add(1))
}

fn less_one<F: Format>(
    _alloc: Global,
    from: &mut Deserializer<'_, '_, F>,
) -> Result<u8, F::Error> {
    let n = from.u64()?;
    u8::try_from(n.saturating_sub(1)).map_err(|_| from.custom("too large"))
}

#[derive(Drop, Serialize, Deserialize)]
#[serde(transparent)]
struct Wrapper<T> {
    inner: Vec<T>,
}

#[derive(Drop, Serialize, Deserialize)]
#[serde(recursive)]
struct Tree {
    leaf: u8,
    #[serde(recursive)]
    branches: Vec<Tree>,
}

#[test]
fn flattened(rt: HostRuntime) -> Result<(), Fail> {
    let alloc = rt.alloc();
    reads::<Page>(&rt, alloc, &[
        (r#"{"M":{"at":{"N":"2"},"below":{"L":[{"N":"1"}]},"total":{"N":"10"}}}"#, ""),
        (r#"{"M":{"at":{"N":"2"},"total":{"N":"10"}}}"#, "missing field `below`"),
    ])?;
    let mut counts = BTreeMap::new(alloc);
    counts.insert(text(alloc, "k")?, 1)?;
    let mut note = Note {
        extra: None,
        counts,
    };
    writes(&rt, alloc, &note, r#"{"M":{"k":{"N":"1"}}}"#)?;
    note.extra = Some(Deeper {
        below: Vec::new(alloc),
    });
    writes(&rt, alloc, &note, r#"{"M":{"below":{"L":[]},"k":{"N":"1"}}}"#)
}

#[test]
fn fields(rt: HostRuntime) -> Result<(), Fail> {
    let alloc = rt.alloc();
    reads::<Wrapper<Strict>>(&rt, alloc, &[
        (r#"{"L":[{"M":{"Name":{"S":"n"},"width":{"N":"3"}}}]}"#, ""),
        (
            r#"{"L":[{"M":{"label":{"S":"n"}}}]}"#,
            r#"{"L":[{"M":{"Name":{"S":"n"},"width":{"N":"80"}}}]}"#,
        ),
        (r#"{"L":[{"M":{"label":{"S":"n"},"x":{"N":"1"}}}]}"#, "unknown field `x`"),
        (r#"{"L":[{"M":{"cache":{"N":"1"},"label":{"S":"n"}}}]}"#, "unknown field `cache`"),
        (r#"{"L":[{"M":{"Name":{"S":"n"},"label":{"S":"n"}}}]}"#, "duplicate field `name`"),
        (r#"{"L":[{"M":{}}]}"#, "missing field `Name`"),
        (r#"{"SS":["a"]}"#, "Expected map"),
    ])?;
    reads::<Tuned>(&rt, alloc, &[
        (r#"{"M":{}}"#, r#"{"M":{"answer":{"N":"0"},"out":{"N":"0"},"shifted":{"N":"1"}}}"#),
        (
            r#"{"M":{"answer":{"N":"9"},"in":{"N":"4"},"secret":{"N":"5"},"shifted":{"N":"8"}}}"#,
            r#"{"M":{"answer":{"N":"0"},"out":{"N":"4"},"shifted":{"N":"8"}}}"#,
        ),
        (r#"{"M":{"shifted":{"N":"900"}}}"#, "too large"),
    ])
}

#[test]
fn a_recursive_type(rt: HostRuntime) -> Result<(), Fail> {
    reads::<Tree>(&rt, rt.alloc(), &[
        (r#"{"M":{"branches":{"L":[{"M":{"branches":{"L":[]},"leaf":{"N":"2"}}}]},"leaf":{"N":"1"}}}"#, ""),
        (r#"{"M":{"branches":{"L":[{"M":{"branches":{"L":[]}}}]},"leaf":{"N":"1"}}}"#, "missing field `leaf`"),
    ])
}
