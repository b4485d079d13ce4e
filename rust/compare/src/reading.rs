//! The other side of the comparison: a reading of the rules.

/// A question as the comparison makes it.
#[derive(Clone, Debug)]
pub struct Asked {
    /// The name on the wire.
    pub name: Vec<u8>,
    /// The record type.
    pub record_type: u16,
    /// The client's address.
    pub client: Vec<u8>,
    /// The moment.
    pub moment: u64,
}

/// A record that the lines give as an answer.
#[derive(Clone, Debug, PartialEq, Eq)]
pub struct Given {
    /// The record type.
    pub record_type: u16,
    /// The lifetime.
    pub lifetime: u32,
    /// Sizes of this record and all before it, summed.
    pub end: u64,
    /// The record data.
    pub data: Vec<u8>,
}

/// The outcome's number and the records that the lines give to a question, or
/// the refusal's number.
pub type Meant = Result<(u64, Vec<Given>), u64>;

/// Compiles a source with a serial into a buffer and gives the numbers.
pub type Compile<'a> = &'a dyn Fn(&[u8], u32, &mut [u8]) -> [u64; 4];

/// Tells what parts answer as one source with a serial, and what it writes
/// into a buffer, from what each is answered by itself; `None` where a part
/// before the last isn't ended.
pub type FromParts = fn(Compile<'_>, &[&[u8]], u32, &mut [u8]) -> Option<[u64; 4]>;

/// A second implementation, or an edited copy of it.
#[derive(Clone, Copy)]
pub struct Reading {
    /// What it is called in messages.
    pub name: &'static str,
    /// Compiles a source.
    pub compile: fn(&[u8], u32, &mut [u8]) -> [u64; 4],
    /// Tells of a joined source.
    pub joined: FromParts,
    /// Asks for the record at an ordinal: lays the answer into the slice and
    /// returns what the call must.
    pub ask: fn(&[u8], &Asked, u64, &mut [u8]) -> u64,
    /// Answers questions from the lines of an accepted source.
    pub meaning: fn(&[u8], u32, &[Asked]) -> Vec<Meant>,
    /// Where a client is, by the lines of an accepted source.
    pub location: fn(&[u8], &[u8]) -> Option<[u8; 2]>,
    /// Whether two accepted sources answer a client the same.
    pub alike: fn(&[u8], &[u8], &[u8]) -> bool,
    /// Whether an accepted source has no time after the earlier moment and not
    /// after the later one.
    pub steady: fn(&[u8], u64, u64) -> bool,
    /// The records that can matter to questions for a name; `None` where the
    /// bytes aren't whole records or the name isn't one.
    pub relevant: fn(&[u8], &[u8]) -> Option<Vec<u8>>,
}

/// Makes a [`Reading`] of a module with the names of the crate `reference`.
#[macro_export]
macro_rules! reading {
    ($name:expr, $($module:ident)::+) => {
        $crate::reading::Reading {
            name: $name,
            compile: |source, serial, out| $($module)::+::compile(source, serial, out).numbers(),
            joined: |compile, parts, serial, out| {
                let compile = |part: &[u8], serial, out: &mut [u8]| {
                    let [number, line, field, bytes] = compile(part, serial, out);
                    $($module)::+::CompileAnswer { number, line, field, bytes }
                };
                let answer = $($module)::+::joined(parts, serial, out, &compile)?;
                Some(answer.numbers())
            },
            ask: |records, asked, ordinal, answer| {
                let question = $($module)::+::Question {
                    name: &asked.name,
                    record_type: asked.record_type,
                    client: &asked.client,
                    moment: asked.moment,
                };
                $($module)::+::ask(records, &question, ordinal).lay(answer)
            },
            meaning: |source, serial, asked| {
                let records = $($module)::+::records(source, serial).expect("an accepted source");
                let meant = |asked: &$crate::reading::Asked| {
                    let question = $($module)::+::Question {
                        name: &asked.name,
                        record_type: asked.record_type,
                        client: &asked.client,
                        moment: asked.moment,
                    };
                    let told = $($module)::+::meaning::told(&records, &question)?;
                    let given = told.list.into_iter().map(|given| $crate::reading::Given {
                        record_type: given.record_type,
                        lifetime: given.lifetime,
                        end: given.end,
                        data: given.data,
                    });
                    Ok((told.outcome.number(), given.collect()))
                };
                asked.iter().map(meant).collect()
            },
            location: |source, client| {
                $($module)::+::towns::location(source, client).map(|lo| lo.0)
            },
            alike: $($module)::+::towns::alike,
            steady: $($module)::+::towns::steady,
            relevant: $($module)::+::index::relevant,
        }
    };
}

/// The second implementation as it is.
pub const REFERENCE: Reading = reading!("reference", reference);
